"""What the next matches can decide on a board's page: for each line and club, by which one result.
"""

from __future__ import annotations

from typing import TYPE_CHECKING, Dict, List, Tuple

from .answers import OUTCOMES
from .changes import SHORT
from .marks import capital, name_of
from .page_zones import in_order, word_of, word_text
from .texts import Fixture
from .tonight_words import TURNED

if TYPE_CHECKING:
    from .board import Board

# the outcomes of each match that bring a club in, or out
Ways = Dict[Tuple[int, str, str], Dict[int, List[str]]]
MOST_PRINTED = 24


def evening(board: Board) -> list[str]:
    """What one result decides, the title first, then relegation, then the other lines."""
    if board.outlook is None:
        return []
    say = board.phrases
    parts = ['<section class="evening">', f"<h2>{say.text('evening')}</h2>"]
    if not board.outlook:
        return [*parts, f"<p>{say.text('evening.none')}</p>", "</section>"]
    parts += [f'<p class="quiet">{say.text("evening.intro", goals=board.sheet.goal_limit)}</p>',
              '<div class="columns">']
    ways, told = ways_of(board), 0
    for places in in_order(board):
        items = _items(board, ways, places)
        if items:
            told += len(items)
            kind = ' class="unprinted"' if told > MOST_PRINTED else ""
            title = capital(say.line(board.names, places, len(board.table)))
            parts += [f"<div{kind}>", f"<h3>{title}</h3>", "<ul>", *items, "</ul>", "</div>"]
    return [*parts, "</div>", "</section>"]


def ways_of(board: Board) -> Ways:
    """By line, club and word: the outcomes of each match that decide it."""
    found: Ways = {}
    for one in board.outlook or []:
        for change in one.changes:
            mark = (change.places, change.club, SHORT[change.now])
            found.setdefault(mark, {}).setdefault(one.fixture.number, []).append(one.outcome)
    return found


def _items(board: Board, ways: Ways, places: int) -> list[str]:
    """The open clubs of a line with their ways; those without one together."""
    say, items, quiet = board.phrases, [], []
    for place in board.table:
        if word_of(board, places, place.club) != "open":
            continue
        texts = [say.text("evening.word", word=word_text(board, word),
                          ways=_ways_text(board, its, place.club))
                 for word in ("in", "out") if (its := ways.get((places, place.club, word)))]
        if texts:
            told = say.text("evening.club", club=name_of(place.club), told="; ".join(texts))
            items.append(f"<li>{told}</li>")
        else:
            quiet.append(name_of(place.club))
    if quiet and items or 0 < len(quiet) <= 3:
        items.append(f"<li>{say.text('evening.open', clubs=say.listed(quiet))}</li>")
    return items


def _ways_text(board: Board, ways: dict[int, list[str]], club: str) -> str:
    """The ways of a club, its own match first."""
    fixtures = sorted((board.sheet.fixture(number) for number in ways),
                      key=lambda it: club not in (it.home, it.away))
    return board.phrases.listed([_way(board, it, ways[it.number], club) for it in fixtures], "or")


def _way(board: Board, fixture: Fixture, outcomes: list[str], club: str) -> str:
    """Outcomes of a match as a condition, of the club itself where it plays."""
    say, is_own = board.phrases, club in (fixture.home, fixture.away)
    names = (fixture.home, fixture.away)
    if len(outcomes) == len(OUTCOMES):
        return say.text("other.all", home=name_of(names[0]), away=name_of(names[1]))
    if fixture.away == club or (not is_own and outcomes in (["away"], ["draw", "away"])):
        names = names[::-1]
        outcomes = [it for it in OUTCOMES if TURNED[it] in outcomes]
    key = f"{'own' if is_own else 'other'}.{'-'.join(outcomes)}"
    return say.text(key) if is_own else say.text(key, home=name_of(names[0]),
                                                 away=name_of(names[1]))
