"""What is new on a board's page, and which matches are open."""

from __future__ import annotations

from itertools import groupby
from typing import TYPE_CHECKING

from .changes import SHORT
from .marks import capital, match_of, name_of
from .page_zones import in_order, word_text
from .texts import Fixture

if TYPE_CHECKING:
    from .board import Board

SHOWN_AT_ONCE = 20
MOST_SENTENCES = 5
MOST_NAMED = 6


def news(board: Board) -> list[str]:
    """What changed, in five sentences at most; nothing if there is no answer before."""
    if not board.verdicts or board.changes is None:
        return []
    say = board.phrases
    title = say.text("news.since", date=say.date(board.since)) if board.since else say.text("news")
    told = [text for places in in_order(board) if (text := _told(board, places))]
    rest = len(told) - MOST_SENTENCES
    if rest > 0:
        told = told[:MOST_SENTENCES - 1] + [say.counted("news.more", rest + 1)]
    return ['<section class="news">', f"<h2>{title}</h2>",
            *[f"<p>{text}</p>" for text in told or [say.text("news.none")]], "</section>"]


def _told(board: Board, places: int) -> str:
    """What changed of one line; what only the search found out is no news of the league."""
    say, size = board.phrases, len(board.table)
    parts = []
    for word in ("in", "out", "open"):
        changed = {it.club for it in board.changes or [] if it.places == places
                   and SHORT[it.now] == word and not it.is_of_search}
        clubs = [name_of(place.club) for place in board.table if place.club in changed]
        if clubs:
            names = say.listed(clubs) if len(clubs) <= MOST_NAMED else (
                say.text("still.many", count=len(clubs)))
            parts.append(say.text("news.word", word=word_text(board, word), clubs=names))
    title = capital(say.line(board.names, places, size))
    return say.text("news.place", places=title, told="; ".join(parts)) if parts else ""


def open_matches(board: Board) -> list[str]:
    """The next open matches by their days; the others are folded, and not printed."""
    still = board.season.open_fixtures(board.sheet)
    if not still:
        return []
    if board.days:
        still = sorted(still, key=lambda it: _sort_key(board, it))
    first = _of_next_days(board, still)
    rest = still[len(first):]
    parts = ['<section class="matches">',
             f"<h2>{board.phrases.counted('matches', len(still))}</h2>", *_by_day(board, first)]
    if rest:
        more = board.phrases.text("matches.more", count=len(rest))
        parts += [f'<p class="printed">{more}</p>', "<details>", f"<summary>{more}</summary>",
                  *_by_day(board, rest), "</details>"]
    return [*parts, "</section>"]


def _of_next_days(board: Board, fixtures: list[Fixture]) -> list[Fixture]:
    """The matches of as many days as there is room for; a first day that is longer is cut."""
    if len(fixtures) <= SHOWN_AT_ONCE:
        return fixtures
    found: list[Fixture] = []
    for _, group in groupby(fixtures, key=lambda it: board.days.get(it.number, "")):
        day = list(group)
        if found and len(found) + len(day) > SHOWN_AT_ONCE:
            break
        found += day
    return found[:SHOWN_AT_ONCE]


def _by_day(board: Board, fixtures: list[Fixture]) -> list[str]:
    """Matches under their days, in columns."""
    parts = ['<div class="columns">']
    for day, group in groupby(fixtures, key=lambda it: board.days.get(it.number, "")):
        parts += [f"<h3>{capital(board.phrases.date(day))}</h3>"] if day else []
        parts += ["<ul>", *[f"<li>{match_of(it)}</li>" for it in group], "</ul>"]
    return [*parts, "</div>"]


def _sort_key(board: Board, fixture: Fixture) -> tuple[bool, str, int]:
    """By day where days are dates; else as the sheet has them."""
    day = board.days.get(fixture.number, "")
    is_date = day[:4].isdigit()
    return (not is_date, day if is_date else "", fixture.number)
