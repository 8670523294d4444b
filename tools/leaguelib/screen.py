"""One screen of an answer: who is in, out and open for each line, and the table with the points to
come.
"""

from __future__ import annotations

from typing import Dict

from .answers import Place, Verdict
from .changes import SHORT
from .cup_screen import by_groups, quota_text, ranking_rows, ranking_title
from .cups import Cup
from .line_names import LineNames
from .objects import to_come
from .texts import Season, Sheet
from .wording import WIDTH, counted, listed, paragraph, rules_phrase, shown

HEADS = ["place", "club", "played", "points", "to win", "difference"]
MOST_LISTED = 6
Marks = Dict[int, Dict[str, str]]


def state_text(sheet: Sheet, season: Season, place: str) -> str:
    """What is played and what is open, at which ask, and what counts between level clubs."""
    played, still = len(season.scores), len(season.open_fixtures(sheet))
    done = f"{counted(played, 'match', 'matches')} played, {still} open" if still else (
        f"all {counted(played, 'match', 'matches')} played")
    quota = f"{quota_text(sheet)} " if sheet.is_cup else ""
    return paragraph(f"{shown(sheet.name)}, {place}: {done}. {quota}{rules_phrase(sheet, season)}")


def limit_text(sheet: Sheet, season: Season) -> str:
    """What the words in, out and open rest on."""
    if not season.open_fixtures(sheet):
        return "In and out are certain however lots are drawn; no match is open."
    return paragraph("In and out are certain however the unplayed matches end (with at most "
                     f"{counted(sheet.goal_limit, 'goal')} a side) and however lots are drawn; "
                     "open can still go either way.")


def marks_of(verdicts: list[Verdict]) -> Marks:
    """The words of a screen by line and club."""
    marks: Marks = {}
    for verdict in verdicts:
        marks.setdefault(verdict.places, {})[verdict.club] = SHORT[verdict.word]
    return marks


def line_texts(names: LineNames, marks: Marks, table: list[Place]) -> list[str]:
    """A paragraph for each line: who is in, who can still be, who is out."""
    order = [place.club for place in table]
    texts = []
    for places, words in marks.items():
        groups = {word: [club for club in order if words.get(club) == word]
                  for word in ("in", "open", "not settled", "out")}
        title = names.place(places)
        texts.append(paragraph(f"{title[:1].upper()}{title[1:]}. "
                               + " ".join(_group_texts(groups, names.outside(places)))))
    return texts


def _group_texts(groups: dict[str, list[str]], below: str) -> list[str]:
    """The clubs of a line, group by group; the greatest group may be `the other 17`."""
    told = {word: clubs for word, clubs in groups.items() if clubs}
    greatest = max(told, key=lambda word: len(told[word]))
    texts = []
    for word, clubs in groups.items():
        head = word.capitalize() + (f" ({below})" if below and word == "out" else "")
        if not clubs:
            texts += ["In: nobody yet."] if word == "in" else []
            continue
        names = listed([shown(club) for club in clubs])
        if len(clubs) > MOST_LISTED and word == greatest:
            names = f"all {len(clubs)}" if len(told) == 1 else f"the other {len(clubs)}"
        texts.append(f"{head}: {names}.")
    return texts


def table_text(sheet: Sheet, season: Season, table: list[Place], marks: Marks,
               names: LineNames | None = None) -> list[str]:
    """The table with the points to win, and a word a line and club.

    Lines stand by their names where a row has room for them, and else by their numbers.
    """
    rows = [[_places(place), shown(place.club), str(place.played), str(place.points),
             str(to_come(sheet, season, place.club)), f"{place.difference:+d}"]
            + [words.get(place.club, "") for words in marks.values()] for place in table]
    heads = [_head(places, names) for places in marks]
    texts = columns([HEADS + heads, *rows])
    if max(map(len, texts)) > WIDTH and not sheet.is_cup:
        texts = columns([HEADS + [_head(places, None) for places in marks], *rows])
    return _cup_texts(sheet, season, table, marks, texts) if sheet.is_cup else texts


def _cup_texts(cup: Cup, season: Season, table: list[Place], marks: Marks,
               texts: list[str]) -> list[str]:
    """The rows of a cup group by group, and the ranking of the runners-up after them."""
    ranking = ranking_rows(cup, season, table, marks.get(cup.quota, {}))
    return [*by_groups(cup, table, texts), "", ranking_title(cup),
            *columns(ranking, (2,))]


def columns(rows: list[list[str]], left: tuple[int, ...] = ()) -> list[str]:
    """Rows in columns: numbers to the right, names and words to the left."""
    widths = [max(len(row[at]) for row in rows) for at in range(len(rows[0]))]
    is_left = [at in left or at == 1 or at >= len(HEADS) for at in range(len(widths))]
    return ["  ".join(text.ljust(width) if left else text.rjust(width)
                      for text, width, left in zip(row, widths, is_left)).rstrip() for row in rows]


def _places(place: Place) -> str:
    """A place, or the places that lots may give."""
    return str(place.best) if place.best == place.worst else f"{place.best}-{place.worst}"


def _head(places: int, names: LineNames | None) -> str:
    """The head of a line's column."""
    if names is not None and names.is_cup:
        return "qualifies"
    if names is not None and places in names.inside:
        return shown(names.inside[places])
    return "first" if places == 1 else f"top {places}"
