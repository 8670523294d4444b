"""Matches by names, as lists of fixtures and results have them: tables of football-data and others,
cross tables, texts of openfootball, and lines like `Germany 5-1 Scotland`.

`read_matches` reads one list in whichever form, `read_lists` several that belong together.
"""

from __future__ import annotations

import json
from dataclasses import replace

from .common import Trouble, test_list
from .crosses import cross_of, read_cross, test_divided
from .dates import SLASHED, plain_date, slashed_order, unclear_day
from .files import examine, without_mark
from .headless import plan_of, read_headless
from .match_lines import LineReader, match_of_line, read_lines
from .match_list import Match, MatchList
from .match_tables import head_of, read_table

__all__ = ["LineReader", "Match", "MatchList", "is_month_first", "lines_in", "match_of_line",
           "plain_date", "read_matches", "read_text", "text_of"]


def text_of(data: bytes, notes: list[str], file: str = "") -> str:
    """The text of a list, in whichever encoding it is stored; what was odd goes to the notes."""
    examined = examine(test_list(data, file))
    if not examined.is_readable:
        raise Trouble(examined.messages[0])
    notes.extend(examined.messages)
    raw = without_mark(examined.data)
    try:
        return raw.decode("utf-8")
    except UnicodeDecodeError:
        notes.append("the list is not stored as UTF-8; it was read as Windows-1252. Look at the "
                     "names with accents")
        return raw.decode("cp1252", "replace")


def lines_in(text: str) -> list[str]:
    """The lines of a text; a mark at the begin of a file that was joined to another is left out."""
    return [line.lstrip("\ufeff") for line in text.replace("\r\n", "\n").split("\n")]


def is_month_first(text: str, file: str, days: str = "") -> bool:
    """Whether dates like 8/15/2024 have the month first; raises `Trouble` if both stand, or if
    nothing tells it: neither a date, nor the days that were told.
    """
    order = slashed_order(text)
    where = f"{file}: " if file else ""
    if order == "both":
        raise Trouble(f"{where}some dates have the month first, like 8/15/2024, and others the "
                      f"day, like 15/8/2024. Write all in one way, best as 2024-08-15")
    unclear = unclear_day(text)
    if not order and unclear and not days:
        raise Trouble(f"{where}is the day or the month first in {unclear}? No date of the list "
                      "tells it. Say --days day-first or --days month-first: `league sheet` keeps "
                      "it in the sheet, where the line `# days: day-first` does the same")
    return order == "month" or (not order and days == "month-first")


def read_matches(data: bytes, file: str = "", needs_scores: bool = False,
                 days: str = "") -> MatchList:
    """The matches of a list; raises `Trouble` with every line that is not understood.

    Where scores are needed, a table without a column for them is refused.
    """
    notes: list[str] = []
    text = text_of(data, notes, file)
    found = read_text(text, file, needs_scores, days)
    found.note_groups()
    front = f"{file}: " if file else ""
    found.notes = [front + note for note in notes] + found.notes
    return found


def read_text(text: str, file: str, needs_scores: bool = False, days: str = "") -> MatchList:
    """The matches of a list as text; `days` is the order of its dates where none of them tells it.
    """
    found = _read_form(text, file, needs_scores, days)
    order = slashed_order(text) or ("day" if days == "day-first" else days and "month")
    found.days = f"{order}-first" if order and SLASHED.search(text) else ""
    found.note_turns()
    return found


def _read_form(text: str, file: str, needs_scores: bool, days: str) -> MatchList:
    """The matches of a list, by the reader of its form."""
    lines = lines_in(text)
    _test_form(text, file)
    if any(line.startswith(("league,", "cup,")) for line in lines[:50]):
        where = f"{file}: " if file else ""
        raise Trouble(f"{where}this is a sheet already, and no list of matches: `league lint` "
                      "looks at it")
    order = is_month_first(text, file, days)
    try:
        head = head_of(lines)
    except Trouble as trouble:
        raise Trouble(f"{file}, {trouble.message}" if file else trouble.message) from trouble
    if head is not None:
        return read_table(lines, head, file, order, needs_scores)
    cross = cross_of(lines)
    if cross is not None:
        return read_cross(lines, cross, file)
    test_divided(lines, file)
    plan = plan_of(lines, file)
    if plan is not None:
        return read_headless(lines, plan, file, order)
    return read_lines(lines, file, order)


def _test_form(text: str, file: str) -> None:
    """Raises `Trouble` if the text is JSON, of which no line is a match."""
    if text.lstrip()[:1] in ("{", "["):
        try:
            json.loads(text)
        except (ValueError, RecursionError):
            return
        where = f"{file}: " if file else ""
        raise Trouble(f"{where}this is JSON. A list of matches is a table or text: save it as CSV")


def renamed(found: MatchList, meant: dict[str, str]) -> MatchList:
    """The list with other names in place of some of its own."""
    found.matches = [replace(match, home=meant.get(match.home, match.home),
                             away=meant.get(match.away, match.away)) for match in found.matches]
    found.groups = {meant.get(name, name): group for name, group in found.groups.items()}
    return found
