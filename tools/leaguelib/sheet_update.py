"""A sheet brought up to date: its matches keep their numbers, get the dates that a list has now, and
new matches come after them. All else stays as it is.
"""

from __future__ import annotations

import argparse
import re
from collections import Counter, defaultdict
from typing import Iterator

from . import common
from .aliases import read_aliases
from .bookkeeper import Bookkeeper
from .dates import is_same_day
from .match_list import Match
from .names import UnknownName, club_of
from .pairs import gaps_in, usual_rounds
from .records import lines_of, row_text
from .several import file_name, read_lists
from .sheet_dates import DATE_COMMENT, dates_of
from .sheet_files import put_sheet
from .texts import Sheet
from .wording import counted, shown

MADE = re.compile(rb"(# Made by `league sheet`: .*, )\d+ match(?:es)?\.")
MOST_SAID = 10
KEPT = ("name", "lines", "order", "ranks", "line_name", "relegated", "budget", "rounds",
        "runners_up", "groups", "no_comments", "rewrite")


def run_update(arguments: argparse.Namespace) -> int:
    """Brings a sheet up to date, and says what changed in it."""
    _test_words(arguments)
    data = common.read_bytes(arguments.update)
    book = Bookkeeper(data, sheet_name=file_name(arguments.update))
    sheet, days = book.sheet, arguments.days or book.settings.days
    found = read_lists(arguments.lists, read_aliases(arguments.aliases), days)
    before = dates_of(data, sheet)
    dates, added = _placed(sheet, before, _named(found.matches, sheet, arguments.aliases))
    _test_added(sheet, added, arguments.as_is)
    text = updated_text(data, sheet, dates, added).decode("utf-8", "surrogateescape")
    if arguments.output == "-":
        arguments.output = arguments.update
    put_sheet(text, arguments)
    for note in found.notes + list(_changes(sheet, before, dates, added)):
        common.say(f"league: {note}")
    return common.DONE


def _test_words(arguments: argparse.Namespace) -> None:
    """Raises `Trouble` at words for what an update keeps."""
    if not arguments.lists:
        raise common.Trouble("name the LIST that has the new dates, or `-` for standard input",
                             common.BAD_WORDS)
    given = [word for word in KEPT if getattr(arguments, word)]
    if given:
        raise common.Trouble(f"--update keeps all but dates and new matches: leave --"
                             f"{given[0].replace('_', '-')} out, or make the sheet anew",
                             common.BAD_WORDS)


def _named(matches: list[Match], sheet: Sheet, aliases: str | None) -> Iterator[Match]:
    """The matches with the names that the sheet has; raises `Trouble` with those it has not."""
    clubs, known = [club.name for club in sheet.clubs], read_aliases(aliases)
    wrong: dict[str, str] = {}
    meant: dict[str, str] = {}
    for name in dict.fromkeys(name for match in matches for name in (match.home, match.away)):
        try:
            meant[name] = club_of(name, clubs, known)
        except UnknownName as unknown:
            wrong[name] = unknown.message
    if wrong:
        raise common.Trouble("\n".join(wrong.values()) + "\nA new club needs a new sheet")
    return (Match(meant[match.home], meant[match.away], match.score, match.date, match.line,
                  match.text, match.file) for match in matches)


def _placed(sheet: Sheet, before: dict[int, str],
            matches: Iterator[Match]) -> tuple[dict[int, str], list[Match]]:
    """The dates of the sheet's matches as the list has them, and the matches that are new."""
    waiting: dict[tuple[str, str], list[int]] = defaultdict(list)
    for fixture in sheet.fixtures:
        waiting[fixture.home, fixture.away].append(fixture.number)
    dates, later = dict(before), []
    for match in matches:
        numbers = waiting[match.home, match.away]
        same = [it for it in numbers if match.date and is_same_day(match.date, before.get(it, ""))]
        if same:
            numbers.remove(same[0])
        else:
            later.append(match)
    added = []
    for match in later:
        numbers = waiting[match.home, match.away]
        if not numbers:
            added.append(match)
        elif match.date:
            dates[numbers.pop(0)] = match.date
    return dates, added


def _test_added(sheet: Sheet, added: list[Match], is_as_is: bool) -> None:
    """Raises `Trouble` if the new matches make pairs meet too often, or may not be added."""
    if added and sheet.is_cup:
        raise common.Trouble(f"{added[0].place}: {added[0].home} - {added[0].away} is not in the "
                             "sheet, and matches cannot be added to a cup: those of the next group "
                             "would move")
    old = [Match(fixture.home, fixture.away) for fixture in sheet.fixtures]
    if not added or is_as_is or not old:
        return
    names = [club.name for club in sheet.clubs]
    known = Counter(gaps_in(old, names, usual_rounds(old)).extra)
    gaps = gaps_in(old + added, names, usual_rounds(old))
    gaps.extra = [pair for pair in gaps.extra if not known[pair]]
    if gaps.extra:
        raise common.Trouble(gaps.extra_text())


def updated_text(data: bytes, sheet: Sheet, dates: dict[int, str], added: list[Match]) -> bytes:
    """The sheet with other comments of dates, and with new matches after the last one."""
    starts = {fixture.line: fixture.number for fixture in sheet.fixtures}
    last = max(starts, default=max(number for number, raw in lines_of(data)
                                   if raw.startswith(b"club")))
    rows: list[bytes] = []
    day = ""
    for number, raw in enumerate(data.split(b"\n"), 1):
        if DATE_COMMENT.match(raw.decode("utf-8", "replace")) or raw.startswith(b"# added"):
            continue
        if number in starts:
            day = _dated(rows, day, dates.get(starts[number], ""))
        total = counted(len(starts) + len(added), "match", "matches").encode()
        rows.append(MADE.sub(rb"\g<1>" + total + b".", raw))
        if number == last:
            for match in added:
                day = _dated(rows, day, match.date)
                text = row_text("match", match.home, match.away).rstrip("\n")
                rows.append(text.encode("utf-8", "surrogateescape"))
    return b"\n".join(rows)


def _dated(rows: list[bytes], before: str, day: str) -> str:
    """Adds the comment of a day, if it is another than that before; gives the day."""
    if day != before:
        rows.append(f"# {day or 'no date'}".encode("utf-8"))
    return day


def _changes(sheet: Sheet, before: dict[int, str], dates: dict[int, str],
             added: list[Match]) -> Iterator[str]:
    """What changed, a sentence each, and how many more."""
    told = [f"match {it.number}, {shown(it.home)} - {shown(it.away)}, is on "
            f"{dates[it.number]} now" + (f" (it was on {before[it.number]})"
                                         if it.number in before else "")
            for it in sheet.fixtures if dates.get(it.number) != before.get(it.number)]
    told += [f"new: match {number}, {shown(it.home)} - {shown(it.away)}"
             + (f", on {it.date}" if it.date else "")
             for number, it in enumerate(added, len(sheet.fixtures) + 1)]
    yield from told[:MOST_SAID]
    if len(told) > MOST_SAID:
        yield f"and {len(told) - MOST_SAID} more"
    if not told:
        yield "nothing is new in the list: the sheet stays as it was"
