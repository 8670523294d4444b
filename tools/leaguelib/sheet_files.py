"""A sheet put in place of another: one that a feed stands on is not overwritten unless each match
keeps its number, or the feed is rewritten along with it.

A feed stands on a sheet if it is in the same folder and has the sheet's mark, or has none and only
lines that fit the sheet.
"""

from __future__ import annotations

import argparse
import fcntl
import os
import sys
from dataclasses import dataclass

from . import common, writing
from .aliases import read_aliases
from .feeds import FeedReader, read_sheet
from .records import Refused, count_lines, lines_of, record_of, records_of
from .renumbering import Renumbered, rewritten
from .sheet_marks import marks_in, moved_text, pairs_of
from .texts import Sheet
from .wording import counted, shown

MOST_FILES = 2_000
MOST_FEED_BYTES = 8_000_000
MOST_SHOWN = 10
OLD = ".old"


def add_overwrite_arguments(parser: argparse.ArgumentParser) -> None:
    """The words for a sheet that takes the place of another."""
    parser.add_argument("--rewrite", action="append", default=[], metavar="FEED",
                        help="with -o: give the results in this feed the numbers that their "
                             "matches have in the new sheet; what moves is shown first, and the "
                             f"feed is kept as FEED{OLD}")
    parser.add_argument("--yes", action="store_true", help="with --rewrite: write it")


@dataclass
class Plan:
    """What is written along with a sheet: each feed as it was, and as it becomes."""

    path: str
    before: bytes
    after: Renumbered


def put_sheet(text: str, arguments: argparse.Namespace) -> bool:
    """Writes a sheet to where it is wanted; whether it was written, or only shown what would be."""
    path = arguments.output
    if arguments.rewrite and path == "-":
        raise common.Trouble("--rewrite needs -o SHEET, the sheet that the feed stands on",
                             common.BAD_WORDS)
    if path == "-" or not os.path.isfile(path):
        common.write_text(text, path)
        return True
    data = text.encode("utf-8", "surrogateescape")
    new = read_sheet(data)
    with writing.alone(path):
        old = _sheet_at(path)
        plans = _plans(path, old, new, arguments) if old is not None else []
        if plans and not _is_wanted(plans, old, new, arguments.yes):
            return False
        for plan in plans:
            kept = writing.free_name(plan.path + OLD)
            writing.replace(kept, plan.before)
            writing.replace(plan.path, plan.after.data)
            common.say(f"league: {plan.path} is rewritten; as it was it is kept as {kept}")
        writing.replace(path, data)
    return True


def _sheet_at(path: str) -> Sheet | None:
    """The sheet that a new one takes the place of; none if the file is empty."""
    data = common.read_bytes(path)
    if not data.strip():
        return None
    try:
        sheet = read_sheet(data)
    except Refused as refused:
        raise common.Trouble(f"{path} is there and cannot be read as a sheet (line {refused.line}:"
                             f" `{refused.code}`), so it is not overwritten. Name another file by "
                             "-o, or put this one away first") from refused
    last = next(number for number, raw in reversed(list(lines_of(data)))
                if record_of(number, raw) is not None)
    if any(record.kind == "season" and record.line < last for record in records_of(data)):
        raise common.Trouble(f"{path} has a feed after its sheet, in line {last} of "
                             f"{count_lines(data)}, and is not overwritten. Put the lines after "
                             "`season` into a file of their own first, or name another file by -o")
    return sheet


def _plans(path: str, old: Sheet, new: Sheet, arguments: argparse.Namespace) -> list[Plan]:
    """The feeds to rewrite; raises `Trouble` if one stands on the old sheet and is not among them.
    """
    plans = [_plan(feed, old, new, arguments) for feed in arguments.rewrite]
    moved = moved_text(pairs_of(old), new)
    wanted = {os.path.realpath(plan.path) for plan in plans}
    left = [name for name in (feeds_on(path, old) if moved else [])
            if os.path.realpath(name) not in wanted]
    if left:
        names = " and ".join(left)
        more = " ".join(f"--rewrite {name}" for name in left)
        raise common.Trouble(
            f"{path} is not overwritten: {names} {'stands' if len(left) == 1 else 'stand'} on it, "
            f"and {moved}, so that results would be taken for those of other matches. To give "
            f"matches new dates, and add new ones after them: `league sheet LIST --update {path}`. "
            f"To give the results their new numbers, by names: the same words and `{more}`. Or "
            "name another file by -o")
    return [plan for plan in plans if plan.after.data != plan.before]


def _plan(feed: str, old: Sheet, new: Sheet, arguments: argparse.Namespace) -> Plan:
    """A feed as it is and as it becomes."""
    _test_free(feed)
    before = common.read_bytes(feed)
    after = rewritten(feed, before, old, new, read_aliases(arguments.aliases))
    reader = FeedReader(new)
    for record in records_of(after.data):
        try:
            reader.take(record)
        except Refused as refused:
            raise common.Trouble(f"{feed} cannot be rewritten: its line `{','.join(record.fields)}`"
                                 f" would be refused as `{refused.code}`. Look at it by `league "
                                 "lint` first") from refused
    return Plan(feed, before, after)


def _test_free(feed: str) -> None:
    """Raises `Trouble` if an evening is kept in this feed."""
    try:
        with open(feed, "rb") as file:
            fcntl.flock(file, fcntl.LOCK_EX | fcntl.LOCK_NB)
    except BlockingIOError as fault:
        raise common.Trouble(f"{feed}: a `league live` keeps this log. End it first",
                             common.CANNOT_WRITE) from fault
    except OSError:
        pass  # what cannot be read is told by whoever reads it


def _is_wanted(plans: list[Plan], old: Sheet, new: Sheet, is_told: bool) -> bool:
    """Shows what moves; whether it is to be written, as was told or as a person answers."""
    for plan in plans:
        moved, pairs = plan.after.moved, pairs_of(new)
        common.say(f"league: {plan.path}: {counted(len(moved), 'match', 'matches')} of "
                   f"{counted(plan.after.results, 'result')} {'gets' if len(moved) == 1 else 'get'}"
                   " another number, by names:")
        for before, now in list(moved.items())[:MOST_SHOWN]:
            common.say(f"    match {before} becomes match {now}: {shown(pairs[now - 1][0])} - "
                       f"{shown(pairs[now - 1][1])}")
        if len(moved) > MOST_SHOWN:
            common.say(f"    and {len(moved) - MOST_SHOWN} more")
    if is_told:
        return True
    if not (sys.stdin.isatty() and sys.stderr.isatty()):
        common.say("league: nothing was written so far: the same words with --yes write it")
        return False
    common.say("Write sheet and feed so? Type yes, and Enter:")
    return sys.stdin.readline().strip().lower() in ("y", "yes")


def feeds_on(path: str, sheet: Sheet) -> list[str]:
    """The feeds in the folder of a sheet that stand on it."""
    found = []
    folder = os.path.dirname(path)
    with os.scandir(folder or ".") as entries:
        names = sorted(entry.name for entry in entries if _may_be_a_feed(entry, path))
    for name in names[:MOST_FILES]:
        place = os.path.join(folder, name)
        try:
            with open(place, "rb") as file:
                data = file.read()
        except OSError:
            continue
        if _stands_on(data, sheet):
            found.append(place)
    return found


def _may_be_a_feed(entry: os.DirEntry, path: str) -> bool:
    """Whether a file beside a sheet is to be looked at: no hidden one, and none that was kept."""
    try:
        is_file = entry.is_file() and entry.stat().st_size <= MOST_FEED_BYTES
        return (is_file and not entry.name.startswith(".") and OLD not in entry.name
                and entry.name != os.path.basename(path))
    except OSError:
        return False


def _stands_on(data: bytes, sheet: Sheet) -> bool:
    """Whether a file is a feed of a sheet: by its mark, or by every line of it if it has none."""
    marks = marks_in(data)
    if marks:
        return any(_is_of(mark, sheet) for mark in marks)
    reader, numbers = FeedReader(sheet), 0
    try:
        for record in records_of(data):
            numbers += reader.take(record).fixture > 0
    except Refused:
        return False
    return numbers > 0


def _is_of(mark, sheet: Sheet) -> bool:
    """Whether a mark is that of a sheet, or of its first matches."""
    try:
        return not moved_text(mark.pairs, sheet)
    except ValueError:
        return True
