"""A feed rewritten for another sheet: each result gets the number that its match has there, by the
names of the two clubs.
"""

from __future__ import annotations

import re
from collections import defaultdict
from dataclasses import dataclass, field
from typing import Sequence

from . import common
from .names import UnknownName, club_of
from .records import fields_of, number_of, record_of, row_text
from .sheet_marks import Pair, is_mark, mark_of, marks_in, pairs_of
from .texts import Sheet
from .wording import shown

# a comment that is about a match, like `# in play: 57,1,0`
OF_A_MATCH = re.compile(rb"^(# [a-z][a-z ]*: )(\d{1,6})(,.*)$", re.DOTALL)
NUMBERED = ("result", "fix", "void", "when")


@dataclass
class Renumbered:
    """A feed with its new numbers: its bytes, and each match that moved with both numbers."""

    data: bytes
    moved: dict[int, int] = field(default_factory=dict)
    results: int = 0


class Numbering:
    """Which number each match of a sheet has in another one; clubs by their names there."""

    def __init__(self, before: Sequence[Pair], sheet: Sheet,
                 aliases: dict[str, str] | None = None) -> None:
        self.before = before
        self.names: dict[str, str] = {}
        clubs = [club.name for club in sheet.clubs]
        for name in dict.fromkeys(name for pair in before for name in pair):
            try:
                self.names[name] = club_of(name, clubs, aliases)
            except UnknownName:
                self.names[name] = ""
        waiting: dict[Pair, list[int]] = defaultdict(list)
        for number, pair in enumerate(pairs_of(sheet), 1):
            waiting[pair].append(number)
        # two clubs that meet again keep the order of their matches
        self.numbers: dict[int, int] = {}
        for number, (home, away) in enumerate(before, 1):
            found = waiting[self.names[home], self.names[away]]
            if found:
                self.numbers[number] = found.pop(0)

    def of(self, number: int, place: str) -> int:
        """The new number of a match; raises `Trouble` if the new sheet does not have it."""
        if number not in self.numbers:
            pair = self.before[number - 1] if 0 < number <= len(self.before) else ("?", "?")
            unknown = [f"`{shown(name)}`" for name in pair if not self.names.get(name)]
            why = f"no club is called {unknown[0]} there" if unknown else "it is not there"
            raise common.Trouble(f"{place}: match {number}, {shown(pair[0])} - {shown(pair[1])}, "
                                 f"has no number in the new sheet: {why}. Put it into the list, "
                                 "or give --aliases FILE with the name that the club has now")
        return self.numbers[number]


def rewritten(name: str, feed: bytes, old: Sheet, new: Sheet,
              aliases: dict[str, str] | None = None) -> Renumbered:
    """The feed for the new sheet; the numbers in it are those of its mark, or of the old sheet."""
    marks = sorted(marks_in(feed), key=lambda mark: len(mark.numbers))
    try:
        before = marks[-1].pairs if marks else pairs_of(old)
    except ValueError as fault:
        raise common.Trouble(f"{name}: the mark of its sheet is not whole, so its numbers mean "
                             "nothing that can be looked up") from fault
    numbering = Numbering(before, new, aliases)
    found = Renumbered(b"")
    rows = [line.encode("utf-8", "surrogateescape") for line in mark_of(new)]
    for number, raw in enumerate(feed.split(b"\n"), 1):
        if not is_mark(raw.rstrip(b"\r")):
            rows.append(_renumbered(raw, f"{name}, line {number}", numbering, found))
    found.data = b"\n".join(rows)
    return found


def _renumbered(raw: bytes, place: str, numbering: Numbering, found: Renumbered) -> bytes:
    """A line with the number and the name that it has in the new sheet."""
    end = b"\r" if raw.endswith(b"\r") else b""
    comment = OF_A_MATCH.match(raw)
    if comment:
        number = int(comment.group(2))
        return comment.group(1) + b"%d" % numbering.of(number, place) + comment.group(3)
    record = record_of(1, raw.rstrip(b"\r"))
    if record is None or len(record.fields) < 2:
        return raw
    fields = fields_of(record.raw)
    if record.kind == "deduct" and numbering.names.get(fields[1]):
        fields[1] = numbering.names[fields[1]]
    elif record.kind in NUMBERED and number_of(fields[1]) is not None:
        number = number_of(fields[1])
        now = numbering.of(number, place)
        fields[1] = str(now)
        found.results += record.kind == "result"
        if now != number:
            found.moved[number] = now
    return row_text(*fields).rstrip("\n").encode("utf-8", "surrogateescape") + end
