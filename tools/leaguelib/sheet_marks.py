"""The mark of a sheet in a feed: comments that have the clubs and the matches which the sheet had
when the feed was written, so that no result is ever taken for one of another match.

    # sheet 5f3c9a2b7d41: 3 clubs, 3 matches (`league` compares this: leave it in)
    # sheet clubs,Anchor,Köln,Dock United
    # sheet matches,1-2,2-3,3-1

The word after `sheet` is the front of the SHA-256 of the matches, `HOME,AWAY` a line as rows have
them. futmax passes comments over. A sheet may have more matches after those of the mark.
"""

from __future__ import annotations

import hashlib
import re
from dataclasses import dataclass, field
from typing import Sequence, Tuple

from . import common
from .cups import first_kind
from .feeds import read_sheet
from .records import MOST_LINE_BYTES, Refused, fields_of, row_text
from .texts import Sheet
from .wording import counted, shown

FRONT = b"# sheet "
HEAD = re.compile(r"^# sheet ([0-9a-f]{12}): \d+ clubs?, \d+ match(?:es)? ")
SCORED = re.compile(rb"^(?:result|fix),", re.MULTILINE)
PAIR = re.compile(r"^(\d{1,3})-(\d{1,3})$")
WORD = 12

Pair = Tuple[str, str]


@dataclass
class Mark:
    """The matches of a sheet by names, in their order; and the word that they have to have."""

    word: str = ""
    clubs: list[str] = field(default_factory=list)
    numbers: list[tuple[int, int]] = field(default_factory=list)

    @property
    def pairs(self) -> list[Pair]:
        """The matches by names; raises `ValueError` if the mark is not whole."""
        most = max((max(both) for both in self.numbers), default=0)
        if most > len(self.clubs) or any(0 in both for both in self.numbers):
            raise ValueError("no such club")
        pairs = [(self.clubs[home - 1], self.clubs[away - 1]) for home, away in self.numbers]
        if word_of(pairs) != self.word:
            raise ValueError("another word")
        return pairs


def pairs_of(sheet: Sheet) -> list[Pair]:
    """The matches of a sheet by names."""
    return [(fixture.home, fixture.away) for fixture in sheet.fixtures]


def word_of(pairs: Sequence[Pair]) -> str:
    """The word of such matches."""
    text = "".join(row_text(*pair) for pair in pairs).encode("utf-8", "surrogateescape")
    return hashlib.sha256(text).hexdigest()[:WORD]


def mark_of(sheet: Sheet) -> list[str]:
    """The lines of the mark of a sheet."""
    numbers = {club.name: number for number, club in enumerate(sheet.clubs, 1)}
    pairs = pairs_of(sheet)
    played = [f"{numbers[home]}-{numbers[away]}" for home, away in pairs]
    head = (f"# sheet {word_of(pairs)}: {counted(len(numbers), 'club')}, "
            f"{counted(len(pairs), 'match', 'matches')} (`league` compares this: leave it in)")
    return [head, *_rows("clubs", list(numbers)), *_rows("matches", played)]


def _rows(word: str, fields: list[str]) -> list[str]:
    """The fields in as many comments as they need."""
    rows: list[list[str]] = [[]]
    for text in fields:
        longer = row_text(f"# sheet {word}", *rows[-1], text)
        if len(longer.encode("utf-8", "surrogateescape")) > MOST_LINE_BYTES:
            rows.append([])
        rows[-1].append(text)
    return [row_text(f"# sheet {word}", *row).rstrip("\n") for row in rows if row]


def marks_in(data: bytes) -> list[Mark]:
    """The marks in a feed, or in a sheet and feed, in their order."""
    marks: list[Mark] = []
    start = data.find(FRONT)
    while start >= 0:
        end = data.find(b"\n", start)
        end = len(data) if end < 0 else end
        if start == 0 or data[start - 1:start] == b"\n":
            _take(marks, data[start:end].rstrip(b"\r"))
        start = data.find(FRONT, end)
    return marks


def _take(marks: list[Mark], raw: bytes) -> None:
    """Takes a line that may be one of a mark."""
    head = HEAD.match(raw.decode("utf-8", "surrogateescape"))
    fields = fields_of(raw)
    if head:
        marks.append(Mark(head.group(1)))
    elif marks and fields[0] == "# sheet clubs":
        marks[-1].clubs += fields[1:]
    elif marks and fields[0] == "# sheet matches":
        found = [PAIR.match(text) for text in fields[1:]]
        marks[-1].numbers += [(int(one.group(1)), int(one.group(2))) if one else (0, 0)
                              for one in found]


def is_mark(raw: bytes) -> bool:
    """Whether a line is one of a mark."""
    return bool(HEAD.match(raw.decode("utf-8", "replace"))) or raw.startswith(
        (b"# sheet clubs,", b"# sheet matches,"))


def missing_mark(sheet: Sheet, feed: bytes) -> list[str]:
    """The mark to add to a feed before the next line; nothing if it has it for all matches."""
    marks = marks_in(feed)
    return [] if marks and marks[-1].word == word_of(pairs_of(sheet)) else mark_of(sheet)


def moved_text(before: Sequence[Pair], sheet: Sheet) -> str:
    """Which match moved since the sheet had these ones, and how many; nothing if none did."""
    now = pairs_of(sheet)
    moved = [place for place, pair in enumerate(before) if now[place:place + 1] != [pair]]
    if not moved:
        return ""
    first = moved[0]
    is_now = _named(now[first]) if first < len(now) else "not there"
    more = len(moved) - 1
    also = f" ({counted(more, 'other match', 'other matches')} moved too)" if more else ""
    return f"match {first + 1} was {_named(before[first])} and is now {is_now}{also}"


def _named(pair: Pair) -> str:
    return f"{shown(pair[0])} - {shown(pair[1])}"


def moved_in(files: list[tuple[str, bytes]]) -> str:
    """What moved between the sheet among these files and the feeds that are marked; nothing if
    nothing did, or no sheet can be read.
    """
    if not any(FRONT in data for _, data in files):
        return ""
    files = sorted(files, key=lambda file: first_kind(file[1]) not in ("league", "cup"))
    try:
        sheet = read_sheet(b"\n".join(data for _, data in files))
    except Refused:
        return ""
    for name, data in files:
        for mark in marks_in(data):
            text = _moved(name, mark, files[0][0], sheet)
            if text:
                return text
    return ""


def _moved(name: str, mark: Mark, sheet_name: str, sheet: Sheet) -> str:
    """What to say of a feed with a mark that does not fit; nothing if it does."""
    if mark.word == word_of(pairs_of(sheet)):
        return ""
    try:
        text = moved_text(mark.pairs, sheet)
    except ValueError:
        return (f"{name}: the mark of its sheet (`# sheet {mark.word}` and the lines below it) is "
                f"not whole, and not that of {sheet_name}, so nobody can tell whether its results "
                "are those of these matches. Put the lines back, or take them out once you looked "
                "at the results")
    if not text:
        return ""
    if name == sheet_name:
        return (f"{name}: the feed was written for another order of matches than the sheet has: "
                f"{text}. Put the sheet back as it was")
    return (f"{name} was written for another order of matches than {sheet_name} has: {text}. Put "
            "the sheet back as it was, or give the results their new numbers, by names: `league "
            f"sheet LIST .. -o {sheet_name} --rewrite {name}`")


def unmarked_text(files: list[tuple[str, bytes]]) -> str:
    """What nobody can know of feeds without a mark; nothing if there are none."""
    names = [name for name, data in files if SCORED.search(data) and not marks_in(data)
             and first_kind(data) not in ("league", "cup")]
    if not names:
        return ""
    return (f"{' and '.join(names)}: no mark of a sheet is in it, as it was written by hand or by an "
            "older `league`: whether its numbers mean the matches of this sheet nobody can tell. "
            "`league feed --log FEED --append` adds the mark with the next result")


def test_marks(files: list[tuple[str, bytes]]) -> None:
    """Raises `Trouble` if a feed among these files was written for another sheet."""
    text = moved_in(files)
    if text:
        raise common.Trouble(text, common.FEED_REFUSED)
