"""Names of lines, and lines beyond the four that a sheet may have, in comments of the sheet:

    # line 4: Champions League
    # below line 17: relegated
    # line 7

The first names the places that a line asks for, the second those outside it. A line that only a
comment has, between the clubs and `season`, is asked in a run of its own (`lines.py`).
"""

from __future__ import annotations

import argparse
import re
from dataclasses import dataclass, field

from . import common
from .cups import begins_a_cup
from .records import Refused, lines_of, number_of, record_of
from .texts import Sheet
from .wording import place_phrase

INSIDE = re.compile(r"^#\s*line\s+(\d{1,2})\s*(?::\s*(.*\S)?)?\s*$", re.IGNORECASE)
BELOW = re.compile(r"^#\s*below\s+line\s+(\d{1,2})\s*:\s*(.*\S)\s*$", re.IGNORECASE)
RELEGATED = "relegated"
QUALIFICATION = "qualification"


@dataclass
class LineNames:
    """What the places inside and outside a line are called, by the line; of a cup its one line
    is qualification.
    """

    inside: dict[int, str] = field(default_factory=dict)
    below: dict[int, str] = field(default_factory=dict)
    is_cup: bool = False

    def place(self, places: int) -> str:
        """What a line asks for: `Champions League (top 4)`, or in words alone."""
        if self.is_cup:
            return QUALIFICATION
        if places not in self.inside:
            return place_phrase(places)
        count = "first place" if places == 1 else f"top {places}"
        return f"{self.inside[places]} ({count})"

    def outside(self, places: int) -> str:
        """What those are that miss the line, like `relegated`; nothing if nothing was said."""
        return self.below.get(places, "")


def names_in(data: bytes) -> LineNames:
    """The names that stand in the comments of a sheet; that of a cup has none."""
    if begins_a_cup(data):
        return LineNames(is_cup=True)
    names = LineNames()
    for _, text in _comments(data):
        found = INSIDE.match(text)
        if found and found.group(2):
            names.inside[int(found.group(1))] = found.group(2)
        found = BELOW.match(text)
        if found:
            names.below[int(found.group(1))] = found.group(2)
    return names


def asked_lines(data: bytes, sheet: Sheet) -> list[int]:
    """All lines of a sheet, those that stand in comments alone among them, from the first on."""
    if sheet.is_cup:
        return sheet.lines
    more = [places for _, places in comment_lines(data) if 0 < places < len(sheet.clubs)]
    return sorted(set(sheet.lines) | set(more)) if set(more) - set(sheet.lines) else sheet.lines


def comment_lines(data: bytes) -> list[tuple[int, int]]:
    """The numbers of the comments `# line K` after the last club, and their K."""
    found: list[tuple[int, int]] = []
    for number, text in _comments(data, has_clubs=True):
        if text == "club":
            found.clear()
            continue
        comment = INSIDE.match(text)
        if comment:
            found.append((number, int(comment.group(1))))
    return found


def _comments(data: bytes, has_clubs: bool = False) -> list[tuple[int, str]]:
    """The comments of the sheet with their line numbers; `club` for each club, where wanted."""
    found: list[tuple[int, str]] = []
    try:
        for number, raw in lines_of(data):
            if raw.startswith(b"#"):
                found.append((number, raw.decode("utf-8", "replace")))
                continue
            # a line that begins otherwise is a match, or another record that is not looked for
            record = record_of(number, raw) if raw[:1] in b'cs"\xef' else None
            kind = record.kind if record else ""
            if kind == "season":
                break
            if kind == "club" and has_clubs:
                found.append((number, "club"))
    except Refused:
        pass
    return found


def add_name_arguments(parser: argparse.ArgumentParser) -> None:
    """The words that name lines."""
    parser.add_argument("--line-name", action="append", default=[], metavar="K=NAME",
                        help="what the first K places are called, like 4=\"Champions League\"")
    parser.add_argument("--relegated", action="store_true",
                        help="clubs that miss the last line are called relegated")


def told_names(words: list[str], lines: list[int], is_relegated: bool) -> LineNames:
    """The names that the command line tells; raises `Trouble` if one does not fit."""
    names = LineNames()
    for word in words:
        number, sign, name = word.partition("=")
        places = number_of(number.strip())
        if not sign or places is None or not name.strip() or not name.isprintable():
            raise common.Trouble(f"--line-name is K=NAME, like 4=\"Champions League\", and not "
                                 f"`{word}`", common.BAD_WORDS)
        if places not in lines:
            raise common.Trouble(f"--line-name {word}: no line {places} is asked for",
                                 common.BAD_WORDS)
        names.inside[places] = name.strip()
    if is_relegated and lines:
        names.below[max(lines)] = RELEGATED
    return names


def comments_of(names: LineNames, places: int) -> list[str]:
    """The comments that name a line, as a sheet has them."""
    texts = [f"# line {places}: {names.inside[places]}\n"] if places in names.inside else []
    if places in names.below:
        texts.append(f"# below line {places}: {names.below[places]}\n")
    return texts
