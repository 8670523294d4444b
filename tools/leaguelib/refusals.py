"""Advice on a refused record: what is wrong, in words, and what to write instead.

Every line that is offered was tried first: the program takes it where the refused one stands.
"""

from __future__ import annotations

import re
from dataclasses import dataclass, field
from typing import Iterator

from . import feed_repairs, repairs
from .cleaning import KINDS, Cleaned, cleaned_steps
from .cup_words import EXAMPLE, cup_repairs, group_missing, group_repairs
from .feeds import InputReader
from .records import Record, Refused, fields_of, record_of
from .repairs import FEED_KINDS, Candidate, line_text
from .texts import Sheet
from .words import words_for


@dataclass
class Advice:
    """What is wrong; the lines to write instead; whether the line is best left out."""

    message: str
    instead: list[str] = field(default_factory=list)
    is_dropped: bool = False


def advise(record: Record, refused: Refused, reader: InputReader) -> Advice:
    """What to say about a record that the reader refused; the reader is as it was before it."""
    steps = cleaned_steps(record.raw)
    for step in steps:
        lines = [line_text(*step.fields)]
        if step.reasons and takes(reader, record.line, lines):
            return Advice(_sentence(step.reasons), lines)
    cleaned = steps[-1]
    advice = _first_that_fits(cleaned, record, reader, depth=2)
    if advice is not None:
        return advice
    again = _refusal_of(cleaned.fields, record.line, reader) or refused
    reasons = cleaned.reasons + [words_for(again, cleaned.fields, reader.sheet)]
    if b"\r" in record.raw:
        reasons = ["there is a carriage return inside the line: every record ends its line"]
    return Advice(_sentence(reasons))


def _first_that_fits(cleaned: Cleaned, record: Record, reader: InputReader,
                     depth: int) -> Advice | None:
    """The first candidate whose lines are taken, also after another candidate."""
    for candidate in candidates(cleaned.fields, reader):
        reasons = cleaned.reasons + ([candidate.reason] if candidate.reason else [])
        if not candidate.lines:
            return Advice(_sentence(reasons), [], not candidate.is_told_alone)
        tried = candidate.lines[:1] if candidate.is_split else candidate.lines
        if takes(reader, record.line, tried):
            return Advice(_sentence(reasons), candidate.lines)
        fields = fields_of(candidate.lines[0].encode("utf-8", "surrogateescape"))
        if depth > 1 and len(candidate.lines) == 1 and fields != cleaned.fields:
            advice = _first_that_fits(Cleaned(fields, reasons), record, reader, depth - 1)
            if advice is not None:
                return advice
    return None


def candidates(fields: list[str], reader: InputReader) -> Iterator[Candidate]:
    """What the record was meant to be, likeliest first."""
    if not fields:
        return
    yield from _comment(fields)
    yield from _glued(line_text(*fields))
    kind, sheet, feed = fields[0], reader.sheet, reader.feed_reader
    if sheet is None:
        if kind == "league" and not reader.is_cup:
            yield from repairs.league_repairs(fields)
        elif kind == "cup" and reader.is_cup is not False:
            yield from cup_repairs(fields)
        elif reader.is_cup and kind in KINDS and kind != "league":
            yield Candidate("the first record has to be `cup`, with the name of the cup, goal "
                            "limit, budget and the number of runners-up that qualify",
                            [EXAMPLE, line_text(*fields)])
        elif kind in KINDS and kind not in ("cup", "league"):
            yield Candidate("the first record has to be `league`, with the name of the league and "
                            "the goal limit", ["league,My league,9", line_text(*fields)])
        return
    if feed is None:
        if kind in FEED_KINDS:
            yield Candidate("`season` must come between the sheet and the first line of the feed",
                            ["season", line_text(*fields)], is_split=True)
        yield from _sheet_repairs(fields, sheet)
        return
    if kind in ("result", "fix"):
        yield from feed_repairs.score_repairs(fields, sheet, feed.season)
    elif kind == "void":
        yield from feed_repairs.void_repairs(fields, sheet, feed.season)
    elif kind == "deduct":
        yield from feed_repairs.deduct_repairs(fields, sheet)
    elif kind == "ask":
        yield from feed_repairs.ask_repairs()
    elif kind == "when" and feed.takes_whens:
        yield from feed_repairs.when_repairs(fields, sheet, feed.season)


def _sheet_repairs(fields: list[str], sheet: Sheet) -> Iterator[Candidate]:
    """What a record after the first one of a sheet was meant to be."""
    kind = fields[0]
    if sheet.is_cup:
        yield from group_missing(fields, sheet)
    if kind == "club":
        yield from repairs.club_repairs(fields, sheet)
    elif kind == "match":
        # a match of a cup is of the group begun last
        held = sheet.groups[-1:] if sheet.is_cup else [sheet]
        for one in held:
            yield from repairs.match_repairs(fields, one)
    elif kind == "line" and not sheet.is_cup:
        yield from repairs.line_repairs(fields, sheet)
    elif kind == "group" and sheet.is_cup:
        yield from group_repairs(fields)
    elif kind == "season":
        yield from repairs.season_repairs()


def _comment(fields: list[str]) -> Iterator[Candidate]:
    """A comment that does not begin with the right sign, or not at the line's begin."""
    found = re.match(r"^(#|//|%|--|;|/\*)\s*(.*)$", ",".join(fields))
    if found:
        yield Candidate("a comment begins with `#`, as the first sign of its line",
                        ["# " + found.group(2)])


def _glued(text: str) -> Iterator[Candidate]:
    """Two records on one line, as where a file without an end of its last line was followed."""
    for kind in KINDS:
        start = text.find(kind, 1)
        while start > 0:
            rest = text[start:]
            if rest == kind or rest.startswith(kind + ","):
                yield Candidate("there are two records on one line: the file before ended without "
                                "a line end. Put one after its last line", [text[:start], rest],
                                is_split=True)
            start = text.find(kind, start + 1)


def takes(reader: InputReader, number: int, lines: list[str]) -> bool:
    """Whether the reader would take these lines where it stands."""
    trial = reader.copy()
    for line in lines:
        if line.startswith("#"):
            continue
        record = record_of(number, line.encode("utf-8", "surrogateescape"))
        if record is None:
            return False
        try:
            trial.take(record)
        except Refused:
            return False
    return True


def _refusal_of(fields: list[str], number: int, reader: InputReader) -> Refused | None:
    """How the line that was put right in form is refused."""
    record = record_of(number, line_text(*fields).encode("utf-8", "surrogateescape"))
    if record is None:
        return None
    try:
        reader.copy().take(record)
    except Refused as refused:
        return refused
    return None


def _sentence(reasons: list[str]) -> str:
    """The reasons as sentences."""
    texts = [reason for reason in reasons if reason]
    return ". ".join(text[0].upper() + text[1:] for text in texts) + "." if texts else ""
