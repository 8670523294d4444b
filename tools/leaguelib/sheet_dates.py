"""The dates of matches, as comments above them tell them: `# 2024-05-19`."""

from __future__ import annotations

import re

from .dates import plain_date
from .records import fields_of, lines_of, number_of
from .texts import Sheet

DATE_COMMENT = re.compile(r"^#\s*(\d{4}-\d{2}-\d{2}|[A-Z][a-z]{2}[/ ]\d{1,2}|no date)\s*$")

FEED_DATE = re.compile(rb"^# (\d{4}-\d{2}-\d{2})\s*$")
NEW_DATE = re.compile(r"^#\s*new date:\s*(\d{1,6})\s*,\s*(\d{4}-\d{2}-\d{2}|none|sheet)\b")


def dates_of(data: bytes, sheet: Sheet) -> dict[int, str]:
    """The dates of the fixtures, from the comments above them that hold a date alone, or the new
    dates that a feed tells.
    """
    starts = {fixture.line: fixture.number for fixture in sheet.fixtures}
    dates: dict[int, str] = {}
    date = ""
    for number, raw in lines_of(data):
        is_comment = raw.startswith(b"#")
        found = DATE_COMMENT.match(raw.decode("utf-8", "replace")) if is_comment else None
        if found:
            date = "" if found.group(1) == "no date" else plain_date(found.group(1))
        elif raw.startswith(b"# added"):
            date = ""
        elif number in starts and date:
            dates[starts[number]] = date
    return moved(dates, moves_in(data))


def moves_in(data: bytes) -> dict[int, str]:
    """The new dates of matches, `none` and `sheet` among them, as a feed tells them last."""
    found = [NEW_DATE.match(raw.decode("utf-8", "replace"))
             for _, raw in lines_of(data) if raw.startswith(b"#")]
    return {int(one.group(1)): one.group(2) for one in found if one}


def moved(days: dict[int, str], moves: dict[int, str]) -> dict[int, str]:
    """The days with the new dates in place of those of the sheet."""
    kept = {number: day for number, day in days.items() if moves.get(number, "sheet") == "sheet"}
    return {**kept, **{number: day for number, day in moves.items() if day[:1].isdigit()}}


def dates_in_feed(data: bytes) -> dict[int, str]:
    """The dates of matches, from the comments that stand right above their results in a feed."""
    dates: dict[int, str] = {}
    above = ""
    for _, raw in lines_of(data):
        fields = fields_of(raw.rstrip(b"\r")) if above and raw.startswith(b"result,") else []
        fixture = number_of(fields[1]) if len(fields) > 1 else None
        if fixture is not None:
            dates[fixture] = above
        found = FEED_DATE.match(raw)
        above = found.group(1).decode("ascii") if found else ""
    return dates
