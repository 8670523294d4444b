"""The match that a ruling names, and the day at its end."""

from __future__ import annotations

import re
from typing import TYPE_CHECKING

from .dates import TIME, front_date, is_calendar_day, unclear_day
from .ledger import NO_DAY
from .list_settings import MONTH_FIRST
from .match_lines import Parts, parts_of
from .slips import Unclear
from .texts import Fixture

if TYPE_CHECKING:
    from .bookkeeper import Bookkeeper

NUMBERED = re.compile(r"^match\s+(\d{1,6})\b\s*(.*)$", re.IGNORECASE)


def with_day(body: str, book: "Bookkeeper") -> tuple[str, str]:
    """The match of a ruling, and the day at its end; `none` if no day is there."""
    for found in re.finditer(r"\s+(?=\S)", body):
        rest = re.sub(r"^(?:to|on|until)\s+", "", body[found.end():], flags=re.IGNORECASE)
        front = front_date(rest, book.settings.days == MONTH_FIRST)
        if front is None or TIME.sub("", front.rest):
            continue
        if not re.match(r"^\d{4}-\d{2}-\d{2}$", front.date) or not is_calendar_day(front.date):
            raise Unclear(f"`{rest}` is no full date: write it like 2026-05-13")
        if unclear_day(rest) and not book.settings.days:
            raise Unclear(f"`{rest}` can have the day or the month first: write it like 2026-05-13")
        return body[:found.start()], front.date
    return body, NO_DAY


def fixture_of(book: "Bookkeeper", text: str, example: str) -> Fixture:
    """The match that a ruling names."""
    return match_of(book, text, example)[0]


def match_of(book: "Bookkeeper", text: str, example: str) -> tuple[Fixture, Parts]:
    """The match that a ruling names, and what else the line tells of it."""
    numbered = NUMBERED.match(text)
    if numbered:
        number, score = int(numbered.group(1)), numbered.group(2)
        if not 1 <= number <= len(book.sheet.fixtures):
            raise Unclear(f"there is no match {number}: the sheet has {len(book.sheet.fixtures)}")
        fixture = book.sheet.fixture(number)
        return fixture, parts_of(f"{fixture.home} {score} {fixture.away}" if score
                                 else f"{fixture.home} - {fixture.away}")
    parts = parts_of(text)
    if parts.match is None:
        raise Unclear(f"no match is named here: a ruling is written like `{example}`")
    return book.fixture_of("match", parts.match), parts


def names_of(fixture: Fixture) -> str:
    """A match as a person writes it."""
    return f"{fixture.home} - {fixture.away}"
