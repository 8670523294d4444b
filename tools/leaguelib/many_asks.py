"""Where a season is asked: after each day, after each matchday, after every N events, at the feed's
own asks, or at the end; and what each of these moments is called.

The date of a result is that of the comment `# 2024-05-19` above it in the feed, or else of its
match in the sheet. Where the feed has no dates of its own and results alone, they are put in the
order of their dates; otherwise the order of the feed stays, and an event is never dated before an
earlier one. Where most results have no date, a matchday ends when a club would play in it twice.
"""

from __future__ import annotations

import re
from dataclasses import dataclass

from .feeds import Input
from .sheet_dates import DATE_COMMENT, dates_of
from .texts import Entry

DAYS, MATCHDAYS, ASKS, END = "days", "matchdays", "asks", "end"
FULL_DATE = re.compile(r"^\d{4}-\d{2}-\d{2}$")


@dataclass
class Moment:
    """Where is asked: after these lines of the feed, and what the moment is called."""

    label: str
    lines: list[bytes]


@dataclass
class Dated:
    """An event with its line and its date, if any."""

    entry: Entry
    raw: bytes
    date: str


def moments_of(data: bytes, league: Input, when: str, every: int = 0) -> list[Moment]:
    """The moments in order; the lines of all of them are the whole feed."""
    events, is_dated = _dated(data, league, keeps_order=when == ASKS and not every)
    if every:
        parts = [events[at:at + every] for at in range(0, len(events), every)]
        labels = [f"event {min(at + every, len(events))}" for at in range(0, len(events), every)]
    elif when == ASKS:
        parts, labels = _by_asks(events, league)
    elif when == END:
        parts, labels = [events], [f"event {len(events)}"]
    elif when == DAYS and is_dated:
        parts = _grouped(events)
        labels = [""] * len(parts)
    else:
        parts = _matchdays(events, league)
        labels = [f"matchday {number}" for number in range(1, len(parts) + 1)]
    if not parts:
        parts, labels = [[]], ["event 0"]
    moments, date = [], ""
    for part, label in zip(parts, labels):
        date = part[-1].date if part else date
        moments.append(Moment(date or label, [event.raw for event in part]))
    return moments


def front_of(data: bytes) -> bytes:
    """The sheet of an input that was read: all lines up to `season`."""
    front = []
    for raw in data.split(b"\n"):
        front.append(raw + b"\n")
        if raw.startswith((b"season", b'"season')):
            break
    return b"".join(front)


def asked_feed(moments: list[Moment]) -> bytes:
    """The feed with an ask at each moment."""
    return b"".join(b"".join(raw + b"\n" for raw in moment.lines) + b"ask\n" for moment in moments)


def _dated(data: bytes, league: Input, keeps_order: bool) -> tuple[list[Dated], bool]:
    """The events with their dates, in the order that they are told; and whether they have dates."""
    of_fixtures = dates_of(data, league.sheet)
    wanted = {entry.line: entry for entry in league.entries if entry.is_event}
    last_event = max(wanted, default=0)
    own, events, has_own = "", [], False
    last_fixture = max((fixture.line for fixture in league.sheet.fixtures), default=0)
    for number, raw in enumerate(data.split(b"\n"), 1):
        if number <= last_fixture:
            continue
        if raw.startswith(b"#"):
            found = DATE_COMMENT.match(raw.rstrip(b"\r").decode("utf-8", "replace"))
            own = found.group(1) if found else own
            has_own = has_own or (bool(FULL_DATE.match(own)) and number < last_event)
        elif number in wanted:
            entry = wanted[number]
            date = own or (of_fixtures.get(entry.fixture, "") if entry.kind == "result" else "")
            events.append(Dated(entry, raw, date if FULL_DATE.match(date) else ""))
    results = [event for event in events if event.entry.kind == "result"]
    if 2 * sum(bool(event.date) for event in results) <= len(results):
        return [Dated(event.entry, event.raw, "") for event in events], False
    _fill(events)
    if not has_own and not keeps_order and len(results) == len(events):
        events.sort(key=lambda event: event.date)
    for before, event in zip(events, events[1:]):
        event.date = max(before.date, event.date)
    return events, True


def _fill(events: list[Dated]) -> None:
    """Gives events without a date that of the event before, and the first ones the first date."""
    date = next(event.date for event in events if event.date)
    for event in events:
        event.date = date = event.date or date


def _grouped(events: list[Dated]) -> list[list[Dated]]:
    """The events day by day."""
    parts: list[list[Dated]] = []
    for event in events:
        if parts and parts[-1][0].date == event.date:
            parts[-1].append(event)
        else:
            parts.append([event])
    return parts


def _matchdays(events: list[Dated], league: Input) -> list[list[Dated]]:
    """The events matchday by matchday: a new one begins where a club would play twice in one."""
    parts: list[list[Dated]] = [[]]
    playing: set[str] = set()
    for event in events:
        clubs: set[str] = set()
        if event.entry.kind == "result":
            fixture = league.sheet.fixture(event.entry.fixture)
            clubs = {fixture.home, fixture.away}
        if playing & clubs:
            parts.append([])
            playing = set()
        parts[-1].append(event)
        playing |= clubs
    return [part for part in parts if part]


def _by_asks(events: list[Dated], league: Input) -> tuple[list[list[Dated]], list[str]]:
    """The events up to each ask of the feed; the end counts as one where the feed has none."""
    asks = [entry.line for entry in league.entries if entry.kind == "ask"]
    if not asks:
        return [events], ["ask 1"]
    parts, labels, at = [], [], 0
    for number, line in enumerate(asks, 1):
        end = sum(event.entry.line < line for event in events)
        parts.append(events[at:max(at, end)])
        labels.append(f"ask {number}")
        at = max(at, end)
    return parts, labels
