"""What changed between two asks, or since a day: who is in now, who is out, what is open again."""

from __future__ import annotations

import re
from datetime import date

from . import common
from .answers import Place
from .feeds import Input
from .line_names import LineNames
from .screen import Marks
from .texts import Entry
from .wording import counted, listed, paragraph, shown

MONTHS = ("jan", "feb", "mar", "apr", "may", "jun", "jul", "aug", "sep", "oct", "nov", "dec")
NOUNS = {"result": "result", "fix": "correction", "void": "annulment", "deduct": "deduction"}


def change_texts(names: LineNames, before: Marks, after: Marks, table: list[Place],
                 since: str) -> list[str]:
    """What changed, a paragraph a line; one sentence where nothing did."""
    order = [place.club for place in table]
    texts = []
    for places, words in after.items():
        old = before.get(places, {})
        changed = [club for club in order if club in old and old[club] != words[club]]
        kinds = dict.fromkeys((old[club], words[club]) for club in changed)
        parts = []
        for was, now in kinds:
            clubs = [shown(club) for club in changed if (old[club], words[club]) == (was, now)]
            parts.append(f"{listed(clubs)} {was} → {now}")
        if parts:
            title = names.place(places)
            texts.append(paragraph(f"{title[:1].upper()}{title[1:]}: {'; '.join(parts)}.", 2))
    if not texts:
        return [paragraph(f"Nothing changed since {since}.")]
    return [paragraph(f"What changed since {since}:"), *texts]


def events_text(entries: list[Entry]) -> str:
    """What entries tell, by kinds: 10 results and 1 correction."""
    kinds = [entry.kind for entry in entries]
    told = [counted(kinds.count(kind), noun) for kind, noun in NOUNS.items() if kind in kinds]
    return listed(told) or "no result"


def day_of(text: str) -> date | int | None:
    """A day as the comments of a sheet name it: a date, or the number of a matchday."""
    text = text.strip().lower()
    found = re.fullmatch(r"(\d{4})-(\d{2})-(\d{2})", text)
    if found:
        return _date(*map(int, found.groups()))
    found = re.fullmatch(r"(\d{1,2})[./](\d{1,2})[./](\d{2,4})", text)
    if found:
        day, month, year = map(int, found.groups())
        return _date(year + 2000 * (year < 100), month, day)
    found = re.fullmatch(r"(\d{1,2}) ([a-z]{3})[a-z]* (\d{4})", text)
    if found and found.group(2) in MONTHS:
        return _date(int(found.group(3)), MONTHS.index(found.group(2)) + 1, int(found.group(1)))
    found = re.fullmatch(r"(?:matchday |round |gameweek )?(\d{1,3})", text)
    return int(found.group(1)) if found else None


def _date(year: int, month: int, day: int) -> date | None:
    try:
        return date(year, month, day)
    except ValueError:
        return None


def read_day(text: str, option: str = "--since") -> date | int:
    """The day that an option names; raises `Trouble` if it is none."""
    found = day_of(text)
    if found is None:
        raise common.Trouble(f"{option} takes a date like 2024-05-19, or the number of a matchday, "
                             f"and not `{text}`.", common.BAD_WORDS)
    return found


def days_like(days: dict[int, str], wanted: date | int) -> dict[int, date | int]:
    """The days of matches that are of one kind with this one: dates, or numbers of matchdays."""
    read = {number: day_of(text) for number, text in days.items()}
    fitting = {number: day for number, day in read.items() if isinstance(day, type(wanted))}
    if not fitting:
        kind = "dates" if isinstance(wanted, date) else "matchdays"
        raise common.Trouble(f"the comments of the sheet have no {kind}, so nothing is known of "
                             "that day.")
    return fitting


def later_lines(league: Input, days: dict[int, str], since: date | int, ask_line: int) -> set[int]:
    """The lines of the events since a day, up to an ask: of matches on that day or later, and the
    deductions after the first of them. Raises `Trouble` if the sheet tells no such days.
    """
    fitting = days_like(days, since)
    later: set[int] = set()
    for entry in league.entries:
        if entry.line >= ask_line or not entry.is_event:
            continue
        day = fitting.get(entry.fixture)
        if (entry.kind == "deduct" and later) or (day is not None and day >= since):
            later.add(entry.line)
    return later


def plain(text: str) -> str:
    """A sentence with a capital letter in front."""
    return text[:1].upper() + text[1:]
