"""Words that the parts share: places, lists of names, matches, dates and the goal limit."""

from __future__ import annotations

import re
import textwrap
import unicodedata

from .records import lines_of
from .sheet_dates import dates_in_feed, moved, moves_in
from .texts import Fixture, Season, Sheet

WIDTH = 96
DASH = " – "
FIRST_STRONG_ISOLATE, END_OF_ISOLATE = "\u2068", "\u2069"
GLUED = "\0–\0"
DATE = re.compile(
    rb"\d{4}-\d{2}-\d{2}|\d{1,2}[./]\d{1,2}[./]\d{2,4}"
    rb"|\d{1,2} (?:Jan|Feb|Mar|Apr|May|Jun|Jul|Aug|Sep|Oct|Nov|Dec)[a-z]* \d{4}")
NO_DAY = re.compile(rb"# (?:no date\s*$|added,)")
MATCHDAY = re.compile(rb"(?:matchday|round|gameweek) \d+", re.IGNORECASE)


def shown(name: str) -> str:
    """A name as it can be printed among other words, whatever bytes are in it.

    A name that is written from right to left is set apart, so that it does not turn what follows.
    """
    text = name.encode("utf-8", "replace").decode("utf-8")
    if any(unicodedata.bidirectional(sign) in ("R", "AL", "AN") for sign in text):
        return FIRST_STRONG_ISOLATE + text + END_OF_ISOLATE
    return text


def place_phrase(places: int) -> str:
    """What a line asks for."""
    return "first place" if places == 1 else f"the top {places}"


def listed(names: list[str], word: str = "and") -> str:
    """Names in a row: A, B and C."""
    if len(names) <= 1:
        return "".join(names)
    return ", ".join(names[:-1]) + f" {word} " + names[-1]


def counted(number: int, one: str, many: str | None = None) -> str:
    """A number with its noun."""
    return f"{number} {one if number == 1 else many or one + 's'}"


def match_text(fixture: Fixture) -> str:
    """A match by the names of its clubs."""
    return f"{shown(fixture.home)}{DASH}{shown(fixture.away)}"


def score_text(fixture: Fixture, score: tuple[int, int]) -> str:
    """A match with its score."""
    return f"{match_text(fixture)} {score[0]}:{score[1]}"


def limit_phrase(sheet: Sheet, season: Season) -> str:
    """What every verdict rests on: the goal limit, and the lots."""
    if not season.open_fixtures(sheet):
        return (f"however lots are drawn (no match is open, so the goal limit of "
                f"{counted(sheet.goal_limit, 'goal')} a side plays no part)")
    return (f"however the open matches end, with at most {counted(sheet.goal_limit, 'goal')} a "
            "side, and however lots are drawn")


def rules_phrase(sheet: Sheet, season: Season) -> str:
    """What decides first between clubs level on points, and the points deducted."""
    first = "goal difference and goals over all matches" if sheet.order == "overall_first" else (
        "the matches between them")
    deducted = [f"{shown(name)} {points}" for name, points in season.deductions.items() if points]
    text = f"Between clubs level on points, {first} count first."
    return text + (f" Points deducted: {listed(deducted)}." if deducted else "")


def lots_phrase(sheet: Sheet, lots: list[int], club: str) -> str:
    """The lots of an example, in few words where the club is the first or the last."""
    names = [shown(sheet.clubs[number - 1].name) for number in lots]
    others = [entry.number for entry in sheet.clubs if entry.name != club]
    own = sheet.club_named(club).number
    if lots == [own] + others:
        return f"if only lots decide, {shown(club)} is drawn first"
    if lots == others + [own]:
        return f"if only lots decide, {shown(club)} is drawn last"
    return "if only lots decide, they are drawn in the order " + ", ".join(names)


def days_of(data: bytes, sheet: Sheet) -> dict[int, str]:
    """What comments say of the day of each fixture: a date, or a matchday. Its new date goes before
    that of the sheet, and this before that above its result.
    """
    days: dict[int, str] = {}
    by_line = {fixture.line: fixture.number for fixture in sheet.fixtures}
    day = ""
    for number, raw in lines_of(data):
        if raw.startswith(b"#"):
            found = DATE.search(raw) or MATCHDAY.search(raw)
            day = found.group().decode("ascii") if found else "" if NO_DAY.match(raw) else day
        elif number in by_line and day:
            days[by_line[number]] = day
    return {**dates_in_feed(data), **moved(days, moves_in(data))}


def paragraph(text: str, indent: int = 0) -> str:
    """Text in lines of readable width, the later ones a little further in."""
    start = " " * indent
    filled = textwrap.fill(text.replace(DASH, GLUED), WIDTH, initial_indent=start,
                           subsequent_indent=start + "  ", break_long_words=False,
                           break_on_hyphens=False)
    return filled.replace(GLUED, DASH)
