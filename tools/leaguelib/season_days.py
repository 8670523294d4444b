"""A season day by day: what each club could still reach after each matchday, and when a line was
decided for it.

A matchday is as many results as there are matches for half of the clubs, in the order of the feed,
whatever days they were played on; the last one may have fewer.
"""

from __future__ import annotations

from dataclasses import dataclass
from typing import Dict

from .feeds import Input
from .given import Given
from .progress import Progress
from .reach import Reach, reach_of

Decided = Dict[str, int]


@dataclass(frozen=True)
class Day:
    """A matchday: how many results were known after it, and what each club could reach then."""

    number: int
    played: int
    reach: dict[str, Reach]


def days_of_season(path: str, given: Given, league: Input, position: int,
                   shows_progress: bool = False) -> list[Day]:
    """What each club could reach after each matchday up to an ask, by the program."""
    results = result_lines(league, position)
    size = max(1, len(league.sheet.clubs) // 2)
    counts = [*range(size, len(results), size), len(results)] if results else []
    days = []
    with Progress("matchdays", len(counts), shows_progress) as progress:
        for number, count in enumerate(counts, 1):
            at = given_before(given, results[count:])
            found = reach_of(path, at, league, position)
            days.append(Day(number, count, {it.club: it for it in found}))
            progress.step()
    return days


def result_lines(league: Input, position: int) -> list[list[int]]:
    """The lines of each match that has a score at an ask, in the order of their first results;
    what came later of a match, such as a correction, is with it.
    """
    asks = [entry.line for entry in league.entries if entry.kind == "ask"]
    end = asks[position]
    lines: dict[int, list[int]] = {}
    for entry in league.entries:
        if entry.line < end and entry.kind in ("result", "fix", "void"):
            lines.setdefault(entry.fixture, []).append(entry.line)
    return list(lines.values())


def given_before(given: Given, left_out: list[list[int]]) -> Given:
    """The input without the lines of some matches; the others keep their numbers."""
    dropped = {line for lines in left_out for line in lines}
    data = b"\n".join(b"" if number in dropped else raw
                      for number, raw in enumerate(given.data.split(b"\n"), 1))
    return Given(given.whole, data, given.paths, given.has_own_ask)


def decided_days(days: list[Day], places: int) -> dict[str, Decided]:
    """The matchday after which each club was in or out of the first so many places, by the word;
    clubs that are open still are in neither.
    """
    found: dict[str, Decided] = {"in": {}, "out": {}}
    for day in days:
        for club, reach in day.reach.items():
            if reach.is_worst_sure and reach.worst <= places:
                found["in"].setdefault(club, day.number)
            if reach.is_best_sure and reach.best > places:
                found["out"].setdefault(club, day.number)
    return found
