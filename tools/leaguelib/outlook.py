"""What each of the next matches can decide by itself, whatever the others bring.

The mode `whatif` of futmax answers `when,F` for a home win, a draw and an away win: each word holds
for every score of the outcome within the goal limit, and however the other open matches end.
"""

from __future__ import annotations

import re
from dataclasses import dataclass
from typing import Dict, Tuple

from .answers import OUTCOMES
from .asking import ASK, greater_budget, run_mode, with_budget
from .changes import Change, Words, changes_between, words_of
from .modes import DECIDE
from .progress import Progress
from .records import row_text
from .running import report_of
from .texts import Fixture, Season, Sheet

MOST_MATCHES = 12
ISO_DATE = re.compile(r"^\d{4}-\d{2}-\d{2}$")

Given = Dict[Tuple[int, str], Words]


@dataclass(frozen=True)
class Outlook:
    """An outcome of a match, and what is decided with it."""

    fixture: Fixture
    outcome: str
    changes: tuple[Change, ...]


def next_matches(sheet: Sheet, season: Season, days: dict[int, str]) -> list[Fixture]:
    """The open matches of the next day; all of them where no day is known and they are few.

    Among matchdays a date is that of a match that was postponed: it waits for its day.
    """
    still = season.open_fixtures(sheet)
    known = [days[it.number] for it in still if days.get(it.number)]
    dated = [day for day in known if ISO_DATE.match(day)]
    other = [day for day in known if not ISO_DATE.match(day)]
    day = other[0] if other else min(dated) if dated else ""
    found = [it for it in still if days.get(it.number) == day] if day else still
    return found if len(found) <= MOST_MATCHES else []


def outlook(path: str, sheet: Sheet, season: Season, runs: list[bytes], fixtures: list[Fixture],
            is_wanted: bool = False) -> list[Outlook]:
    """What each outcome of these matches decides; the runs are inputs without an ask, by lines."""
    now: Words = {}
    for data in runs:
        now.update(words_of(report_of(run_mode(path, DECIDE, data + ASK)).answers[-1].verdicts))
    given, _ = given_words(path, sheet, season, runs, fixtures, now, is_wanted=is_wanted)
    return decided(now, given, fixtures)


def given_words(path: str, sheet: Sheet, season: Season, runs: list[bytes],
                fixtures: list[Fixture], now: Words, budget: int | None = None,
                is_wanted: bool = False) -> tuple[Given, int]:
    """The words given each outcome of each match, and the budget that they were asked with.

    What is in or out now stays so. Without a budget of its own a match with unsettled words is
    asked again with a greater one.
    """
    given: Given = {}
    most = budget or greater_budget(sheet, season)
    used = budget or sheet.budget
    with Progress("what the next matches decide", len(fixtures), is_wanted) as progress:
        for fixture in fixtures:
            words = _of_match(path, runs, fixture, now, budget or sheet.budget)
            if most > sheet.budget and budget is None and _is_unsettled(words):
                words, used = _of_match(path, runs, fixture, now, most), most
            given.update(words)
            progress.step()
    return given, used


def _of_match(path: str, runs: list[bytes], fixture: Fixture, now: Words, budget: int) -> Given:
    """The words given each outcome of a match, over all lines."""
    settled = {mark: word for mark, word in now.items() if word in ("clinched", "lost")}
    found: Given = {(fixture.number, outcome): {} for outcome in OUTCOMES}
    for data in runs:
        when = row_text("when", fixture.number).encode("ascii")
        report = report_of(run_mode(path, "whatif", with_budget(data, budget) + when))
        for answer in report.answers:
            found[answer.fixture, answer.outcome].update(
                {mark: settled.get(mark, word) if word == "unsettled" else word
                 for mark, word in words_of(answer.verdicts).items()})
    return found


def _is_unsettled(given: Given) -> bool:
    """Whether a word is missing because the budget was spent."""
    return any(word == "unsettled" for words in given.values() for word in words.values())


def decided(now: Words, given: Given, fixtures: list[Fixture]) -> list[Outlook]:
    """The outcomes by which something is decided that is open now, match after match."""
    found = []
    for fixture in fixtures:
        for outcome in OUTCOMES:
            words = given[fixture.number, outcome]
            changes = tuple(change for change in changes_between(now, words)
                            if change.now in ("clinched", "lost"))
            if changes:
                found.append(Outlook(fixture, outcome, changes))
    return found
