"""What is left of a season in one case of a proof: scores, points least and most, and marks."""

from __future__ import annotations

from dataclasses import dataclass, field
from typing import Tuple

from .texts import Fixture, Season, Sheet

Score = Tuple[int, int]


def match_points(score: Score) -> tuple[int, int]:
    """The points of a match for the home side and the away side."""
    home, away = score
    return (1, 1) if home == away else (3, 0) if home > away else (0, 3)


@dataclass
class Zone:
    """A case of a proof about one club: what was supposed of matches and of rivals.

    Fixtures and clubs are numbers from 1. `tests` are pairs of a test and whether it holds.
    """

    sheet: Sheet
    season: Season
    club: int
    tests: list[tuple[list, bool]] = field(default_factory=list)

    def supposed(self, test: list, holds: bool) -> Zone:
        """The case within this one in which a test holds, or does not."""
        return Zone(self.sheet, self.season, self.club, [*self.tests, (test, holds)])

    def marked(self, is_before: bool) -> list[int]:
        """The rivals that are supposed to end ahead of the club, or not to."""
        return [test[1] for test, holds in self.tests if test[0] == "rival" and holds == is_before]

    def options(self, fixture: Fixture) -> list[Score]:
        """The scores that a fixture can have in this case."""
        if fixture.number in self.season.scores:
            scores = [self.season.scores[fixture.number]]
        else:
            goals = range(self.sheet.goal_limit + 1)
            scores = [(home, away) for home in goals for away in goals]
        for test, holds in self.tests:
            if test[0] != "rival" and test[1] == fixture.number:
                scores = [score for score in scores if _is_true(test, score) == holds]
        return scores

    def points_now(self, club: int) -> int:
        """The points of a club from the matches played, less its deduction."""
        name = self.sheet.clubs[club - 1].name
        points = -self.season.deductions.get(name, 0)
        for number, score in self.season.scores.items():
            fixture = self.sheet.fixture(number)
            home, away = match_points(score)
            points += home * (fixture.home == name) + away * (fixture.away == name)
        return points

    def gains(self, clubs: list[int], most: bool) -> list[tuple[Fixture, int]]:
        """What each open match of these clubs gives them together, at least or at most."""
        names = {self.sheet.clubs[club - 1].name for club in clubs}
        gains = []
        for fixture in self.season.open_fixtures(self.sheet):
            if fixture.home in names or fixture.away in names:
                sums = [_points_for(names, fixture, score) for score in self.options(fixture)]
                gains.append((fixture, max(sums) if most else min(sums)))
        return gains

    def points(self, clubs: list[int], most: bool) -> int:
        """The points that these clubs can end with together, at least or at most."""
        return sum(map(self.points_now, clubs)) + sum(gain for _, gain in self.gains(clubs, most))

    def name(self, club: int) -> str:
        """The name of a club."""
        return self.sheet.clubs[club - 1].name


def _is_true(test: list, score: Score) -> bool:
    """Whether a score meets a test of a match."""
    home, away = score
    return {
        "home": lambda: home > away,
        "draw": lambda: home == away,
        "hg": lambda: home <= test[2],
        "ag": lambda: away <= test[2],
    }[test[0]]()


def _points_for(names: set[str], fixture: Fixture, score: Score) -> int:
    """The points that a score gives to the clubs of a set."""
    home, away = match_points(score)
    return home * (fixture.home in names) + away * (fixture.away in names)
