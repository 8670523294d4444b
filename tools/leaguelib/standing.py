"""How a rival surely stands to a club where each match has one outcome, and by which criterion.

Points have one value then, every other sum a range over the scores that are left. Criteria are
compared in their order: ranges that lie apart decide, two equal single values go on to the next.
"""

from __future__ import annotations

from typing import Callable, Tuple

from .texts import Fixture
from .wording import counted, listed, shown
from .zones import Score, Zone, match_points

Range = Tuple[int, int]
Part = Tuple[str, Callable[[Score, bool], int]]

DIFFERENCE: Part = ("goal difference",
                    lambda score, home: _own(score, home) - _own(score, not home))
GOALS: Part = ("goals", lambda score, home: _own(score, home))
POINTS: Part = ("points", lambda score, home: match_points(score)[0 if home else 1])
AWAY_GOALS: Part = ("away goals", lambda score, home: 0 if home else score[1])
WINS: Part = ("wins", lambda score, home: int(_own(score, home) > _own(score, not home)))
AWAY_WINS: Part = ("away wins", lambda score, home: int(not home and score[1] > score[0]))
RECORD = (POINTS, DIFFERENCE, GOALS)
OVERALL = (DIFFERENCE, GOALS)
TAIL = (DIFFERENCE, GOALS, AWAY_GOALS, WINS, AWAY_WINS)


def _own(score: Score, home: bool) -> int:
    return score[0] if home else score[1]


class Standing:
    """The sure order of one case: `judge` says `above`, `below`, `level` or `unknown`, and why."""

    def __init__(self, zone: Zone) -> None:
        self.zone = zone
        self.fixtures = [(fixture, zone.options(fixture)) for fixture in zone.sheet.fixtures]
        size = len(zone.sheet.clubs)
        self.points = {club: zone.points([club], True) for club in range(1, size + 1)}

    def judge(self, rival: int) -> tuple[str, str]:
        """How a rival stands to the club of the case, and the criterion in words."""
        club = self.zone.club
        own, its = self.points[club], self.points[rival]
        if own != its:
            return ("above" if its > own else "below",
                    f"{self._name(rival)} ends on {counted(its, 'point')} and "
                    f"{self._name(club)} on {own}")
        group = [other for other in self.points if self.points[other] == own]
        if self.zone.sheet.order == "overall_first":
            found, smaller = self._by_parts(rival, group, OVERALL, whole=True)
            if found[0] != "level":
                return found
            group = smaller
        return self._by_record(rival, group)

    def _by_record(self, rival: int, group: list[int]) -> tuple[str, str]:
        """The head-to-head record, again within the clubs that stay level, then all matches."""
        while True:
            found, smaller = self._by_parts(rival, group, RECORD, whole=False)
            if found[0] != "level":
                return found
            if len(smaller) == len(group):
                break
            group = smaller
        found, _ = self._by_parts(rival, group, TAIL, whole=True, needs_group=False)
        return found if found[0] != "level" else self._by_rank(rival)

    def _by_parts(self, rival: int, group: list[int], parts: tuple[Part, ...], whole: bool,
                  needs_group: bool = True) -> tuple[tuple[str, str], list[int]]:
        """Compares sums in order; where all are equal, also the clubs that are level in them."""
        ranges = {club: [self._range(club, group, part, whole) for part in parts]
                  for club in group}
        own, its = ranges[self.zone.club], ranges[rival]
        for (word, _), mine, theirs in zip(parts, own, its):
            if theirs[0] > mine[1] or theirs[1] < mine[0]:
                where = "over all matches" if whole else "in the matches among " + listed(
                    [self._name(club) for club in group])
                why = (f"level on {counted(self.points[rival], 'point')}; {where}, "
                       f"{self._name(rival)} has {word} {_text(theirs)} and "
                       f"{self._name(self.zone.club)} {_text(mine)}")
                return ("above" if theirs[0] > mine[1] else "below", why), []
            if mine != theirs or mine[0] != mine[1]:
                return ("unknown", ""), []
        smaller = [club for club in group if ranges[club] == own]
        if needs_group and any(_may_be_level(ranges[club], own) for club in group
                               if club not in smaller):
            return ("unknown", ""), []
        return ("level", ""), smaller

    def _range(self, club: int, group: list[int], part: Part, whole: bool) -> Range:
        """What the matches of a club add up to in one part, least and most."""
        name = self.zone.sheet.clubs[club - 1].name
        names = {self.zone.sheet.clubs[other - 1].name for other in group}
        least = most = 0
        for fixture, options in self.fixtures:
            if _counts(fixture, name, names, whole):
                values = [part[1](score, fixture.home == name) for score in options]
                least, most = least + min(values), most + max(values)
        return least, most

    def _by_rank(self, rival: int) -> tuple[str, str]:
        club = self.zone.club
        own, its = (self.zone.sheet.clubs[number - 1].rank for number in (club, rival))
        if own == its:
            return "level", "lots decide"
        return ("above" if its < own else "below",
                f"all sums are level; {self._name(rival)} has the fixed rank {its} and "
                f"{self._name(club)} {own}")

    def _name(self, club: int) -> str:
        return shown(self.zone.name(club))


def _counts(fixture: Fixture, name: str, names: set[str], whole: bool) -> bool:
    """Whether a match counts for a club: all of its own, or those within the group."""
    is_own = name in (fixture.home, fixture.away)
    return is_own and (whole or (fixture.home in names and fixture.away in names))


def _may_be_level(ranges: list[Range], own: list[Range]) -> bool:
    """Whether each value of the club lies in the range of the other."""
    return all(least <= value[0] <= most for (least, most), value in zip(ranges, own))


def _text(values: Range) -> str:
    return str(values[0]) if values[0] == values[1] else f"{values[0]} to {values[1]}"
