"""A case of a proof in which two clubs end level on points, and perhaps others with them: which one
is then surely ahead of another, and by which criterion.

A score is fit for a club if the club's other matches can still bring it to these points. A lead
adds, match by match, the least that a fit score gives the one club more than the other, in numbers
that are compared in turn; it is none if a match that counts has no fit score.
"""

from __future__ import annotations

from dataclasses import dataclass
from typing import Optional, Tuple

from .standing import RECORD, TAIL, Part
from .texts import Fixture
from .zones import Score, Zone, match_points

Lead = Optional[Tuple[int, ...]]
GOALS_FIRST, RECORD_OF_ALL, RECORD_OF_SOME, ALL_MATCHES = "goals", "record", "part", "all"


@dataclass(frozen=True)
class Ahead:
    """Why a club is ahead: in what comes first it is at least level, and then it has this lead."""

    level: tuple[str, ...]
    where: str
    lead: Lead


class Levels:
    """The clubs that are sure to be level with the club of a case on these points, one of them a
    rival that is forced to be, and those that are free to be.
    """

    def __init__(self, zone: Zone, points: int, rival: int) -> None:
        self.zone, self.points, self.club = zone, points, zone.club
        self.numbers = {club.name: club.number for club in zone.sheet.clubs}
        self.matches = {club: [it for it in zone.sheet.fixtures if club in self._sides(it)]
                        for club in self.numbers.values()}
        self.options = {it.number: zone.options(it) for it in zone.sheet.fixtures}
        self.ranges = {club: (zone.points([club], False), zone.points([club], True))
                       for club in self.matches}
        self.leads: dict[tuple, Lead] = {}
        able = [club for club in self.matches if self.is_able(club)]
        self.sure = [club for club in able if club == rival
                     or club != self.club and self.ranges[club] == (points, points)]
        self.free = [club for club in able if club not in (self.club, *self.sure)]

    def _sides(self, fixture: Fixture) -> tuple[int, int]:
        """The numbers of both clubs of a match."""
        return self.numbers[fixture.home], self.numbers[fixture.away]

    def _gain(self, club: int, fixture: Fixture, score: Score) -> int:
        """The points that a score gives one of the clubs of a match."""
        return match_points(score)[self._sides(fixture).index(club)]

    def fit(self, fixture: Fixture, *clubs: int) -> list[Score]:
        """The scores of a match that are fit for each of these clubs that plays in it."""
        options = scores = self.options[fixture.number]
        for club in set(clubs) & set(self._sides(fixture)):
            gains = [self._gain(club, fixture, it) for it in options]
            least, most = self.ranges[club]
            low, high = self.points - most + max(gains), self.points - least + min(gains)
            scores = [it for it in scores if low <= self._gain(club, fixture, it) <= high]
        return scores

    def is_able(self, club: int) -> bool:
        """Whether each match has a fit score, and these can give the points."""
        gains = [[self._gain(club, it, score) for score in self.fit(it, club)]
                 for it in self.matches[club]]
        before = -self.zone.season.deductions.get(self.zone.name(club), 0)
        return all(gains) and (before + sum(map(min, gains)) <= self.points
                               <= before + sum(map(max, gains)))

    def shut_match(self) -> Fixture | None:
        """A match of the club with one that is sure to be level, without a score for both."""
        return next((it for it in self.matches[self.club] for other in self.sure
                     if other in self._sides(it) and not self.fit(it, self.club, other)), None)

    def lead(self, ahead: int, behind: int, parts: tuple[Part, ...],
             third: int | None = None) -> Lead:
        """The lead over all matches of either club, or in those of a third with one of the two."""
        key = ahead, behind, len(parts), third
        if key not in self.leads:
            total = [0] * len(parts)
            for fixture in self._counted(ahead, behind, third):
                sides = self._sides(fixture)
                leads = [[sum(part[1](score, club == sides[0]) * (1 if club == ahead else -1)
                              for club in sides if club in (ahead, behind)) for part in parts]
                         for score in self.fit(fixture, ahead, behind, third or ahead)]
                total = [sum(it) for it in zip(total, min(leads))] if leads and total else []
            self.leads[key] = tuple(total) or None
        return self.leads[key]

    def between(self, one: int, other: int) -> list[Fixture]:
        """The matches of two clubs."""
        return self._counted(one, other, other)

    def _counted(self, ahead: int, behind: int, third: int | None) -> list[Fixture]:
        """The matches of a lead; those of the two alone if the third is one of them."""
        if third is None:
            return [it for it in self.zone.sheet.fixtures if {ahead, behind} & set(self._sides(it))]
        return [it for it in self.matches[third]
                if sum(self._sides(it)) - third in (ahead, behind)]

    def why_ahead(self, ahead: int, behind: int, others: list[int]) -> Ahead | None:
        """Why the one club is ahead of the other if the others are level with them; none if that is
        not sure.
        """
        whole = part = self.lead(ahead, behind, RECORD, behind)
        for third in others:
            lead = self.lead(ahead, behind, RECORD, third)
            whole = _added(whole, lead)
            part = part if is_above(lead) else _added(part, lead)
        ranks = [self.zone.sheet.clubs[club - 1].rank for club in (behind, ahead)]
        last = self.lead(ahead, behind, TAIL)
        last = None if last is None else (*last, ranks[0] - ranks[1])
        goals = None if last is None else last[:2]
        if self.zone.sheet.order == "overall_first":
            tries = [((), (), GOALS_FIRST, goals),
                     ((goals,), (GOALS_FIRST,), RECORD_OF_SOME, part),
                     ((goals, part), (GOALS_FIRST, RECORD_OF_SOME), ALL_MATCHES, last)]
        else:
            tries = [((), (), RECORD_OF_ALL, whole),
                     ((part,), (RECORD_OF_SOME,), ALL_MATCHES, last)]
        return next((Ahead(level, where, lead) for first, level, where, lead in tries
                     if is_above(lead) and all(is_above(it) or not any(it) for it in first)), None)


def is_above(lead: Lead) -> bool:
    """Whether the first number that is not nought is above it, or no score is left."""
    return lead is None or next((it for it in lead if it), 0) > 0


def _added(lead: Lead, other: Lead) -> Lead:
    """Both leads together."""
    return None if lead is None or other is None else tuple(map(sum, zip(lead, other)))
