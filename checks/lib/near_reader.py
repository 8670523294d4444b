"""The near reason by a plain reading of the words of crates/near_laws.

It shares no line with the program or its tools. Fixtures and clubs count from 0. Leads are tuples
of numbers that are compared in turn; None is the infinite one. It is slow: each fixture is looked
at score by score, and each group of clubs by itself.
"""

import itertools

from reference import points_of
from report_reader import (
    AWAY_GOALS, AWAY_WINS, DIFFERENCE, GOALS, POINTS, WINS, Question, marked, options, together)

MOST_LOOSE = 8
RECORD = (POINTS, DIFFERENCE, GOALS)
OVERALL = (DIFFERENCE, GOALS, AWAY_GOALS, WINS, AWAY_WINS)


def is_above(lead) -> bool:
    """The lead is above zero."""
    return lead is None or lead > (0,) * len(lead)


def is_from_zero(lead) -> bool:
    """The lead is zero or above."""
    return lead is None or lead >= (0,) * len(lead)


def added(lead, other):
    """Both leads together."""
    return None if None in (lead, other) else tuple(map(sum, zip(lead, other)))


class Tie:
    """A zone for a club, and the points on which other clubs may be level with it."""

    def __init__(self, question: Question, zone: list, points: int) -> None:
        self.league, self.club, self.points = question.league, question.club, points
        self.choices = [options(self.league, zone, fixture)
                        for fixture in range(len(self.league.fixtures))]
        self.before, self.after = marked(zone, True), marked(zone, False)
        clubs = range(len(self.league.clubs))
        self.least = [together(self.league, self.choices, {club}, min) for club in clubs]
        self.most = [together(self.league, self.choices, {club}, max) for club in clubs]
        self.able = {club for club in clubs if self.is_able(club)}

    def is_fit(self, club: int, fixture: int, score: tuple[int, int]) -> bool:
        """With this score the other fixtures can still bring the club to the points."""
        own = [gained(self.league.fixtures[fixture], club, it) for it in self.choices[fixture]]
        now = gained(self.league.fixtures[fixture], club, score)
        return (self.least[club] - min(own) + now <= self.points
                <= self.most[club] - max(own) + now)

    def fit(self, *clubs: int) -> list[list]:
        """Of each fixture the options that are fit for each of the clubs."""
        return [[score for score in scores if all(self.is_fit(club, fixture, score)
                                                  for club in clubs)]
                for fixture, scores in enumerate(self.choices)]

    def is_able(self, club: int) -> bool:
        """Each fixture has a fit option, and the fit options leave the points."""
        left = self.fit(club)
        return all(left) and (together(self.league, left, {club}, min) <= self.points
                              <= together(self.league, left, {club}, max))

    def least_lead(self, worths, clubs: tuple, count):
        """The least of each fixture's fit options, added."""
        total = (0,) * len(worths)
        for sides, scores in zip(self.league.fixtures, self.fit(*clubs)):
            total = added(total, min((tuple(count(worth, sides, score) for worth in worths)
                                      for score in scores), default=None))
        return total

    def margin(self, front: int, back: int, counts):
        """What a match gives the one club less what it gives the other, if it counts for it."""
        def count(worth, sides, score):
            return sum(sign * worth(score if club == sides[0] else score[::-1], club == sides[1])
                       for club, sign in ((front, 1), (back, -1))
                       if club in sides and counts(sides))
        return count

    def leads_surely(self, front: int, back: int, others: list[int]) -> bool:
        """The one club is ahead of the other, if these and the others are level."""
        two = (front, back)
        whole = part = self.least_lead(RECORD, two, self.margin(
            front, back, lambda sides: set(sides) <= set(two)))
        for rival in others:
            lead = self.least_lead(RECORD, (*two, rival), self.margin(
                front, back, lambda sides, rival=rival: rival in sides))
            whole = added(whole, lead)
            part = added(part, (0, 0, 0) if is_above(lead) else lead)
        last = self.least_lead(OVERALL, two, self.margin(front, back, lambda _: True))
        ranks = self.league.ranks[back] - self.league.ranks[front]
        last = None if last is None else (*last, ranks)
        if not self.league.overall_first:
            return is_above(whole) or (is_from_zero(part) and is_above(last))
        first = self.least_lead(OVERALL[:2], two, self.margin(front, back, lambda _: True))
        return is_above(first) or (is_from_zero(first) and (
            is_above(part) or (is_from_zero(part) and is_above(last))))

    def is_wrong(self, rival: int, group: tuple) -> bool:
        """The rival is surely on the other side of the club than it is marked."""
        others = [other for other in group if other != rival]
        return (rival in self.after and self.leads_surely(rival, self.club, others)) or (
            rival in self.before and self.leads_surely(self.club, rival, others))

    def cannot_both_have(self, rival: int) -> bool:
        """The club and the rival are not both on the points with all marks kept."""
        if not {self.club, rival} <= self.able:
            return True
        rivals = self.able - {self.club}
        held = {other for other in rivals if other == rival or self.least[other] == self.most[other]}
        if not all(all(self.fit(self.club, other)) for other in held):
            return True
        loose = sorted(rivals - held)
        return len(loose) <= MOST_LOOSE and all(
            any(self.is_wrong(other, group) for other in group)
            for size in range(len(loose) + 1)
            for group in (tuple(sorted(held | set(it)))
                          for it in itertools.combinations(loose, size)))


def gained(sides: tuple[int, int], club: int, score: tuple[int, int]) -> int:
    """The points that a match gives to a club."""
    return sum(points for side, points in zip(sides, points_of(score)) if side == club)


def is_near(question: Question, zone: list, rival: int) -> bool:
    """Whether the near reason holds in the zone, which has a finish, by this rival."""
    league, club = question.league, question.club
    choices = [options(league, zone, fixture) for fixture in range(len(league.fixtures))]
    if not all(choices):
        return False
    most = min(question.high, together(league, choices, {club}, max))
    least = max(question.low, together(league, choices, {club}, min))
    return (rival in marked(zone, False) and together(league, choices, {rival}, min) >= most
            and Tie(question, zone, most).cannot_both_have(rival)) or (
        rival in marked(zone, True) and together(league, choices, {rival}, max) <= least
        and Tie(question, zone, least).cannot_both_have(rival))
