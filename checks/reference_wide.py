#!/usr/bin/env python3
"""Works out verdicts where too many matches are open to try every finish, with the solver z3.

Needs Debian's package python3-z3. Reads a sheet and a feed on standard input and prints the rows of
each ask. A word is only written where it is certain: `possible` where two finishes were found and
ranked by `reference.py`; `lost` and `clinched` where points leave no other way, or leave ties alone
that matches which are played have decided. A row that none of these settles gets the word `open`.
"""

import csv
import random
import sys
from pathlib import Path

import z3

sys.dont_write_bytecode = True
sys.path.insert(0, str(Path(__file__).resolve().parent))
from reference import (  # noqa: E402
    League, Scores, Sums, blocks_of, groups_by, head_to_head, points_in, take)

TRIES = 60
MOST_PATTERNS = 300


class Search:
    """The outcomes of the open matches as unknowns, and the points that follow from them."""

    def __init__(self, league: League) -> None:
        self.league = league
        self.open = league.open_fixtures()
        self.home = {number: z3.Bool(f"home{number}") for number in self.open}
        self.away = {number: z3.Bool(f"away{number}") for number in self.open}
        self.solver = z3.Solver()
        for number in self.open:
            self.solver.add(z3.Not(z3.And(self.home[number], self.away[number])))
        sums = Sums(league, league.scores)
        self.points = [points_in(league, sums, club) + self._gain(club)
                       for club in range(len(league.clubs))]

    def _gain(self, club: int):
        """What the open matches give to a club."""
        gains = [z3.IntVal(0)]
        for number in self.open:
            sides = self.league.fixtures[number]
            if club in sides:
                own, other = (self.home, self.away) if sides[0] == club else (self.away, self.home)
                gains.append(z3.If(own[number], 3, z3.If(other[number], 0, 1)))
        return z3.Sum(gains)

    def outcomes(self, club: int, line: int, is_inside: bool, is_strict: bool) -> dict | None:
        """Outcomes that put a club inside or outside a line by points, or none.

        Where it is strict no tie matters; otherwise every tie counts for what is asked.
        """
        self.solver.push()
        self.solver.add(self._side(club, line, is_inside, is_strict))
        found = self._model() if self.solver.check() == z3.sat else None
        self.solver.pop()
        return found

    def _side(self, club: int, line: int, is_inside: bool, is_strict: bool):
        """The side of the line by points."""
        own = self.points[club]
        counts_ties = is_inside == is_strict
        ahead = [(points >= own if counts_ties else points > own, 1)
                 for rival, points in enumerate(self.points) if rival != club]
        return z3.PbLe(ahead, line - 1) if is_inside else z3.PbGe(ahead, line)

    def is_left_to_ties(self, club: int, line: int, is_inside: bool) -> bool | None:
        """Where only ties could bring a club to a side: whether played matches allow that.

        It goes through every pattern of rivals above, level and below that the side leaves. None
        where a pattern is not decided by matches that are played, or there are too many of them.
        """
        own = self.points[club]
        self.solver.push()
        self.solver.add(self._side(club, line, is_inside, is_strict=False))
        answer: bool | None = None
        for _ in range(MOST_PATTERNS):
            if self.solver.check() != z3.sat:
                answer = False
                break
            model = self.solver.model()
            values = [model.eval(points, model_completion=True).as_long()
                      for points in self.points]
            level = [rival for rival, value in enumerate(values) if value == values[club]]
            above = sum(value > values[club] for value in values)
            if self.side_of_group(level, club, line - above) is not (not is_inside):
                break
            self.solver.add(z3.Not(z3.And([
                points > own if value > values[club] else points == own
                if value == values[club] else points < own
                for points, value in zip(self.points, values)])))
        self.solver.pop()
        return answer

    def side_of_group(self, group: list[int], club: int, places: int) -> bool | None:
        """Whether a club is among the first of its group by matches played; none if not decided."""
        is_open = any(set(self.league.fixtures[number]) <= set(group) for number in self.open)
        if places <= 0 or places >= len(group):
            return places > 0
        if is_open or self.league.overall_first:
            return None
        record = head_to_head(self.league, self.league.scores, group)
        for part in groups_by(group, lambda member: record[member]):
            if club in part:
                return None if part == group else self.side_of_group(part, club, places)
            places -= len(part)
        raise ValueError("the club stands in its group")

    def _model(self) -> dict[int, int]:
        """The outcome of each open match: 1, 0 or -1."""
        model = self.solver.model()
        return {number: 1 if z3.is_true(model.eval(self.home[number])) else
                -1 if z3.is_true(model.eval(self.away[number])) else 0 for number in self.open}


def scores_for(league: League, outcomes: dict[int, int], club: int, is_inside: bool,
               chance: random.Random) -> Scores:
    """Scores with these outcomes, high wins for the club where it is to be inside."""
    scores = dict(league.scores)
    for number, outcome in outcomes.items():
        low, high = chance.randint(0, 2), league.goal_limit
        wins_high = (club in league.fixtures[number]) == is_inside and chance.random() < 0.8
        margin = chance.randint(1, high - low) if wins_high else 1
        scores[number] = {1: (low + margin, low), 0: (low, low), -1: (low, low + margin)}[outcome]
    return scores


def is_shown(league: League, scores: Scores, club: int, line: int, is_inside: bool) -> bool:
    """Whether a finish has the club on that side of the line, with some lots."""
    above = 0
    for block in blocks_of(league, scores, Sums(league, scores)):
        if club in block:
            return above + 1 <= line if is_inside else above + len(block) > line
        above += len(block)
    raise ValueError("each club stands in a block")


def can_be(search: Search, club: int, line: int, is_inside: bool) -> bool | None:
    """Whether a club can end on that side of the line; none if it was not found out."""
    if not search.open:
        return is_shown(search.league, search.league.scores, club, line, is_inside)
    chance = random.Random(1)
    for is_strict in (True, False):
        outcomes = search.outcomes(club, line, is_inside, is_strict)
        if outcomes is None and not is_strict:
            return False
        for _ in range(0 if outcomes is None else TRIES):
            scores = scores_for(search.league, outcomes, club, is_inside, chance)
            if is_shown(search.league, scores, club, line, is_inside):
                return True
    return search.is_left_to_ties(club, line, is_inside)


def word_of(search: Search, club: int, line: int) -> str:
    """The verdict, or `open` where it was not found out."""
    inside, outside = (can_be(search, club, line, side) for side in (True, False))
    if inside is False:
        return "lost"
    if outside is False:
        return "clinched"
    return "possible" if inside and outside else "open"


def main() -> None:
    """Reads standard input and prints the rows of each ask."""
    writer = csv.writer(sys.stdout, lineterminator="\n")
    league = League()
    for text in sys.stdin:
        record = next(csv.reader([text.rstrip("\n")]), []) if not text.startswith("#") else []
        if not record or not take(league, record):
            continue
        writer.writerow(["ask", league.events])
        search = Search(league)
        for line in league.lines:
            for club, name in enumerate(league.clubs):
                writer.writerow(["verdict", line, name, word_of(search, club, line)])


if __name__ == "__main__":
    main()
