"""Tests of what `explain` says where a rival can only end level with a club: drawn zones are held
against every finish and against another reading of the reason, sentences against leagues worked by
hand.
"""

import csv
import itertools
import random
import subprocess
import sys
import unittest

import program_checks
from near_reader import is_near
from program_checks import HOME, league
from reference import League, Sums, blocks_of, points_in, take
from report_reader import Question
from sentence_checks import drawn_season

sys.path.insert(0, str(HOME / "tools"))
from leaguelib.feeds import read_input  # noqa: E402
from leaguelib.levels import ALL_MATCHES, GOALS_FIRST, RECORD_OF_ALL, Levels  # noqa: E402
from leaguelib.proof_levels import Way, level_text  # noqa: E402
from leaguelib.proof_words import DoesNotAddUp  # noqa: E402
from leaguelib.zones import Zone  # noqa: E402

# X beat C, C beat Y, and Z both of them; Y and Z play once more. C and X end on 3 points, Z above
# them, and Y joins the two if it beats Z. Without Y the match of the two decides, which X won. With
# Y each of the two has won one match among the three, and X has lost none there: its goal
# difference is 1, that of C is 0. Both have the goal difference 0 over all matches, and one goal.
THREE = (HOME / "checks" / "reports" / "wide" / "three.csv").read_text().split("proofs\n")[0]
WITHOUT = ("So C and X can only end level, on 3 points each. Y can be level with them too. Without "
           "Y, X is ahead of C whatever happens elsewhere, though supposed not to be: ")
WITH = "With Y, X is ahead of C whatever happens elsewhere, though supposed not to be: "
LAST = "if level there, has a goal difference at least 1 better. That cannot be."
HEAD_FIRST = (f"{WITHOUT}in the match of the two, X has at least 3 points more. {WITH}in the matches "
              f"among C, X and Y, X is no worse on points and, {LAST}")
OVERALL_FIRST = (f"{WITHOUT}X is no worse on goal difference and goals over all matches, and in the "
                 f"match of the two, it has at least 3 points more. {WITH}X is no worse on goal "
                 "difference and goals over all matches, and in the matches among any of C, X and "
                 f"Y, it is no worse on points and, {LAST}")
# All is played but R – S and D – E. C has 4 points; R and S, which beat it, have 3, so a winner of
# theirs is ahead of it, and after a draw all three have 4. E can come to 4, too, and drew with C.
# So S has 3 points more than C in their match, a point more with R, and a point less with E.
FOUR = """league,Four,9
club,C,1
club,R,1
club,S,1
club,D,1
club,E,1
match,C,R
match,C,S
match,C,D
match,C,E
match,R,S
match,D,E
line,1
season
result,1,0,1
result,2,0,1
result,3,1,0
result,4,0,0
ask
"""
AHEAD = "S is ahead of C whatever happens elsewhere, though supposed not to be: in the "
AFTER_A_DRAW = (
    "So C and S can only end level, on 4 points each. R and E can be level with them too. Without R "
    f"and E, {AHEAD}match of the two, S has at least 3 points more. With R alone, {AHEAD}matches "
    f"among C, R and S, S has at least 4 points more. With E alone, {AHEAD}matches among C, S and "
    f"E, S has at least 2 points more. With R and E, {AHEAD}matches among C, R, S and E, S has at "
    "least 3 points more. That cannot be.")


class Drawn:
    """A drawn league, its finishes, and cases in which a rival can only end level with a club."""

    def __init__(self, number: int) -> None:
        chance = random.Random(number)
        lines, self.league = drawn_season(chance), League()
        for fields in csv.reader(lines):
            take(self.league, fields)
        self.given = read_input("".join(line + "\n" for line in lines).encode())
        opened = self.league.open_fixtures()
        self.finishes = [{**self.league.scores, **dict(zip(opened, chosen))} for chosen in
                         itertools.product(itertools.product((0, 1), repeat=2), repeat=len(opened))]
        self.chance = chance

    def zones(self):
        """Zones of marks alone in which a rival has the club's points at the least or the most."""
        for club, rival in itertools.permutations(range(1, 7), 2):
            zone = Zone(self.given.sheet, self.given.season_at(0), club)
            for is_before in (True, False):
                points = zone.points([club], not is_before)
                if points == zone.points([rival], is_before):
                    marked = zone.supposed(["rival", rival], is_before)
                    for other in set(range(1, 7)) - {club, rival}:
                        if self.chance.random() < 0.8:
                            marked = marked.supposed(["rival", other], self.chance.random() < 0.5)
                    yield marked, points, rival

    def members(self, points: int, club: int):
        """The finishes in which a club has these points, with those that are level with it."""
        for scores in self.finishes:
            sums = Sums(self.league, scores)
            own = {at + 1 for at in range(6) if points_in(self.league, sums, at) == points}
            if club in own:
                yield scores, own - {club}


class LevelTests(unittest.TestCase):
    """Cases of drawn leagues."""

    def test_what_is_told_is_what_holds(self) -> None:
        told = refused = 0
        for number in range(250):
            drawn = Drawn(number)
            for zone, points, rival in drawn.zones():
                question = Question(drawn.league, 1, zone.club - 1, "inside")
                tests = [([test[0], test[1] - 1], holds) for test, holds in zone.tests]
                if is_near(question, tests, rival - 1):
                    self.assertIn("can only end level", level_text(zone, points, rival))
                    told += 1
                else:
                    self.assertRaises(DoesNotAddUp, level_text, zone, points, rival)
                    refused += 1
        self.assertGreater(told, 100)
        self.assertGreater(refused, 100)

    def test_each_side_and_each_number_is_so_in_every_finish(self) -> None:
        tried = dict.fromkeys((GOALS_FIRST, RECORD_OF_ALL, ALL_MATCHES), 0)
        for number in range(12):
            drawn = Drawn(number)
            for zone, points, rival in drawn.zones():
                levels = Levels(zone, points, rival)
                for scores, group in drawn.members(points, zone.club):
                    if rival not in group:
                        continue
                    self.assertLessEqual(group, {*levels.sure, *levels.free})
                    self.assertLessEqual({*levels.sure}, group)
                    try:
                        way = Way(levels, rival, sorted(group - {*levels.sure}))
                    except DoesNotAddUp:
                        continue
                    tried[way.why.where] = tried.get(way.why.where, 0) + 1
                    self.is_so(drawn.league, scores, way)
        for kind, times in tried.items():
            self.assertGreater(times, 20, kind)

    def is_so(self, season: League, scores: dict, way: Way) -> None:
        """In this finish the one club is before the other, and has the lead that is told."""
        pair = (way.wrong, way.levels.club) if way.is_ahead else (way.levels.club, way.wrong)
        blocks = blocks_of(season, scores, Sums(season, scores))
        place = {club + 1: at for at, block in enumerate(blocks) for club in block}
        self.assertLess(place[pair[0]], place[pair[1]])
        group = {way.levels.club, *way.group}
        own, other = (numbers_of(season, scores, club - 1, {
            at for at, sides in enumerate(season.fixtures)
            if way.why.where in (GOALS_FIRST, ALL_MATCHES)
            or {side + 1 for side in sides} <= group}) for club in pair)
        whole = [one - two for one, two in zip(own, other)]
        numbers = {RECORD_OF_ALL: whole[:3], GOALS_FIRST: whole[1:3],
                   ALL_MATCHES: whole[1:6]}.get(way.why.where)
        if numbers:
            self.assertGreaterEqual(numbers, list(way.why.lead[:len(numbers)]))


def numbers_of(season: League, scores: dict, club: int, matches: set[int]) -> list[int]:
    """Points, goal difference, goals, away goals, wins and away wins of a club in these matches."""
    total = [0] * 6
    for match in matches:
        for side in (0, 1):
            if season.fixtures[match][side] == club:
                own, other = scores[match][side], scores[match][1 - side]
                won = own > other
                gains = (3 * won + (own == other), own - other, own, side * own, won, side * won)
                total = [sum(it) for it in zip(total, gains)]
    return total


@unittest.skipUnless(program_checks.is_there(), "the program is not built")
class ProgramTests(unittest.TestCase):
    """The league worked by hand, with a report of futmax that has this reason."""

    def test_a_tie_with_a_match_open_is_told_by_its_criterion(self) -> None:
        for order, wanted in (("head_first", HEAD_FIRST), ("overall_first", OVERALL_FIRST)):
            data = THREE.replace("Three,9", f"Three,9,2000,{order}").encode()
            text = league("explain", "--why", "C", "--proof", data=data).stdout.decode()
            self.assertIn(wanted, " ".join(text.split()))

    def test_it_is_told_where_points_alone_do_not_show_it(self) -> None:
        text = league("explain", "--why", "C", data=FOUR.encode()).stdout.decode()
        self.assertIn(AFTER_A_DRAW, " ".join(text.split()))
        page = league("board", data=FOUR.encode()).stdout.decode()
        self.assertIn(AFTER_A_DRAW, " ".join(page.split()))
