"""Tests of short reasons: each is held against every outcome of the open matches, and its numbers
against points that are added up here.
"""

import itertools
import random
import re
import sys
import unittest
from pathlib import Path

HOME = Path(__file__).resolve().parents[2]
sys.path.insert(0, str(HOME / "tools"))
from leaguelib.answers import Score  # noqa: E402
from leaguelib.enough import score_words  # noqa: E402
from leaguelib.feeds import read_input  # noqa: E402
from leaguelib.proof_words import from_place, up_to_place  # noqa: E402
from leaguelib.proofs import sum_text  # noqa: E402
from leaguelib.reasons import Points, short_reason  # noqa: E402
from leaguelib.standing import Standing  # noqa: E402
from leaguelib.zones import Zone  # noqa: E402

NUMBER = re.compile(r"(Club [A-F]) \((at most )?(-?\d+)\)")


class Drawn:
    """A small league with some matches open, and the points of each club added up by hand."""

    def __init__(self, chance: random.Random) -> None:
        self.clubs = [f"Club {letter}" for letter in "ABCDEF"[:chance.randint(3, 6)]]
        pairs = list(itertools.permutations(self.clubs, 2))
        chance.shuffle(pairs)
        self.matches = pairs[:chance.randint(4, 15)]
        self.open = list(range(max(0, len(self.matches) - chance.randint(1, 5)),
                               len(self.matches)))
        self.scores = {number: (chance.randint(0, 3), chance.randint(0, 3))
                       for number in range(len(self.matches)) if number not in self.open}
        self.deducted = {chance.choice(self.clubs): chance.randint(0, 4)}

    def data(self) -> bytes:
        """The league as sheet and feed."""
        rows = ["league,Drawn,9", *[f"club,{club},1" for club in self.clubs],
                *[f"match,{home},{away}" for home, away in self.matches], "season"]
        rows += [f"result,{number + 1},{home},{away}"
                 for number, (home, away) in self.scores.items()]
        rows += [f"deduct,{club},{points}" for club, points in self.deducted.items()]
        return "\n".join([*rows, "ask"]).encode() + b"\n"

    def points(self, outcomes: dict[int, tuple[int, int]]) -> dict[str, int]:
        """The points of each club, where open matches bring so many to both sides."""
        points = {club: -self.deducted.get(club, 0) for club in self.clubs}
        for number, (home, away) in enumerate(self.matches):
            if number in self.scores:
                goals, others = self.scores[number]
                gains = (1, 1) if goals == others else (3, 0) if goals > others else (0, 3)
            else:
                gains = outcomes.get(number, (0, 0))
            points[home] += gains[0]
            points[away] += gains[1]
        return points

    def tables(self) -> list[dict[str, int]]:
        """The points of each club in every outcome of the open matches."""
        return [self.points(dict(zip(self.open, gains)))
                for gains in itertools.product(((3, 0), (1, 1), (0, 3)), repeat=len(self.open))]


class WordTests(unittest.TestCase):
    """One point is no points, and no place is better than the first."""

    def test_one_point_and_the_ends_of_the_table(self) -> None:
        league = read_input(b"league,L,9\nclub,A,1\nclub,B,1\nclub,C,1\nmatch,A,B\nmatch,A,C\n"
                            b"season\nresult,1,1,1\nresult,2,0,1\nask\n")
        zone = Zone(league.sheet, league.season_at(0), 1)
        self.assertEqual(Standing(zone).judge(3), ("above", "C ends on 3 points and A on 1"))
        self.assertEqual(Standing(Zone(zone.sheet, zone.season, 3)).judge(1),
                         ("below", "A ends on 1 point and C on 3"))
        self.assertIn("A has 1 point now", sum_text(zone, [1], True))
        self.assertIn("A has 1 and C has 3 points now", sum_text(zone, [1, 3], True))
        self.assertEqual([up_to_place(1), up_to_place(2)], ["place 1", "place 2 or higher"])
        self.assertEqual([from_place(3, 3), from_place(2, 3)],
                         ["place 3", "place 2 or further down"])


class ReasonTests(unittest.TestCase):
    """Reasons of drawn leagues."""

    def test_every_reason_holds_in_every_outcome(self) -> None:
        chance = random.Random(51)
        told = {"points": 0, "matches_between": 0, "level": 0}
        for _ in range(120):
            drawn = Drawn(chance)
            league = read_input(drawn.data())
            points = Points(league.sheet, league.season_at(0))
            tables = drawn.tables()
            for club, places, is_in in itertools.product(
                    drawn.clubs, range(1, len(drawn.clubs)), (True, False)):
                reason = short_reason(points, [], club, places, is_in)
                if reason is not None:
                    told[reason.kind] += 1
                    is_level = reason.kind == "level"
                    self.assertTrue(self.holds(tables, club, places, is_in, is_level), reason.text)
                    self.numbers_are_right(drawn, reason.text)
        self.assertGreater(told["points"], 300)
        self.assertGreater(told["matches_between"], 20)
        self.assertGreater(told["level"], 100)

    def holds(self, tables: list[dict[str, int]], club: str, places: int, is_in: bool,
              is_level: bool) -> bool:
        """Whether points alone decide the place in each table, or leave it to level clubs."""
        for table in tables:
            above = sum(points > table[club] for points in table.values())
            level = sum(points >= table[club] for points in table.values()) - 1
            worst, best = (above, level) if is_level else (level, above)
            if (worst >= places) if is_in else (best < places):
                return False
        return True

    def numbers_are_right(self, drawn: Drawn, text: str) -> None:
        """Each number after a name is what the club has, or can get at most."""
        now = drawn.points({})
        for club, most, number in NUMBER.findall(text):
            left = sum(club in drawn.matches[number] for number in drawn.open)
            wanted = now[club] + (3 * left if most else 0)
            self.assertEqual(int(number), wanted, text)

    def test_a_sum_that_does_not_hold_is_not_told(self) -> None:
        chance = random.Random(7)
        told = 0
        for _ in range(40):
            drawn = Drawn(chance)
            league = read_input(drawn.data())
            for club, is_in in itertools.product(drawn.clubs, (True, False)):
                points = Points(league.sheet, league.season_at(0))
                if short_reason(points, [], club, 1, is_in) is None:
                    continue
                told += 1
                change = 1 if is_in else -1
                points.now[club] += change
                points.most[club] += change
                self.assertIsNone(short_reason(points, [], club, 1, is_in))
        self.assertGreater(told, 50)

    def test_points_alone_are_never_overlooked(self) -> None:
        chance = random.Random(3)
        for _ in range(60):
            drawn = Drawn(chance)
            league = read_input(drawn.data())
            points = Points(league.sheet, league.season_at(0))
            now = drawn.points({})
            most = {club: now[club] + 3 * sum(club in drawn.matches[number]
                                              for number in drawn.open) for club in now}
            for club, places in itertools.product(now, range(1, len(now))):
                ahead = sum(points > most[club] for points in now.values())
                behind = sum(most[rival] < now[club] for rival in now if rival != club)
                found = short_reason(points, [], club, places, False)
                self.assertEqual(found is not None and found.kind == "points", ahead >= places)
                found = short_reason(points, [], club, places, True)
                self.assertEqual(found is not None and found.kind == "points",
                                 behind >= len(now) - places)


class ScoreWordTests(unittest.TestCase):
    """Sentences on qualification scores name only totals that the matches left can bring."""

    def told(self, possible: str, guaranteed: str, now: int, left: int, own: bool = False) -> str:
        """The sentences."""
        return score_words(Score(1, "A", possible, guaranteed), now, left, own)

    def test_only_totals_that_can_be_reached_are_named(self) -> None:
        tried = 0
        for left, now in itertools.product(range(2, 6), (0, 7, 80)):
            results = itertools.product((0, 1, 3), repeat=left)
            totals = {now + sum(it) for it in results}
            ends = range(now - 2, now + 3 * left + 2)
            for low, high in itertools.combinations_with_replacement(ends, 2):
                number = str(low) if low == high else f"{low}..{high}"
                text = self.told(str(now), number, now, left)
                if high <= max(totals):  # the program says `none` where no total can do
                    text += self.told(number, str(max(totals) + 1), now, left)
                for found in re.findall(r"(\d+) points are enough|fewer than (\d+)|down to (\d+)|"
                                        r"whether (\d+) can", text):
                    tried += 1
                    self.assertIn(int("".join(found)), totals, text)
                for need in re.findall(r"(\d+) points? from", text):
                    self.assertIn(now + int(need), totals, text)
                for least in re.findall(r"fewer than (\d+)", text):
                    self.assertGreater(int(least), now, text)
        self.assertGreater(tried, 500)

    def test_sentences_worked_by_hand(self) -> None:
        for words, wanted in (
                (("84", "86..87", 80, 2), "Whether all 6 points to come, 86 in all, are enough by "
                                          "themselves is not settled."),
                (("82", "91", 80, 4), "92 points are enough, whatever else happens: 12 points from "
                                      "4 matches, 4 wins."),
                (("85", "87", 80, 2), "With fewer than 86 it is out: 6 points from 2 matches "
                                      "are needed at least, 2 wins."),
                (("83", "87", 83, 2), "Even without another point it can be in."),
                (("81..84", "87..88", 83, 1), "Whether a defeat is too little is not settled."),
                (("81..84", "89..90", 83, 2), "Whether the 83 points it has can do is not "
                                              "settled.")):
            text = self.told(*words)
            self.assertIn(wanted.lower(), text.lower())

    def test_why_a_win_is_not_enough(self) -> None:
        """The goals count where the club's own matches alone can do; else no reason is said."""
        self.assertTrue(self.told("83", "84", 80, 1, True).startswith(
            "a win is not enough by itself: the goals count."))
        self.assertTrue(self.told("83", "84", 80, 1).startswith(
            "even a win is not enough by itself. "))
        self.assertIn("it has 86, and the goals count.", self.told("83", "87", 80, 2, True))
        self.assertIn("it has 86. ", self.told("83", "87", 80, 2))
