"""Tests of what `explain --why` says of an open place, on the worked examples by the program
itself: each sentence is held against every finish that is left.
"""

import csv
import itertools
import random
import re
import sys
import unittest
from pathlib import Path
from types import SimpleNamespace

from program_checks import EXAMPLES, HOME, SHIRE, asks_of, files_of, league
from reference import League, Sums, blocks_of, reach, take

sys.path.insert(0, str(HOME / "tools"))
from leaguelib.feeds import read_input  # noqa: E402
from leaguelib.idle_matches import idle_matches  # noqa: E402

WAY = re.compile(r"It is (in|out), for example, if (?:this ends|these end) (.*?)"
                 r"(; the other (?:match does|\d+ matches do) not matter)?\.(?= It is|$)")
MOST_FINISHES = 10_000


def drawn_season(chance: random.Random) -> list[str]:
    """A league of six with five matches open and a goal at most in each."""
    names = "ABCDEF"
    pairs = chance.sample(list(itertools.combinations(names, 2)), 12)
    results = [f"result,{number},{chance.randint(0, 1)},{chance.randint(0, 1)}"
               for number in range(1, 8)]
    return [f"league,Drawn,1,2000,{chance.choice(('head_first', 'overall_first'))}",
            *[f"club,{name},1" for name in names], *[f"match,{a},{b}" for a, b in pairs],
            "line,1", "season", f"deduct,{chance.choice(names)},{chance.randint(0, 3)}", *results]


class IdleTests(unittest.TestCase):
    """Matches that points show not to matter: with any scores of theirs a club keeps its places."""

    def test_idle_matches_change_nothing(self) -> None:
        tried = 0
        for number in range(150):
            chance = random.Random(number)
            lines, season = drawn_season(chance), League()
            for fields in csv.reader(lines):
                take(season, fields)
            given = read_input("".join(line + "\n" for line in lines).encode())
            trial = SimpleNamespace(sheet=given.sheet, season=given.season_at(0))
            scores = {it + 1: (chance.randint(0, 1), chance.randint(0, 1))
                      for it in season.open_fixtures()}
            for club, name in enumerate(season.clubs):
                idle = idle_matches(trial, name, scores, scores)
                told = [{it - 1: score for it, score in scores.items() if it not in without}
                        for without in ((), idle)]
                places = [reach(League(**{**vars(season), "scores": {**season.scores, **one}}),
                                blocks_of)[club] for one in told]
                self.assertEqual(*places)
                tried += bool(idle)
        self.assertGreater(tried, 100)

    def test_a_long_example_names_the_matches_that_matter(self) -> None:
        """Juniper Hill and Oakhurst cannot come to the 73 points with which Castle Rovers is in."""
        sheet, feed = files_of(SHIRE)
        rows = [row for row in feed.read_text("utf-8").splitlines() if row.startswith("result")]
        data = sheet.read_text("utf-8") + "\n".join(rows[:350]) + "\n"
        text = league("explain", "--why", "Castle Rovers", "--line", "1",
                      data=data.encode()).stdout.decode()
        way = next(it for it in WAY.findall(" ".join(text.split())) if it[0] == "in")
        self.assertNotIn("Juniper Hill", way[1])
        self.assertLess(way[1].count(":"), 15)


class SentenceTests(unittest.TestCase):
    """Sentences of `explain --why`, held against every finish that is left."""

    def told(self, example: Path, number: int) -> list[tuple[str, int, str]]:
        """What is said of each club and line at an ask."""
        done = league("explain", "--all", "--ask", number, *files_of(example))
        self.assertEqual(done.returncode, 0, done.stderr)
        parts, club = [], ""
        for text in done.stdout.decode().split("\n\n"):
            text = " ".join(text.split())
            head = re.match(r"(.*): place \d", text)
            club = head.group(1) if head else club
            line = re.match(r"(?:First (place)|The top (\d+)): ", text)
            if line:
                places = 1 if line.group(1) else int(line.group(2))
                parts.append((club, places, text))
        return parts

    def test_ways_bring_the_club_in_or_out(self) -> None:
        tried = 0
        for example in EXAMPLES:
            for number, season in enumerate(asks_of(example), 1):
                if not 0 < len(season.open_fixtures()) <= 3:
                    continue
                for club, places, text in self.told(example, number):
                    for kind, scores, rest in WAY.findall(text):
                        tried += 1
                        self.leads(season, club, places, kind, scores, bool(rest), text)
        self.assertGreater(tried, 20)

    def leads(self, season: League, club: str, places: int, kind: str, scores: str, has_rest: bool,
              text: str) -> None:
        """With these scores the club is in, or out, in every finish of the other matches."""
        needs_lots = ", and lots fall so" in scores
        names = scores.removesuffix(", and lots fall so")
        filled = League(**{**vars(season), "scores": dict(season.scores)})
        named = [(number, f"{season.clubs[home]} – {season.clubs[away]} ")
                 for number, (home, away) in enumerate(season.fixtures)
                 if number in season.open_fixtures()]
        for number, name in named:
            found = re.search(re.escape(name) + r"(\d+):(\d+)", names)
            if found:
                filled.scores[number] = (int(found.group(1)), int(found.group(2)))
        self.assertEqual(bool(filled.open_fixtures()), has_rest, text)
        best, worst = reach(filled, blocks_of)[season.clubs.index(club)]
        if kind == "in":
            self.assertLessEqual(best if needs_lots else worst, places, text)
        else:
            self.assertGreater(worst if needs_lots else best, places, text)

    def test_a_draw_is_enough_unless(self) -> None:
        """Worked by hand: with a draw A has 4 points, 2 goals to the good and 2 goals at least; B
        comes to 4 with a win, and to as many goals to the good with a win by two.
        """
        data = (b"league,Unless,3,2000,overall_first\nclub,A,1\nclub,B,1\nclub,C,1\nclub,D,1\n"
                b"match,A,D\nmatch,B,C\nmatch,A,C\nmatch,B,D\nline,1\nseason\n"
                b"result,1,2,0\nresult,2,1,1\n")
        text = " ".join(league("explain", "--why", "A", data=data).stdout.decode().split())
        self.assertIn("A win is enough, whatever else happens. With a defeat it is out. A draw "
                      "is enough too, unless B beats D by 2 goals or more.", text)

    def test_results_that_are_enough_are_enough(self) -> None:
        told = 0
        for example in EXAMPLES:
            for number, season in enumerate(asks_of(example), 1):
                still = season.open_fixtures()
                if len(season.clubs) > 4 or not still or 100 ** len(still) > MOST_FINISHES:
                    continue
                for club, places, text in self.told(example, number):
                    told += self.results_hold(season, club, places, text)
                break
        self.assertGreater(told, 10)

    def results_hold(self, season: League, club: str, places: int, text: str) -> int:
        """How many sentences on a last result there were; each is true in every finish."""
        enough = re.search(r"[Aa] (draw|win) is enough, whatever", text)
        too_little = re.search(r"With a (draw or a defeat|defeat) it is out", text)
        if not enough and not too_little:
            return 0
        least = {"draw": 1, "win": 3}[enough.group(1)] if enough else 4
        most = {"draw or a defeat": 1, "defeat": 0}[too_little.group(1)] if too_little else -1
        at = season.clubs.index(club)
        own = [it for it in season.open_fixtures() if at in season.fixtures[it]]
        self.assertEqual(len(own), 1, text)
        for scores in itertools.product(itertools.product(range(10), repeat=2),
                                        repeat=len(season.open_fixtures())):
            filled = {**season.scores, **dict(zip(season.open_fixtures(), scores))}
            goals = filled[own[0]] if season.fixtures[own[0]][0] == at else filled[own[0]][::-1]
            result = 3 if goals[0] > goals[1] else 1 if goals[0] == goals[1] else 0
            if result < least and result > most:
                continue
            above = 0
            for block in blocks_of(season, filled, Sums(season, filled)):
                if at in block:
                    if result >= least:
                        self.assertLessEqual(above + len(block), places, text)
                    else:
                        self.assertGreaterEqual(above, places, text)
                above += len(block)
        return 1
