"""Tests of `league tonight`, and of feeds with `when` lines, over `slow_program.py`, which tries
every finish. What is said of the cup was worked out by hand, as `checks/page` tells.
"""

import json
import subprocess
import sys
from pathlib import Path

from fake_futmax import TINY, TINY_ROWS, TABLE_ROWS, Case
from schema import faults_of

HOME = Path(__file__).resolve().parents[2]
SLOW = HOME / "checks" / "lib" / "leaguechecks" / "slow_program.py"
SCHEMA = json.loads((HOME / "docs" / "answer.schema.json").read_text("utf-8"))
# Behind Anchor 2-1 Köln: a 1-0 of Köln would put it out, a 2-0 would not, so its win decides
# nothing; drawn or lost it is behind Anchor's three points. A draw gives Anchor four, which Köln
# cannot get; a win of Anchor gives six, which nobody else can get.
CUP = """league,Cup,2
club,Anchor,1
club,Köln,1
club,Dock United,1
match,Anchor,Köln
# 2026-05-09
match,Köln,Dock United
# 2026-05-16
match,Dock United,Anchor
line,1
season
result,1,2,1
"""
BOTH = "Köln – Dock United (2026-05-09)"
FIRST = ("If it is a draw: Köln can no longer reach first place. If Dock United wins: Köln can "
         "no longer reach first place. If Köln wins, that decides nothing by itself.")
SECOND = ("If it is a draw: Köln can no longer reach first place. If Anchor wins: Anchor is "
          "sure of first place; Dock United and Köln can no longer reach first place. "
          "If Dock United wins, that decides nothing by itself.")


class TonightTests(Case):
    """The sentences of an evening, its rows and objects, and what it refuses."""

    def setUp(self) -> None:
        super().setUp()
        self.program.path = SLOW

    def test_each_result_of_the_next_day(self) -> None:
        text = self.told("tonight", data=CUP)
        self.assertIn("of this match decides by itself: whatever its score (up to 2 goals a side)", text)
        self.assertIn(f"{BOTH} {FIRST} By one result alone First place Köln: out if it draws "
                      "or loses. Open whatever one match brings: Anchor and Dock United.", text)

    def test_who_is_in_and_out_by_one_result(self) -> None:
        text = self.told("tonight", "--matches", "3,2", data=CUP)
        self.assertIn(f"Dock United – Anchor (2026-05-16) {SECOND} {BOTH} {FIRST}", text)
        self.assertIn("Anchor: in if it wins. Dock United: out if it loses. Köln: out if it draws "
                      "or loses or if Anchor does not lose to Dock United.", text)

    def test_the_matches_of_a_day(self) -> None:
        text = self.told("tonight", "--round", "16 May 2026", data=CUP)
        self.assertIn("Dock United – Anchor (2026-05-16)", text)
        self.assertNotIn(BOTH, text)
        numbered = CUP.replace("2026-05-09", "Matchday 2").replace("2026-05-16", "Matchday 3")
        self.assertIn("Dock United – Anchor (Matchday 3)",
                      self.told("tonight", "--round", "3", data=numbered))

    def test_a_line_says_no_more_than_another_that_says_more(self) -> None:
        lines = CUP.replace("line,1", "line,1\n# line 2: Cup\n# below line 2: relegated")
        text = self.told("tonight", "--matches", "3", data=lines)
        self.assertIn("If Anchor wins: Anchor is sure of first place; ", text)
        self.assertNotIn("Anchor is sure of Cup", text.split("By one result alone")[0].split(
            "If Anchor wins")[1].split("If")[0])
        self.assertIn("Cup (top 2) Anchor: in if it wins or draws.", text)

    def test_relegation_is_told_as_people_say_it(self) -> None:
        """If Dock United wins, Köln ends with no point and below two clubs of three."""
        data = CUP.replace("line,1\n", "line,2\n# below line 2: relegated\n") + "ask\n"
        text = self.told("tonight", data=data)
        self.assertIn("If Dock United wins: Anchor and Dock United are safe; Köln is relegated.",
                      text)

    def test_a_name_stands_beside_first_place(self) -> None:
        text = self.told("tonight", data=CUP.replace("line,1", "# line 1: Meister\nline,1")
                         + "ask\n")
        self.assertIn("Köln can no longer reach first place (Meister).", text)

    def test_what_is_decided_already_is_not_told(self) -> None:
        data = CUP + "result,3,0,1\n"
        self.assertIn("No result of Köln – Dock United decides anything by itself. Every line is "
                      "decided already.", self.told("tonight", data=data))
        self.assertIn("No match is open, so nothing is left to decide.",
                      self.told("tonight", data=data + "result,2,0,0\n"))

    def test_rows_and_objects(self) -> None:
        rows = self.league("tonight", "--rows", "--matches", "2", data=CUP).stdout.decode()
        wanted = subprocess.run([sys.executable, SLOW, "whatif"], capture_output=True, check=True,
                                input=(CUP + "when,2\n").encode()).stdout.decode()
        self.assertEqual(rows.splitlines(), [row for row in wanted.splitlines() if row[0] != "["])
        self.assertTrue(rows.startswith("when,1,2,home\nverdict,1,Anchor,possible\n"), rows)
        lines = self.league("tonight", "--json", data=CUP).stdout.decode().splitlines()
        objects = [json.loads(line) for line in lines]
        for value in objects:
            self.assertEqual(faults_of(value, SCHEMA, SCHEMA), [])
        self.assertEqual([it["type"] for it in objects], ["ask"] + 9 * ["given"] + ["end"])
        self.assertEqual([(it["outcome"], it["club"], it["now"]) for it in objects[1:-1]
                          if it["verdict"] != it["now"]],
                         [("draw", "Köln", "possible"), ("away", "Köln", "possible")])
        self.assertEqual((objects[-1]["rows"], objects[-1]["unsettled"]), (9, 0))

    def test_objects_have_names_of_lines_and_the_last_day(self) -> None:
        """Places too: Anchor has three points and two clubs below it that can pass it."""
        data = CUP.replace("line,1", "# line 1: Meister\nline,1").replace(
            "match,Anchor", "# 2026-05-02\nmatch,Anchor")
        for words, kind, members in (
                (["tonight", "--json"], "given", {"name": "Meister"}),
                (["places", "--json"], "reach", {"club": "Anchor", "best": 1, "worst": 3})):
            lines = self.league(*words, data=data + "ask\n").stdout.decode().splitlines()
            objects = [json.loads(line) for line in lines]
            for value in objects:
                self.assertEqual(faults_of(value, SCHEMA, SCHEMA), [])
            self.assertEqual(objects[0]["date"], "2026-05-02")
            self.assertEqual(objects[1]["type"], kind)
            self.assertEqual({**objects[1], **members}, objects[1])

    def test_what_is_refused(self) -> None:
        for words, status, says in (
                (("--matches", "1"), 1, "match 1 has a result already"),
                (("--matches", "7"), 1, "match 7 is not in the sheet"),
                (("--matches", "two"), 1, "`two` are no numbers of matches"),
                (("--round", "2026-05-10"), 1, "no match of 2026-05-10 is open"),
                (("--round", "someday"), 1, "--round takes a date like 2024-05-19"),
                (("--round", "3"), 2, "the comments of the sheet have no matchdays"),
                (("--ask", "2"), 1, "the feed has 1 ask"),
                (("--round", "3", "--matches", "3"), 1, "not allowed with")):
            done = self.league("tonight", *words, data=CUP)
            self.assertEqual(done.returncode, status, (words, done.stderr))
            self.assertIn(says, done.stderr.decode())

    def test_more_matches_than_an_evening_has(self) -> None:
        clubs = "ABCDEF"
        data = "league,Six,1\n" + "".join(f"club,{club},1\n" for club in clubs) + "".join(
            f"match,{one},{two}\n" for one in clubs for two in clubs if one < two)
        done = self.league("tonight", data=data + "line,1\nseason\n")
        self.assertEqual(done.returncode, 1, done.stderr)
        self.assertIn("15 matches are open, and which of them come next is not known",
                      done.stderr.decode())


class ProgramTests(Case):
    """Programs that answer what is put in."""

    def test_a_program_without_the_mode(self) -> None:
        self.program.answers("verdicts", TINY_ROWS)
        self.program.answers("table", TABLE_ROWS)
        done = self.league("tonight", data=TINY)
        self.assertEqual(done.returncode, 70)
        self.assertIn("this program may be older than these tools", done.stderr.decode())

    def test_a_line_that_is_refused(self) -> None:
        self.program.answers("verdicts", "fault,7,unknown_fixture\n", 3)
        done = self.league("tonight", data=TINY.replace("ask", "result,9,0,0"))
        self.assertEqual(done.returncode, 3)
        self.assertIn("line 7: `result,9,0,0`: There is no fixture 9", done.stderr.decode())

    def test_what_is_decided_now_is_so_given_any_outcome(self) -> None:
        self.program.answers("decide", TINY_ROWS.split("verdict,1,B")[0] + "verdict,1,B,lost\n")
        self.program.answers("table", TABLE_ROWS)
        self.program.answers("whatif", "".join(
            f"when,0,1,{outcome}\nverdict,1,A,clinched\nverdict,1,B,unsettled\n"
            for outcome in ("home", "draw", "away")))
        rows = self.told("tonight", "--rows", data=TINY)
        self.assertEqual(rows.count("verdict,1,B,lost"), 3)
        self.assertNotIn("unsettled", self.told("tonight", data=TINY))

    def test_words_that_are_unsettled(self) -> None:
        self.program.answers("verdicts", TINY_ROWS)
        self.program.answers("table", TABLE_ROWS)
        self.program.answers("whatif", "".join(
            f"when,0,1,{outcome}\nverdict,1,A,{word}\n"
            + '["spent","inside"]\n["open"]\n["finish","outside"]\n["lots",[2,1]]\n' * (
                word == "unsettled") + "verdict,1,B,lost\n"
            for outcome, word in (("home", "clinched"), ("draw", "unsettled"),
                                  ("away", "unsettled"))))
        text = self.told("tonight", data=TINY)
        self.assertIn("2 words are unsettled (with the budget 50,000): nothing is said for or "
                      "against the club; wait for the next results.", text)
        self.assertIn("A: in if it wins. B: out whatever A – B brings.", text)
        text = self.told("tonight", "--budget", "7", data=TINY)
        self.assertIn("(with the budget 7): nothing is said for or against the club; --budget N "
                      "takes up to 50,000.", text)


class ExplainTests(Case):
    """Feeds with `when` lines, and answers of the mode."""

    def setUp(self) -> None:
        super().setUp()
        self.program.path = SLOW

    def test_the_last_whens_are_told(self) -> None:
        text = self.told("explain",
                         data=CUP.replace("result,", "when,2\nresult,") + "ask\nwhen,3\n")
        self.assertIn("at the `when` in standard input, line 15: 1 match played, 2 open", text)
        self.assertIn(f"Dock United – Anchor (2026-05-16) {SECOND}", text)
        self.assertNotIn(BOTH, text)
        self.assertIn(FIRST, self.told("explain", data=CUP + "when,3\nask\nwhen,2\n"))

    def test_what_is_refused(self) -> None:
        for words, data, says in (
                (("--all",), CUP + "when,2\n", "told match by match"),
                ((), CUP + "when,1\n", "line 13: `when,1`: This match has a result already"),
                ((), CUP + "when,2\nresult,9,0,0\n", "line 14: `result,9,0,0`: There is no")):
            done = self.league("explain", *words, data=data)
            self.assertIn(done.returncode, (1, 2))
            self.assertIn(says, done.stderr.decode())
        answer = Path(self.folder.name) / "answer"
        answer.write_text("when,1,2,home\nverdict,1,Anchor,possible\n")
        done = self.league("explain", "--answer", str(answer), data=CUP)
        self.assertEqual(done.returncode, 2)
        self.assertIn("an answer of the mode `whatif`, which has no proofs", done.stderr.decode())
