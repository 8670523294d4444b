"""What a small fault in the tools would change, where no other test looks; by hand."""

import os
import resource
import subprocess
import sys
import unittest
from pathlib import Path
from types import SimpleNamespace

from fake_futmax import LEAGUE
from resume_checks import SHEET, TEXT, KeepingCase

HOME = Path(__file__).resolve().parents[2]
sys.path.append(str(HOME / "tools"))
from leaguelib import common, reach  # noqa: E402
from leaguelib.changes import Change  # noqa: E402
from leaguelib.enough import needed_text  # noqa: E402
from leaguelib.feeds import read_input  # noqa: E402
from leaguelib.group_tables import group_input  # noqa: E402
from leaguelib.lint import refusal_of  # noqa: E402
from leaguelib.report_faults import fault_of  # noqa: E402

RIVER = HOME / "examples" / "river-cup"


class Small(unittest.TestCase):
    """One value each."""

    def test_results_that_are_needed_at_least(self) -> None:
        for need, says in ((4, "a win and a draw"), (5, "2 wins"), (6, "2 wins"), (2, "2 draws")):
            self.assertTrue(needed_text(need, 2).endswith(f" at least, {says}"), need)

    def test_points_deducted_are_in_the_table_of_their_group(self) -> None:
        data = b"".join((RIVER / it).read_bytes() for it in ("sheet.csv", "feed.csv"))
        league = read_input(data)
        found = [b"deduct,Mill,1\n" in group_input(league, it) for it in league.sheet.groups]
        self.assertEqual(found, [False, True, False])

    def test_a_best_place_that_is_not_settled(self) -> None:
        rows = [SimpleNamespace(places=line, club="A", word=word)
                for line, word in ((1, "unsettled"), (2, "clinched"))]
        found = reach._reach(SimpleNamespace(clubs="ABC"), "A", [SimpleNamespace(verdicts=rows)])
        self.assertEqual((found.best, found.is_best_sure, found.worst), (1, False, 2))

    def test_a_change_to_or_from_unsettled_is_of_the_search(self) -> None:
        words = (("clinched", "unsettled"), ("unsettled", "lost"), ("possible", "lost"))
        self.assertEqual([Change(1, "A", *it).is_of_search for it in words], [True, True, False])

    def test_the_feed_behind_a_saved_text_is_read(self) -> None:
        front = SHEET + "proofs\n" + TEXT
        self.assertIsNone(refusal_of((front + "result,1,1,0\nask\n").encode(), "resume"))
        found = refusal_of((front + "ask\nresult,9,1,0\n").encode(), "resume")
        self.assertEqual(found.line, front.count("\n") + 2)

    def test_what_a_refused_report_is_told(self) -> None:
        """Only one without proofs is told so, with the mode that makes one."""
        claim = "ask,0\nverdict,1,A,clinched\n"
        for kind, mode in (("league", "verdicts"), ("cup", "groups")):
            for mark in ("proofs\n", "proofs\r\n", "proofs,,\n"):
                front = f"{kind},A,1\nask\n{mark}"
                self.assertIn(f"run `futmax {mode} --proofs`", fault_of((front + claim).encode()))
                self.assertIn(f"The report is empty: `futmax {mode}", fault_of(front.encode()))
                for line in ('["key",[1]]', '[ "tree","outside"]'):
                    self.assertEqual(fault_of(f"{front}{claim}{line}\n".encode()), "")

    def test_signs_that_steer_a_terminal_are_written_out(self) -> None:
        self.assertEqual(common.visible("A\u009b1m\u202e\x1b\tB\n"),
                         "A<U+009B>1m<U+202E><U+001B>\tB\n")

    def test_nothing_steers_a_terminal(self) -> None:
        ours, theirs = os.openpty()
        data = "league,L,1\nclub,A\u009b,1\nclub,A\u009b,1\n".encode()
        done = subprocess.run([sys.executable, LEAGUE, "lint", "-"], input=data, stdout=theirs,
                              stderr=theirs, check=False)
        os.close(theirs)
        self.assertNotIn("\u009b".encode(), os.read(ours, 65536))
        self.assertEqual(done.returncode, 2)

    def test_the_second_checker_reads_empty_lines_in_little_memory(self) -> None:
        def less() -> None:
            resource.setrlimit(resource.RLIMIT_AS, (300_000_000, 300_000_000))
        done = subprocess.run([HOME / "tools" / "second_checker"], input=b"\n" * 67_108_864,
                              stdout=subprocess.PIPE, check=False, preexec_fn=less, timeout=100)
        self.assertEqual((done.stdout, done.returncode), (b"fault,67108865\n", 2))


class Asks(KeepingCase):
    """What is added to an input."""

    def test_no_ask_is_added_if_any_feed_has_one(self) -> None:
        self.answers(resume=("ask,1\n", 0), table=("ask,1\n", 0))
        files = [self.set("sheet.csv", SHEET), self.set("a.save", TEXT),
                 self.set("one.csv", "ask\n"), self.set("two.csv", "result,1,1,0\n")]
        self.league("resume", "--rows", *files)
        self.assertEqual(self.given("resume").split("\n").count("ask"), 1)
