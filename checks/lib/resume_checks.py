"""Tests of `league save` and `league resume`: by a small program in place of futmax that keeps what
it was given, and by the program itself on the worked examples, if it has the two modes.
"""

import json
import os
import stat
import subprocess
import tempfile
import unittest
from pathlib import Path

from fake_futmax import IDLE, Case
from program_checks import EXAMPLES, PROGRAM, SHIRE, files_of, league, verdicts_in
from schema import faults_of

HOME = Path(__file__).resolve().parents[2]
SCHEMA = json.loads((HOME / "docs" / "answer.schema.json").read_text("utf-8"))
SHEET = IDLE.replace("ask\n", "")
TEXT = 'saved,1,C,inside\n["leaf","tie"]\nsaved,1,X,outside\n["open"]\nsaved_end\n'
ROWS = "ask,{0}\nverdict,1,C,lost\nverdict,1,X,clinched\nverdict,1,Y,lost\n"
TABLE = "ask,{0}\nplace,1,1,X,1,3,1,1\nplace,2,2,C,0,0,0,0\nplace,3,3,Y,1,0,-1,0\n"


def has_modes() -> bool:
    """Whether the program is built and knows the two modes."""
    if not os.access(PROGRAM, os.X_OK):
        return False
    return subprocess.run([PROGRAM, "save"], input=SHEET.encode(), check=False,
                          stdout=subprocess.DEVNULL).returncode == 0


class KeepingCase(Case):
    """A case whose program keeps the input of each mode in a file of its name."""

    def setUp(self) -> None:
        super().setUp()
        self.home = Path(self.folder.name)
        self.set("sheet.csv", SHEET)

    def set(self, name: str, text: str) -> str:
        """A file in the folder of this test."""
        (self.home / name).write_text(text)
        return str(self.home / name)

    def answers(self, **modes: tuple[str, int]) -> None:
        """What the program writes in a mode, and its status; in any other its usage."""
        lines = ["#!/usr/bin/env python3", "import sys", f"modes = {modes!r}",
                 "given = sys.stdin.buffer.read()",
                 f"open({str(self.home)!r} + '/given-' + sys.argv[1], 'wb').write(given)",
                 "text, status = modes.get(sys.argv[1], ('usage,x\\n', 1))",
                 "sys.stdout.write(text)", "sys.exit(status)"]
        self.program.path.write_text("\n".join(lines) + "\n")
        self.program.path.chmod(self.program.path.stat().st_mode | stat.S_IXUSR)

    def given(self, mode: str) -> str:
        """The input that the program had in a mode."""
        return (self.home / f"given-{mode}").read_text()

    def path(self, name: str) -> str:
        """The path of a file in the folder of this test."""
        return str(self.home / name)

    def ends(self, status: int, says: str, *words: str, data: str = "") -> str:
        """The command ends so, and says this on standard error; what it writes."""
        done = self.league(*words, data=data)
        self.assertEqual(done.returncode, status, done.stderr)
        self.assertIn(says, " ".join(done.stderr.decode().split()))
        return done.stdout.decode()


class SaveTests(KeepingCase):
    """What is written, and what is left as it was."""

    def test_a_file_is_replaced_whole(self) -> None:
        self.answers(save=(TEXT, 0))
        target = self.set("night.save", "before")
        os.chmod(target, 0o640)
        told = self.ends(0, "", "save", self.path("sheet.csv"), "-o", target)
        self.assertEqual(Path(target).read_text(), TEXT)
        self.assertEqual(os.stat(target).st_mode & 0o777, 0o640)
        self.assertIn("2 questions of `Idle` after 0 events: 1 question is ruled out",
                      " ".join(told.split()))
        self.assertIn(f"league resume {self.path('sheet.csv')} {target}", told)
        self.assertEqual(self.given("save"), SHEET)
        self.assertEqual([it.name for it in self.home.glob(".*")], [])

    def test_a_file_stays_if_nothing_is_saved(self) -> None:
        target = self.set("night.save", "before")
        for text, status, ended, says in (
                ("fault,8,unknown_fixture\n", 3, 3, "There is no fixture 9"),
                ("", 6, 6, "out of memory"), ("usage,x\n", 1, 1, "older than these tools"),
                ('saved,1,C,inside\n["open"]\n', 0, 70, "wrote no `saved_end`")):
            self.answers(save=(text, status))
            self.ends(ended, says, "save", self.path("sheet.csv"),
                      self.set("feed.csv", "result,9,1,0\n" if status == 3 else ""), "-o", target)
            self.assertEqual(Path(target).read_text(), "before")

    def test_it_is_written_to_standard_output_and_devices(self) -> None:
        self.answers(save=(TEXT, 0))
        self.assertEqual(self.ends(0, "", "save", data=SHEET), TEXT)
        self.ends(0, "", "save", self.path("sheet.csv"), "-o", "/dev/null")
        self.ends(5, "cannot be written", "save", self.path("sheet.csv"), "-o", "/dev/full")
        self.ends(5, "cannot be written", "save", self.path("sheet.csv"), "-o", "/nowhere/x")
        self.ends(4, "write `-o night.save`", "save", self.path("sheet.csv"), "night.save")
        self.ends(1, "one of the files that are read", "save", self.path("sheet.csv"), "-o",
                  self.path("sheet.csv"))
        self.assertEqual((self.home / "sheet.csv").read_text(), SHEET)

    def test_another_budget(self) -> None:
        self.answers(save=(TEXT, 0))
        self.ends(0, "", "save", "--budget", "50000", data=SHEET)
        self.assertEqual(self.given("save"), SHEET.replace("Idle,1,1", "Idle,1,50000"))


class ResumeTests(KeepingCase):
    """How files are put together, and what is said of a line that is refused."""

    def setUp(self) -> None:
        super().setUp()
        self.set("night.save", TEXT)
        self.set("today.csv", "result,1,1,0")
        self.words = [self.path(it) for it in ("sheet.csv", "night.save", "today.csv")]

    def test_files_are_put_together(self) -> None:
        self.answers(resume=(ROWS.format(1), 0))
        feed = self.set("feed.csv", "ask\ndeduct,C,1")
        self.assertEqual(self.ends(0, "", "resume", "--rows", self.words[0], feed, *self.words[1:]),
                         ROWS.format(1))
        self.assertEqual(self.given("resume"), SHEET + "ask\ndeduct,C,1\nproofs\n" + TEXT
                         + "result,1,1,0\nask\n")
        self.ends(0, "", "resume", "--rows", *self.words[:2])
        self.assertEqual(self.given("resume"), SHEET + "proofs\n" + TEXT + "ask\n")
        whole = SHEET + "proofs\n" + TEXT + "result,1,1,0\nask\n"
        self.ends(0, "", "resume", "--rows", data=whole)
        self.assertEqual(self.given("resume"), whole)
        self.set("night.save", TEXT + "result,1,1,0\nask\n")
        self.ends(0, "", "resume", "--rows", "--budget", "7", *self.words[:2])
        self.assertEqual(self.given("resume"), whole.replace("Idle,1,1", "Idle,1,7"))

    def test_sentences_tell_what_changed_since_then(self) -> None:
        before = "ask,0\nverdict,1,C,lost\nverdict,1,X,possible\nverdict,1,Y,possible\n"
        self.answers(resume=(before + ROWS.format(1), 0), table=(TABLE.format(1), 0))
        told = " ".join(self.ends(0, "", "resume", *self.words).split())
        self.assertIn("First place. In: X. Out: C and Y.", told)
        self.assertIn(f"since {self.path('night.save')} (1 result since): First place: X open → "
                      "in; Y open → out.", told)
        self.assertEqual(self.given("resume"), SHEET + "proofs\n" + TEXT
                         + "ask\nresult,1,1,0\nask\n")

    def test_objects_fit_the_schema(self) -> None:
        for output, status in ((ROWS.format(1), 0), ("fault,10,bad_save\n", 3)):
            self.answers(resume=(output, status))
            told = self.league("resume", "--json", *self.words)
            self.assertEqual(told.returncode, status)
            values = [json.loads(line) for line in told.stdout.decode().splitlines()]
            self.assertEqual([faults_of(it, SCHEMA, SCHEMA) for it in values], [[]] * len(values))
        self.assertEqual((values[-1]["file"], values[-1]["line"], values[-1]["text"]),
                         (self.path("night.save"), 2, '["leaf","tie"]'))

    def test_a_line_that_is_refused_is_named(self) -> None:
        # the sheet has seven lines and `proofs` is the eighth, so the text begins with the ninth
        for line, code, says in (
                (10, "bad_save", 'night.save, line 2: `["leaf","tie"]`: no saved text has this'),
                (11, "bad_save", "night.save, line 3: `saved,1,X,outside`: this question comes"),
                (13, "bad_save", "the tree before `saved_end` is not whole"),
                (14, "bad_save", "night.save, line 5: the saved text ends here without"),
                (14, "already_played", "today.csv, line 1: `result,1,1,0`: "),
                (6, "line_range", "sheet.csv, line 6: `line,1`: ")):
            status = 2 if line < 8 else 3
            self.answers(resume=(f"fault,{line},{code}\n", status))
            for words in (["--rows"], ["--json"]):
                self.ends(status, says, "resume", *words, *self.words)
        self.set("night.save", TEXT.replace(",1,C", ",2,C").replace("X", "Z"))
        for line, says in ((9, "does not ask for the first 2 places"),
                           (11, "no club of this name")):
            self.answers(resume=(f"fault,{line},bad_save\n", 3))
            self.ends(3, says, "resume", "--rows", *self.words)

    def test_files_that_do_not_fit(self) -> None:
        self.answers(resume=("", 0))
        sheet, saved, today = self.words
        self.ends(1, "none of these files begins as a saved text", "resume", sheet, today)
        self.ends(1, "2 of these files are saved texts", "resume", sheet, saved, saved)
        self.ends(1, "no sheet comes before", "resume", saved, sheet)
        self.ends(4, "cannot be read", "resume", sheet, "/nowhere/x", today)
        self.ends(1, "the feed has 1 ask", "resume", "--ask", "2", *self.words)

    def test_other_parts_say_what_a_saved_text_is(self) -> None:
        self.answers(verdicts=("fault,8,unknown_record\n", 3), check=("refused,9,bad_line\n", 7))
        sheet, saved, _ = self.words
        self.ends(3, "This is a line of a saved text", "ask", sheet, saved)
        self.ends(1, "the last file, is a saved text", "check", sheet, saved)
        self.ends(2, "`league resume` goes on from it", "explain", sheet, "--answer", saved)
        told = self.league("lint", sheet, saved)
        self.assertEqual((told.returncode, told.stdout.count(b"a saved text")), (2, 1))
        whole = SHEET + "proofs\n" + TEXT + "ask\n"
        told = self.league("lint", "--mode", "resume", "-", data=whole).stdout.decode()
        self.assertIn("futmax takes this input", told)
        told = self.league("lint", "--mode", "resume", "-",
                           data=whole.replace('"tie"', '"low",[1]')).stdout.decode()
        self.assertIn("`fault,10,bad_save` and status 3", told)


@unittest.skipUnless(has_modes(), "the program does not have the modes")
class ProgramTests(unittest.TestCase):
    """The program itself: saved in the midst of a feed, and resumed."""

    def setUp(self) -> None:
        folder = tempfile.TemporaryDirectory()
        self.addCleanup(folder.cleanup)
        self.home = Path(folder.name)

    def test_the_rows_are_those_of_the_whole_feed(self) -> None:
        for example in EXAMPLES:
            sheet, feed = files_of(example)
            lines = feed.read_text("utf-8").splitlines(keepends=True)
            early, late, saved = (self.home / it for it in ("early.csv", "late.csv", "night.save"))
            early.write_text("".join(lines[:len(lines) // 2]), "utf-8")
            late.write_text("".join(lines[len(lines) // 2:]), "utf-8")
            done = league("save", sheet, early, "-o", saved)
            self.assertEqual((done.returncode, done.stderr), (0, b""))
            told = verdicts_in(league("resume", "--rows", sheet, early, saved, late))
            wanted = verdicts_in(league("ask", "--rows", sheet, feed))
            self.assertEqual(told, wanted[len(wanted) - len(told):])
            self.assertTrue(told)

    def test_what_a_long_budget_settled_stays(self) -> None:
        sheet, feed = SHIRE / "sheet.csv", SHIRE / "matchdays.csv"
        early, saved = self.home / "early.csv", self.home / "night.save"
        early.write_text(feed.read_text("utf-8").split("ask\n")[0], "utf-8")
        self.assertEqual(league("save", sheet, early, "--budget", "50000", "-o",
                                saved).returncode, 0)
        words = {budget: [row.rsplit(",", 1)[1] for row in verdicts_in(
            league("resume", "--rows", "--budget", budget, sheet, early, saved))]
            for budget in (1, 50000)}
        for short, long in zip(words[1], words[50000]):
            self.assertTrue(short == long or long == "possible", (short, long))
