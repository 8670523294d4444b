"""Tests of the front door with the program itself, on the worked examples."""

import csv
import io
import json
import os
import re
import subprocess
import sys
import tempfile
import unittest
from pathlib import Path

from reference import League, take
from schema import faults_of
from worked import league_examples

HOME = Path(__file__).resolve().parents[2]
sys.path.append(str(HOME / "bench" / "shared"))
from double_round import league as double_round  # noqa: E402
LEAGUE = HOME / "tools" / "league"
EXAMPLES = league_examples()
SHIRE = HOME / "examples" / "shire-league-20"
PROGRAM = os.environ.get("FUTMAX") or str(HOME / "crates" / "futmax" / "out" / "futmax")
SCHEMA = json.loads((HOME / "docs" / "answer.schema.json").read_text("utf-8"))
SHORT = {"clinched": "in", "lost": "out", "possible": "open"}


def is_there() -> bool:
    """Whether the program is built."""
    return os.access(PROGRAM, os.X_OK)


def league(*words: object, data: bytes = b"") -> subprocess.CompletedProcess:
    """Runs the command."""
    return subprocess.run([sys.executable, str(LEAGUE), *map(str, words)], input=data,
                          capture_output=True, check=False, env={**os.environ, "FUTMAX": PROGRAM})


def files_of(example: Path) -> tuple[Path, Path]:
    """The sheet and the feed of an example."""
    return example / "sheet.csv", example / "feed.csv"


def wanted_rows(example: Path) -> list[str]:
    """The verdict rows that another program worked out."""
    return (example / "wanted.csv").read_text("utf-8").splitlines()


def verdicts_in(done: subprocess.CompletedProcess) -> list[str]:
    """The verdict rows among what was written."""
    return [row for row in done.stdout.decode().splitlines() if row.startswith("verdict,")]


def asks_of(example: Path) -> list[League]:
    """The season at each ask, as the plain reference reads it."""
    found, season = [], League()
    for path in files_of(example):
        for fields in csv.reader(io.StringIO(path.read_text("utf-8"))):
            if fields and not fields[0].startswith("#") and take(season, fields):
                found.append(League(**{**vars(season), "scores": dict(season.scores),
                                       "deducted": dict(season.deducted)}))
    return found


class AnswerTests(unittest.TestCase):
    """Rows, objects and sentences of the examples."""

    def test_rows_are_the_wanted_ones(self) -> None:
        for example in EXAMPLES:
            done = league("ask", "--rows", *files_of(example))
            self.assertEqual((done.returncode, done.stderr), (0, b""))
            self.assertEqual(verdicts_in(done), wanted_rows(example), example)

    def test_objects_fit_the_schema_and_say_the_same(self) -> None:
        for example in EXAMPLES:
            done = league("ask", "--json", "--examples", *files_of(example))
            objects = [json.loads(line) for line in done.stdout.decode().splitlines()]
            for value in objects:
                self.assertEqual(faults_of(value, SCHEMA, SCHEMA), [])
            rows = [[str(it["line"]), it["club"], it["verdict"]] for it in objects
                    if it["type"] == "verdict"]
            self.assertEqual(rows, [it[1:] for it in csv.reader(wanted_rows(example))])
            self.closes_each_ask(objects)
            for it in objects:
                self.assertEqual(sorted(it.get("finishes", {})),
                                 ["inside", "outside"] if it.get("verdict") == "possible" else [])

    def closes_each_ask(self, objects: list[dict]) -> None:
        """An opening, its rows and one that closes and counts them, ask after ask."""
        rows = 0
        for value in objects:
            if value["type"] == "ask":
                rows = 0
            elif value["type"] == "end":
                self.assertEqual((value["rows"], value["unsettled"]), (rows, 0))
            else:
                rows += 1
        kinds = [value["type"] for value in objects if value["type"] in ("ask", "end")]
        self.assertEqual(kinds, ["ask", "end"] * (len(kinds) // 2))

    def test_tables_and_scores_fit_the_schema(self) -> None:
        for example in EXAMPLES:
            for part in ("table", "scores"):
                done = league(part, "--json", *files_of(example))
                objects = [json.loads(line) for line in done.stdout.decode().splitlines()]
                self.assertTrue(objects)
                for value in objects:
                    self.assertEqual(faults_of(value, SCHEMA, SCHEMA), [])
                self.closes_each_ask(objects)

    def test_the_screen_says_who_is_in_and_out(self) -> None:
        for example in EXAMPLES:
            season = asks_of(example)[-1]
            count = len(season.clubs) * len(season.lines)
            wanted = {(line, club): SHORT[word] for _, line, club, word
                      in csv.reader(wanted_rows(example)[-count:])}
            text = league("ask", *files_of(example)).stdout.decode()
            self.assertLessEqual(text.count("\n"), 60)
            for club in season.clubs:
                row = next(it for it in text.splitlines()
                           if re.match(rf" *\d+(-\d+)?  {re.escape(club)}  ", it))
                words = row.split()[-len(season.lines):]
                self.assertEqual(words, [wanted[str(line), club] for line in season.lines])

    def test_files_standard_input_and_an_added_ask_say_the_same(self) -> None:
        sheet, feed = files_of(HOME / "examples" / "euro-2024-group-b")
        whole = sheet.read_bytes() + feed.read_bytes()
        wanted = league("ask", "--json", sheet, feed).stdout
        self.assertEqual(league("ask", "--json", data=whole).stdout, wanted)
        self.assertEqual(league("ask", "--json", "-", feed, data=sheet.read_bytes()).stdout, wanted)
        self.assertEqual(league("ask", feed, "--json", sheet).stdout, wanted)
        last = league("ask", "--rows", "--ask", "2", sheet, feed).stdout
        ended = whole.replace(b"ask\n", b"")
        self.assertEqual(league("ask", "--rows", data=ended).stdout, last)

    def test_the_same_words_in_ten_runs(self) -> None:
        files = (SHIRE / "sheet.csv", SHIRE / "matchdays.csv")
        said = {league("ask", "--rows", "--ask", "3", *files).stdout for _ in range(10)}
        self.assertEqual(len(said), 1)

    def test_unsettled_rows_are_asked_again(self) -> None:
        wanted = (SHIRE / "wanted-matchdays.csv").read_text("utf-8").splitlines()
        sheet = (SHIRE / "sheet.csv").read_bytes().replace(b"League,9\n", b"League,9,1\n", 1)
        data = sheet + (SHIRE / "matchdays.csv").read_bytes()
        done = league("ask", "--rows", "--ask", "4", data=data)
        self.assertEqual(verdicts_in(done), wanted[180:240])
        self.assertIn(b"asked again with the budget 50,000", done.stderr)
        done = league("ask", "--rows", "--ask", "4", "--budget", "1", data=data)
        self.assertIn(b"are unsettled (the budget was 1)", done.stderr)

    def test_with_many_open_matches_the_budget_to_ask_again_is_less(self) -> None:
        for left, budget in ((1, "50,000"), (2, "2,000"), (8, "2,000")):
            data = "\n".join([*double_round(left, 1, 1)[0], "ask", ""]).encode()
            once = league("ask", "--rows", "--budget", budget.replace(",", ""), data=data).stdout
            done = league("ask", "--rows", data=data)
            self.assertIn(f"with the budget {budget}".encode(), done.stderr)
            self.assertEqual(done.stdout, once)

    def test_with_many_open_matches_scores_are_not_asked_again(self) -> None:
        for left, says in ((8, True), (9, False)):
            data = "\n".join([*double_round(left, 1, 1)[0], "ask", ""]).encode()
            one_line = b"".join(row + b"\n" for row in data.splitlines()
                                if not row.startswith(b"line,") or row == b"line,1")
            done = league("scores", "--rows", data=one_line)
            self.assertEqual(b"with the budget 50,000" in done.stderr, says)
            self.assertEqual(b"the budget was 1)" in done.stderr, not says)


class ScreenTests(unittest.TestCase):
    """The first screen of a league of twenty on its last matchdays."""

    FILES = (SHIRE / "sheet.csv", SHIRE / "matchdays.csv")

    def test_one_screen_holds_four_lines_of_twenty_clubs(self) -> None:
        sheet = self.FILES[0].read_bytes().replace(b"line,17\n", b"line,17\nline,6\n", 1)
        for number in (1, 4, 5):
            done = league("explain", "-", self.FILES[1], "--ask", number, data=sheet)
            self.assertEqual(done.returncode, 0, done.stderr)
            lines = done.stdout.decode().splitlines()
            self.assertLessEqual(len(lines), 60)
            self.assertEqual(sum(bool(re.match(r" *\d+(-\d+)?  ", line)) for line in lines), 20)
            self.assertTrue(all(len(line) <= 100 for line in lines), lines)
        sheet = sheet.replace(b"season\n", b"# line 1: Champion of the Shire\n# line 4: Cup of all "
                              b"Shires\n# line 6: Shield of the Shires\n# line 17: Safe\nseason\n")
        lines = league("ask", "-", self.FILES[1], data=sheet).stdout.decode().splitlines()
        self.assertTrue(all(len(line) <= 100 for line in lines), lines)
        # behind the heading, whose length is that of the feed's path
        self.assertTrue(lines[lines.index("") + 1].startswith(
            "Champion of the Shire (first place). In: "), lines)

    def test_points_and_points_to_come(self) -> None:
        text = league("explain", *self.FILES, "--ask", "4").stdout.decode()
        self.assertIn(f"at the ask in {self.FILES[1]}, line 411", " ".join(text.split()))
        for row in csv.reader((SHIRE / "wanted-tables.csv").read_text("utf-8").splitlines()[64:84]):
            _, best, _, club, played, points, difference, _ = row
            wanted = [best, *club.split(), played, points, "3", f"{int(difference):+d}"]
            self.assertIn(wanted, [line.split()[:len(wanted)] for line in text.splitlines()])

    def test_what_changed_is_what_the_wanted_verdicts_say(self) -> None:
        rows = list(csv.reader((SHIRE / "wanted-matchdays.csv").read_text("utf-8").splitlines()))
        before, after = rows[180:240], rows[240:300]
        wanted = {(row[1], row[2], f"{SHORT[old[3]]} → {SHORT[row[3]]}")
                  for old, row in zip(before, after) if old[3] != row[3]}
        self.assertGreater(len(wanted), 4)
        for words in (["--ask", "5"], ["--ask", "5", "--since", "matchday 38"]):
            text = league("explain", *self.FILES, *words).stdout.decode()
            told = text[text.index("What changed since"):text.index("Why: ")]
            self.assertIn("10 results", " ".join(told.split()))
            self.assertEqual(self.changes_in(" ".join(told.split())), wanted)

    def changes_in(self, text: str) -> set[tuple[str, str, str]]:
        """The changes that a screen tells: line, club, and the words before and after."""
        found = set()
        for line, told in re.findall(r"(?:First|The top) (place|\d+): ([^.]*)\.", text):
            for part in told.split("; "):
                names, words = re.fullmatch(r"(.*) (\w+ → \w+)", part).groups()
                for club in re.split(", | and ", names):
                    found.add(("1" if line == "place" else line, club, words))
        return found

    def test_level_clubs_have_a_short_reason(self) -> None:
        """As about.md has it: Northquay has 75 points like Brightwater, which is ahead of it."""
        text = league("explain", *files_of(SHIRE), "--ask", "1", "--why", "northq", "--line",
                      "1").stdout.decode()
        self.assertIn("Northquay ends on 75 points. Brightwater has as many already. If they end "
                      "level, the criteria leave Northquay out, whatever else happens.",
                      " ".join(text.split()))

    def test_a_day_that_the_sheet_does_not_tell(self) -> None:
        done = league("explain", *self.FILES, "--since", "2024-05-19")
        self.assertEqual(done.returncode, 2)
        self.assertIn(b"have no dates", done.stderr)
        done = league("explain", *self.FILES, "--since", "yesterday")
        self.assertEqual(done.returncode, 1)

    def test_a_day_that_the_feed_tells(self) -> None:
        """The comment right above a result; a match of an unknown day is counted, and said."""
        data = (b"league,Days,1\nclub,A,1\nclub,B,1\nmatch,A,B\nmatch,B,A\nline,1\nseason\n"
                b"result,1,1,0\n# 2024-04-13\nresult,2,0,0\n")
        done = league("explain", "--since", "2024-04-10", data=data)
        self.assertIn("since 2024-04-10 (1 result from then on; 1 match played on days that are "
                      "not known counts as earlier)", " ".join(done.stdout.decode().split()))

    def test_lines_have_names_and_may_be_more_than_four(self) -> None:
        sheet, feed = files_of(HOME / "examples" / "orchard-league")
        data = sheet.read_bytes().replace(b"season\n", b"# line 4: Orchard Cup\n# line 2\n"
                                          b"# line 3\n# below line 5: relegated\n# line 5\n"
                                          b"season\n")
        text = " ".join(league("ask", "-", feed, data=data).stdout.decode().split())
        for words in ("Orchard Cup (top 4). In:", "The top 2.",
                      "Out (relegated): "):
            self.assertIn(words, text)
        told = verdicts_in(league("ask", "--rows", "-", feed, data=data))
        season = subprocess.run([sys.executable, str(HOME / "checks" / "reference.py"),
                                 "verdicts"], check=True, capture_output=True, input=data.replace(
                                     b"# line 2\n# line 3\n", b"line,2\nline,3\n").replace(
                                     b"# line 5\n", b"line,5\n") + feed.read_bytes()).stdout
        wanted = [row for row in season.decode().splitlines() if row.startswith("verdict,")]
        self.assertEqual(sorted(told), sorted(wanted))
        self.assertEqual(len(told), 5 * 6 * 4)


class RefusalTests(unittest.TestCase):
    """Statuses of the program itself."""

    def test_a_refused_line_is_quoted_with_its_file(self) -> None:
        sheet, _ = files_of(HOME / "examples" / "tiny")
        with tempfile.TemporaryDirectory() as folder:
            feed = Path(folder) / "feed.csv"
            for text, status, says in (("result,1,1-0\nask\n", 3, "line 1: `result,1,1-0`"),
                                       ("ask\nresult,9,1,0\n", 3, "line 2: `result,9,1,0`"),
                                       ("#" * 1025 + "\n", 8, "more than 1,024 bytes")):
                feed.write_text(text)
                for words in (["ask"], ["ask", "--json"], ["table"], ["scores", "--rows"]):
                    done = league(*words, sheet, feed)
                    self.assertEqual(done.returncode, status)
                    self.assertIn(f"{feed}, line", done.stderr.decode())
                    self.assertIn(says, done.stderr.decode())
                done = league("ask", "--json", sheet, feed)
                fault = json.loads(done.stdout.decode().splitlines()[-1])
                self.assertEqual(faults_of(fault, SCHEMA, SCHEMA), [])
                self.assertEqual((fault["type"], fault["status"]), ("fault", status))
        done = league("ask", data=b"club,A,1\n")
        self.assertEqual(done.returncode, 2)
        self.assertIn(b"standard input, line 1: `club,A,1`", done.stderr)

    def test_reports_are_checked(self) -> None:
        sheet, feed = files_of(HOME / "examples" / "euro-2024-group-a")
        report = subprocess.run([PROGRAM, "verdicts", "--proofs", "--workers", "1"], check=True,
                                input=sheet.read_bytes() + feed.read_bytes(),
                                capture_output=True).stdout
        with tempfile.TemporaryDirectory() as folder:
            path = Path(folder) / "report.txt"
            path.write_bytes(report)
            done = league("check", sheet, feed, path)
            self.assertEqual((done.returncode, done.stderr), (0, b""))
            self.assertIn(b"proves its 24 rows", done.stdout)
            path.write_bytes(report.replace(b"Hungary,lost", b"Hungary,clinched", 1))
            done = league("check", "--json", sheet, feed, path)
            self.assertEqual(done.returncode, 7)
            line = report[:report.index(b"Hungary,lost")].count(b"\n") + 1
            self.assertIn(f"{path}, line ".encode(), done.stderr)
            value = json.loads(done.stdout)
            self.assertEqual(faults_of(value, SCHEMA, SCHEMA), [])
            self.assertGreaterEqual(value["line"], line)

    def test_a_file_that_is_no_fitting_report(self) -> None:
        """What is wrong with the whole report stands before the line that is refused."""
        sheet, feed = files_of(HOME / "examples" / "tiny")
        whole, ask = sheet.read_bytes() + feed.read_bytes(), b"ask\n"
        rows, twice = (subprocess.run([PROGRAM, "verdicts", *words], check=True, input=data,
                                      capture_output=True).stdout
                       for words, data in (([], whole), (["--proofs"], whole + ask)))
        for report, says in ((rows, "made without --proofs: run `futmax verdicts --proofs`"),
                             (league("ask", sheet, feed).stdout, "This is no report of proofs"),
                             (twice, "2 asks in the report, 1 in the feed"),
                             (b"", "The report is empty")):
            with tempfile.TemporaryDirectory() as folder:
                path = Path(folder) / "report.txt"
                path.write_bytes(report)
                done = league("check", sheet, feed, path)
                self.assertEqual(done.returncode, 7)
                self.assertIn(says, done.stderr.decode())
        done = league("check", sheet, feed)
        self.assertEqual(done.returncode, 1)
        self.assertIn(f"{feed}, the last file, is a feed", done.stderr.decode())

    def test_half_files_and_bytes_of_any_kind(self) -> None:
        sheet, feed = files_of(HOME / "examples" / "harbour-cup")
        whole = sheet.read_bytes() + feed.read_bytes() + b"proofs\nask,5\n"
        inputs = [whole[:end] for end in range(0, len(whole), 41)]
        inputs += [b"\xff\xfe\x00a", b"\0" * 50, b"\x80\n" * 9, b'league,"\xc3\n', b"[" * 2000]
        for at, data in enumerate(inputs):
            words = (["ask"], ["ask", "--json"], ["table", "--rows"], ["scores"],
                     ["check", "--json"], ["explain"])[at % 6]
            done = league(*words, data=data)
            self.assertIn(done.returncode, (0, 1, 2, 3, 7, 8), (words, data))
            self.assertNotIn(b"Traceback", done.stderr)
            self.assertTrue(done.returncode == 0 or done.stderr, (words, data))
            if "--json" in words:
                for line in done.stdout.decode().splitlines():
                    self.assertEqual(faults_of(json.loads(line), SCHEMA, SCHEMA), [], line)
