"""Defects of reading that once stood: an input gave no word, a wrong one, or lost what it held."""

from __future__ import annotations

import tempfile
from pathlib import Path

from leaguelib.feeds import read_sheet
from leaguelib.wording import days_of

from .counting import Counter, called, said, sound_end
from .mistake import FEED, SHEET

WORDS = ["--name", "Cup", "--lines", "1", "--order", "head_first"]
GERMAN = ("Datum;Heim;Gast;Tore Heim;Tore Gast\n01.08.2024;Anchor;Köln;2;1\n"
          "08.08.2024;Köln;Anchor;;\n")
UNKNOWN = GERMAN.replace("Tore Heim;Tore Gast", "TH;TG")
AMERICAN = "Date,Home,Away,HG,AG\n8/1/2024,Anchor,Köln,2,1\n8/15/2024,Anchor,Köln,,\n"
FEED_OF_TWO = "8/15/2024 Anchor 3-1 Köln\n"
# name, file, more words for the sheet, its status and what it says, then those of the feed
CASES = (
    ("goals under heads in German", GERMAN, [], 0, "match,Köln,Anchor", 0, "result,1,2,1\n"),
    ("goals under heads that are not known", UNKNOWN, [], 2, "no column is one for scores. The "
     "heads are Datum, Heim, Gast, TH, TG. What is `2` under `TH` in line 2?", 2,
     "Heads for scores are"),
    ("an open match among lines", "Anchor - Köln 2:1\nKöln - Anchor\n", [], 0, "match,Köln,Anchor",
     0, "result,1,2,1\n"),
    ("headings among lines", "Matchday 1\nAnchor 2-1 Köln\nMatchday 2\nKöln - Anchor\n", [], 0,
     "match,Köln,Anchor", 0, "2 headings (line 1 `Matchday 1`, ..)"),
    ("one match that is added", "Anchor 2-1 Köln\n", ["--rounds", "2"], 0, "1 match was added that",
     0, "result,1,2,1\n"),
    ("a question behind a sentence", "Anchor 2-1 Köln\nDock 1-0 Anchor\nKöln 1-0 Docks\n", [], 2,
     "appears once: is it `Docks`?\n", 2, "no club is called `Docks`"),
    ("a row without a name", "Home,Away,HG,AG\nAnchor,,2,1\n", [], 2,
     "line 2: the away side's name is missing: `Anchor,,2,1`", 2, "nothing was written"),
    ("half time behind a score", "Home,Away,Result\nAnchor,Köln,3-1 (1-0)\nKöln,Anchor,\n", [], 0,
     "match,Köln,Anchor", 0, "result,1,3,1\n"),
    ("a score that was awarded", "Home,Away,Result\nAnchor,Köln,0-3 awd.\nKöln,Anchor,\n", [], 0,
     "match,Köln,Anchor", 0, "result,1,0,3\n"),
    ("words for open matches", "Home,Away,Result\nAnchor,Köln,P-P\nKöln,Anchor,postp.\n", [], 0,
     "taken as open: 1 match marked (P-P)", 0,
     "1 match without a score (postp.) (line 3 `Köln,Anchor,postp.`)"),
    ("a word of the feed above a cross table", "Result table 2024\nHome \\ Away\tA\tK\n"
     "Anchor\t—\t2–1\nKöln\t\t—\n", [], 0, "match,Köln,Anchor", 0, "result,1,2,1\n"),
    ("an ask among the rows of a table", "Home,Away,Score\nAnchor,Köln,2-1\nask\nKöln,Anchor,\n",
     [], 0, "match,Köln,Anchor", 0, "result,1,2,1\nask\n"),
    ("months in front", AMERICAN, ["--as-is"], 0, "# 2024-08-01\nmatch,Anchor,Köln\n# 2024-08-15\n",
     0, "result,1,2,1\n"),
    ("a hyphen that is none", "Anchor 1‑0 Köln\nKöln - Anchor\n", [], 0, "match,Köln,Anchor", 0,
     "result,1,1,0\n"),
    ("after extra time", "Anchor 1-0 Köln (aet)\nKöln - Anchor\n", [], 0,
     "line 1: after extra time", 0, "result,1,1,0\n"),
    ("tabs without heads", "1.8.24\tAnchor\t2 : 1\tKöln\n8.8.24\tKöln\t- : -\tAnchor\n", [], 0,
     "# 2024-08-08\nmatch,Köln,Anchor", 0, "result,1,2,1\n"),
)


def check_defects(counter: Counter) -> None:
    """Each defect, in a sheet and in the feed of the same file."""
    with tempfile.TemporaryDirectory() as work:
        file, sheet = Path(work) / "list", Path(work) / "sheet.csv"
        for name, text, more, status, says, feed_status, feed_says in CASES:
            file.write_text(text, "utf-8")
            run = called("sheet", file, *WORDS, *more)
            counter.check("sheet: " + name, sound_end(run) + said(run, status, says))
            sheet.write_bytes(run.stdout or two_clubs())
            run = called("feed", sheet, file)
            counter.check("feed: " + name, sound_end(run) + said(run, feed_status, feed_says) + (
                ["something was written"] if feed_status and run.stdout else []))
        file.write_text(AMERICAN, "utf-8")
        sheet.write_bytes(called("sheet", file, *WORDS, "--as-is").stdout)
        run = called("feed", sheet, "-", data=FEED_OF_TWO.encode("utf-8"))
        counter.check("feed: a date of the month first", sound_end(run) + said(
            run, 0, "result,2,3,1"))
        check_words(counter, sheet, file)
    check_modes(counter)
    check_days(counter)


def two_clubs() -> bytes:
    """A sheet of two matches, for lists of which none is made."""
    return (b"league,Cup,9\nclub,Anchor,1\n" + "club,Köln,1\n".encode("utf-8")
            + "match,Anchor,Köln\nmatch,Köln,Anchor\nline,1\nseason\n".encode("utf-8"))


def check_words(counter: Counter, sheet: Path, file: Path) -> None:
    """A file after an option, and several of them."""
    sheet.write_bytes(two_clubs())
    file.write_text("Anchor 2-1 Köln\n", "utf-8")
    for words in ([sheet, "--ask", file], ["--ask", sheet, file], [sheet, file, "--ask"]):
        run = called("feed", *words)
        counter.check(f"feed: {[str(word)[-5:] for word in words]}", sound_end(run) + (
            [] if run.stdout == b"result,1,2,1\nask\n" else [run.stderr.decode("utf-8")]))
    run = called("sheet", *WORDS, "--as-is", file)
    counter.check("sheet: the list behind the options", sound_end(run) + said(
        run, 0, "match,Anchor,Köln"))
    run = called("feed", "-", "-")
    counter.check("feed: standard input twice", sound_end(run) + said(run, 1, "give `-` once"))


def check_modes(counter: Counter) -> None:
    """Each mode of the program that reads an input can be linted for."""
    report = FEED + "ask\nproofs\nask,1\nnot looked at\n"
    for mode, data, status, says in (
            ("scores", FEED + "ask\n", 0, "No mistakes found"),
            ("check", report, 0, "No mistakes found"),
            ("check", FEED + "ask\n", 3, "the input has no `proofs`"),
            ("check", FEED + "Ask\nproofs\n", 2, "`ask`"),
            ("verdicts", report, 2, "fault,12,unknown_record"),
            ("table", SHEET.replace("line,1\n", "") + "ask\n", 0, "No mistakes found"),
            ("scores", SHEET.replace("line,1\n", "") + "ask\n", 3, "has no `line`")):
        run = called("lint", "--mode", mode, "-", data=data.encode("utf-8"))
        counter.check(f"lint --mode {mode}: {says}", sound_end(run) + said(run, status, says))


def check_days(counter: Counter) -> None:
    """Matches that were added to a list have no day, whatever stands above them."""
    sheet = ("league,D,9\nclub,A,1\nclub,B,1\n# 2024-08-01\nmatch,A,B\n# added, to make 2 rounds "
             "of all pairs: no date\nmatch,B,A\n# 2024-08-15\nmatch,A,B\n# no date\nmatch,B,A\n"
             "line,1\nseason\n").encode("utf-8")
    found = days_of(sheet, read_sheet(sheet))
    counter.check("an added match has no day",
                  [] if found == {1: "2024-08-01", 3: "2024-08-15"} else [str(found)])
