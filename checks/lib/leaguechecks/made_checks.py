"""Sheets and feeds made by names: what is written, what is refused, and the examples."""

from __future__ import annotations

import tempfile
from pathlib import Path

from leaguelib.feeds import read_input, read_sheet
from leaguelib.records import fields_of

from .counting import HOME, Counter, called, said, same, sound_end, unmarked
from .mistake import SHEET

EXAMPLES = sorted(path.parent for path in HOME.glob("examples/*/sheet.csv")
                  if path.read_text("utf-8").startswith("league,"))
LIST = "Anchor - Köln\nKöln - Dock United\nDock United - Anchor\n"
MADE = ["--name", "Cup", "--lines", "1", "--order", "head_first"]
DIVISIONS = ("Div,Date,HomeTeam,AwayTeam\nE0,13/04/2024,A,B\nE0,20/04/2024,B,A\n"
             "E1,13/04/2024,C,D\nE1,20/04/2024,D,C\n")
SHEETS = (
    ("two divisions in one file", DIVISIONS, MADE, 2, "the column `Div` has 2 divisions that share "
     "no club: `E0` (2 clubs), `E1` (2 clubs)"),
    ("two divisions that are meant", DIVISIONS, MADE + ["--as-is"], 0, "match,D,C"),
    ("a complete list", LIST, MADE, 0, "match,Dock United,Anchor"),
    ("no order", LIST, MADE[:4], 1, "Premier League"),
    ("no lines", LIST, MADE[:2] + MADE[4:], 1, "--lines 1,4,17"),
    ("no name", LIST, MADE[2:], 1, "What is the league called"),
    ("a match is missing", LIST.rsplit("Dock", 1)[0], MADE, 2, "Anchor - Dock United"),
    ("a match is missing and it is meant", LIST.rsplit("Dock", 1)[0], MADE + ["--as-is"], 0,
     "season"),
    ("a match is double", LIST + "Anchor - Köln\n", MADE, 2, "Anchor - Köln"),
    ("one pair in both orders", "A - B\nB - A\nA - C\nB - D\nA - D\nB - C\n", MADE, 2,
     "if each pair meets once, these stand too often"),
    ("half of two rounds", "A 1-0 B\nB 1-0 A\nA 0-0 C\n", MADE, 2, "C - A"),
    ("played matches alone", LIST.replace(" - ", " 1-0 "), MADE, 2, "all matches of this list "
                                                                    "have"),
    ("two rounds", LIST.replace(" - ", " 1-0 "), MADE + ["--rounds", "2"], 0, "match,Köln,Anchor"),
    ("a misspelt name", LIST.replace("Dock United -", "Dock Unitd -"), MADE, 2, "is it `"),
    ("a misspelt name among rounds", LIST.replace("Dock United -", "Dock Unitd -"),
     MADE + ["--rounds", "2"], 0, "is it `"),
    ("a line that is no match", LIST + "postponed\n", MADE, 2, "line 4: cannot be read"),
    ("a table", "Div,Date,HomeTeam,AwayTeam\nE,21/08/23,Anchor,Köln\n", MADE, 0, "# 2023-08-21"),
    ("a table with semicolons", "Heim;Gast\nAnchor;Köln\n", MADE, 0, "match,Anchor,Köln"),
    ("openfootball", "= Cup 2024\n\nMatchday 1\n[Fri Aug/11]\n 20.00  Anchor  2-1 (0-0)  Köln\n"
     " Köln  v Anchor  @ Harbour\n", MADE[2:], 0, "league,Cup 2024,9"),
    ("openfootball with dates in brackets", "= Cup\n[2024-06-14]\n(1) 21:00  Anchor v Köln  5-1 "
     "(3-0)  @ Harbour\n    (Gull 1', 2'; Tern 3')\n(2) Köln v Anchor\n", MADE[2:], 0,
     "# 2024-06-14\nmatch,Anchor,Köln\nmatch,Köln,Anchor\n"),
    ("a line twice", LIST, MADE[:3] + ["1,1"] + MADE[4:], 2, "is there twice"),
    ("a line in words", LIST, MADE[:3] + ["top"] + MADE[4:], 1, "--lines 1,4,17"),
    ("five lines", LIST, MADE[:3] + ["1,2,3,4,5"] + MADE[4:], 2, "refused"),
    ("a name that is no text", LIST, ["--name", b"\xff"] + MADE[2:], 2, "1 to 40 bytes"),
    ("ranks that are not there", LIST, MADE + ["--ranks", "/nowhere/ranks"], 4, "cannot be read"),
    ("no rounds", LIST, MADE + ["--rounds", "0"], 1, "--rounds"),
    ("goal limit 21", LIST, MADE + ["--goal-limit", "21"], 2, "1 to 20"),
    ("a name with a comma", "Anchor - Ebb, 1904\n", MADE, 0, 'match,Anchor,"Ebb, 1904"'),
)
FEEDS = (
    ("a result", "Anchor 2-1 Köln\n", 0, "result,1,2,1\n"),
    ("a result with a date", "2024-06-14 Anchor 2:1 Köln\n", 0, "result,1,2,1\n"),
    ("a correction", "Anchor 2-1 Köln\ncorrect Anchor 2-2 Köln\n", 0, "fix,1,2,2"),
    ("an annulment", "Anchor 2-1 Köln\nannul Anchor - Köln\n", 0, "void,1"),
    ("a deduction", "deduct Dock United 3\n", 0, "deduct,Dock United,3\n"),
    ("a line of the feed", "result,2,0,0\n", 0, "result,2,0,0\n"),
    ("a comment", "# first day\n\nask\n", 0, "ask\n"),
    ("a misspelt club", "Ancor 2-1 Köln\n", 2, "nearest name is `Anchor`"),
    ("a name without its accent", "Anchor 2-1 Koln\n", 0, "result,1,2,1\n"),
    ("home and away exchanged", "Köln 1-2 Anchor\n", 2, "Anchor - Köln, fixture 1"),
    ("a result twice", "Anchor 2-1 Köln\nAnchor 2-1 Köln\n", 0, "1 result added; 1 was there "
     "already"),
    ("a result twice, another score", "Anchor 2-1 Köln\nAnchor 2-2 Köln\n", 2, "already"),
    ("no score", "Anchor - Köln\n", 0, "1 match without a score (line 1 `Anchor - Köln`)"),
    ("no match", "good evening\n", 2, "line 1: cannot be read as a match: `good evening`"),
    ("a table of results", "HomeTeam,AwayTeam,FTHG,FTAG\nAnchor,Köln,2,1\nKöln,Dock United,,\n", 0,
     "result,1,2,1\n"),
)


def names_of(folder: Path) -> tuple[str, str]:
    """The fixtures of an example as lines by names, and its feed as lines by names."""
    whole = read_input((folder / "sheet.csv").read_bytes() + (folder / "feed.csv").read_bytes())
    fixtures = "".join(f"{one.home} - {one.away}\n" for one in whole.sheet.fixtures)
    lines = []
    for entry in whole.entries:
        if entry.kind == "ask":
            lines.append("ask")
        elif entry.kind == "deduct":
            lines.append(f"deduct {entry.club} {entry.points} in all")
        else:
            one = whole.sheet.fixture(entry.fixture)
            pair = [f for f in whole.sheet.fixtures if (f.home, f.away) == (one.home, one.away)]
            score = f"{entry.score[0]}-{entry.score[1]}"
            word = {"result": "", "fix": "correct ", "void": "annul "}[entry.kind]
            middle = "-" if entry.kind == "void" else score
            if len(pair) > 1:
                lines.append(f"{entry.kind},{entry.fixture},{score.replace('-', ',')}")
            else:
                lines.append(f"{word}{one.home} {middle} {one.away}")
    return fixtures, "".join(line + "\n" for line in lines)


def records(data: bytes) -> bytes:
    """The lines that are no comments, with their line ends as Unix has them."""
    lines = [line.rstrip(b"\r") for line in data.split(b"\n")]
    return b"".join(line + b"\n" for line in lines if line and not line.startswith(b"#"))


def check_round_trips(counter: Counter) -> None:
    """Each example made by names has the bytes that were written by hand."""
    for folder in EXAMPLES:
        by_hand = (folder / "sheet.csv").read_bytes()
        sheet = read_sheet(by_hand)
        fixtures, feed = names_of(folder)
        with tempfile.TemporaryDirectory() as work:
            ranks = Path(work) / "ranks.csv"
            clubs = [line for line in by_hand.splitlines() if line.startswith(b"club,")]
            ranks.write_bytes(b"\n".join(clubs) + b"\n")
            words: list[object] = ["sheet", "-", "--name", sheet.name, "--order", sheet.order,
                                   "--goal-limit", sheet.goal_limit, "--ranks", ranks, "--as-is",
                                   "--lines", ",".join(map(str, sheet.lines)) or "none",
                                   "--no-comments"]
            has_budget = len(fields_of(records(by_hand).split(b"\n")[0])) > 3
            if has_budget and sheet.order == "head_first":
                words += ["--budget", sheet.budget]
            run = called(*words, data=fixtures.encode("utf-8"))
        counter.check(f"sheet by names: {folder.name}", same(run, records(by_hand)))
        run = called("feed", folder / "sheet.csv", data=feed.encode("utf-8"))
        wanted = records((folder / "feed.csv").read_bytes())
        counter.check(f"feed by names: {folder.name}", same(run, wanted))
        run = called("lint", folder / "sheet.csv", folder / "feed.csv")
        counter.check(f"lint takes the example {folder.name}",
                      [] if run.returncode in (0, 3) else [run.stdout.decode("utf-8", "replace")])


def check_made(counter: Counter) -> None:
    """What `league sheet` and `league feed` write and say."""
    for name, text, words, status, says in SHEETS:
        run = called("sheet", "-", *words, data=text.encode("utf-8"))
        counter.check("sheet: " + name, sound_end(run) + said(run, status, says))
    with tempfile.TemporaryDirectory() as work:
        sheet = Path(work) / "sheet.csv"
        sheet.write_text(SHEET, "utf-8")
        for name, text, status, says in FEEDS:
            run = called("feed", sheet, data=text.encode("utf-8"))
            counter.check("feed: " + name, sound_end(run) + said(run, status, says) + (
                ["something was written"] if status and run.stdout else []))
        check_log(counter, sheet, Path(work) / "feed.csv")


def check_log(counter: Counter, sheet: Path, log: Path) -> None:
    """A feed that grows: by lines, by the table of a day that is read twice, by nothing wrong."""
    log.write_text("# first day\nresult,1,2,1\nask", "utf-8")
    words = ["feed", sheet, "--log", log, "--append", "--ask"]
    table = "HomeTeam,AwayTeam,FTHG,FTAG\nAnchor,Köln,2,1\nKöln,Dock United,0,0\n"
    runs = [called(*words, data=text.encode("utf-8"))
            for text in (table, table, "Köln 1-1 Dock United\n", "correct Köln 1-1 Dock United\n")]
    wanted = "# first day\nresult,1,2,1\nask\nresult,2,0,0\nask\nfix,2,1,1\nask\n"
    statuses = [run.returncode for run in runs]
    counter.check("feed: a log that grows", [unmarked(log.read_text("utf-8")), str(statuses)]
                  if unmarked(log.read_text("utf-8")) != wanted or statuses != [0, 0, 3, 0] else [])
    counter.check("feed: a table read again brings no second ask",
                  said(runs[1], 0, "ends with an `ask` already"))
    log.unlink()
    run = called(*words, data=table.encode("utf-8"))
    counter.check("feed: --append begins a feed, and says so",
                  said(run, 0, "is not there: a new feed is begun") + (
                      [] if unmarked(log.read_text("utf-8")) == "result,1,2,1\nresult,2,0,0\nask\n" else
                      [unmarked(log.read_text("utf-8"))]))
    log.unlink()
    dated = "Date,HomeTeam,AwayTeam,FTHG,FTAG\n13/04/2024,Anchor,Köln,2,1\n"
    called(*words, data=dated.encode("utf-8"))
    counter.check("feed: the date of a match that the sheet does not tell is kept above it",
                  [] if unmarked(log.read_text("utf-8")) == "# 2024-04-13\nresult,1,2,1\nask\n" else
                  [unmarked(log.read_text("utf-8"))])
