"""Rulings of a season by names: what `league feed` and `league live` write, which of them are
refused with what to do, and that a match with a new date is no match of tonight. What is expected
was written by hand from docs/formats.md.
"""

from __future__ import annotations

import tempfile
from pathlib import Path

from leaguelib.feeds import read_sheet
from leaguelib.outlook import next_matches
from leaguelib.texts import Season
from leaguelib.wording import days_of

from .counting import Counter, called, said, sound_end
from .evening_checks import Evening, missing

SHEET = """league,Cup,9
club,Anchor,1
club,Köln 07,1
club,Dock United,1
# 2025-08-31
match,Anchor,Köln 07
match,Köln 07,Dock United
# 2025-09-07
match,Dock United,Anchor
match,Anchor,Köln 07
line,1
season
"""
PLAYED = "result,2,2,1\n"
MOVED = "# new date: 3,2026-05-13 (Dock United - Anchor)\n"
AWARD = "# awarded: 2,Köln 07 - Dock United; ineligible player\n"
# the feed so far, what is typed, and what comes after the feed
TAKEN = (
    ("a new date", "", "postpone Dock - Anchor 2026-05-13", MOVED),
    ("a new date in words, with why", "", "postpone Dock - Anchor to 13 May 2026: flood",
     "# new date: 3,2026-05-13 (Dock United - Anchor; flood)\n"),
    ("no date known", "", "postpone Dock - Anchor", "# new date: 3,none (Dock United - Anchor)\n"),
    ("one of two by its date", "", "postpone 2025-09-07 Anchor - Köln 2026-05-13",
     "# new date: 4,2026-05-13 (Anchor - Köln 07)\n"),
    ("one of two by its number", "", "postpone match 4 2026-05-13",
     "# new date: 4,2026-05-13 (Anchor - Köln 07)\n"),
    ("another date", MOVED, "postpone Dock - Anchor 2026-05-20",
     "# new date: 3,2026-05-20 (Dock United - Anchor)\n"),
    ("undo of a date", MOVED, "undo postpone Dock - Anchor",
     "# undo: postpone Dock - Anchor\n# new date: 3,sheet (Dock United - Anchor)\n"),
    ("undo of the second date", MOVED + MOVED.replace("13", "20"),
     "undo postpone Dock - Anchor 2026-05-20",
     "# undo: postpone Dock - Anchor 2026-05-20\n" + MOVED),
    ("an award", "", "award Köln 0-3 Dock: ineligible player", AWARD + "result,2,0,3\n"),
    ("an award by number", "", "award match 4 3:0 (forfeit)",
     "# awarded: 4,Anchor - Köln 07; forfeit\nresult,4,3,0\n"),
    ("an award of a played match", PLAYED, "award Köln 0-3 Dock (ineligible player)",
     AWARD + "fix,2,0,3\n"),
    ("undo of an award", AWARD + "result,2,0,3\n", "undo award Köln - Dock",
     "# undo: award Köln - Dock\nvoid,2\n"),
    ("undo of an award of a played match", PLAYED + AWARD + "fix,2,0,3\n",
     "undo award Köln 0-3 Dock", "# undo: award Köln 0-3 Dock\nfix,2,2,1\n"),
    ("undo of a correction", PLAYED + "fix,2,1,1\n", "undo correct Köln - Dock",
     "# undo: correct Köln - Dock\nfix,2,2,1\n"),
    ("undo of an annulment", PLAYED + "void,2\n", "undo annul Köln - Dock",
     "# undo: annul Köln - Dock\nresult,2,2,1\n"),
    ("a club that withdraws", PLAYED, "withdraw Dock 0-3",
     "# awarded: 3,Dock United - Anchor; Dock United withdrew\nresult,3,0,3\n"),
    ("undo of a withdrawal", PLAYED + "# awarded: 3,Dock United - Anchor; Dock United withdrew\n"
     "result,3,0,3\n", "undo withdraw Dock", "# undo: withdraw Dock United\nvoid,3\n"),
    ("a deduction with why", "", "deduct Köln 6: late fees",
     "# deducted: Köln 07, 6 (late fees)\ndeduct,Köln 07,6\n"),
    ("points from", "", "deduct 2 points from Köln 07", "deduct,Köln 07,2\n"),
    ("of a club with a number", "", "deduct Köln 07 2", "deduct,Köln 07,2\n"),
    ("more points", "deduct,Köln 07,6\n", "deduct Köln 3 more",
     "# deducted: Köln 07, 3 more\ndeduct,Köln 07,9\n"),
    ("more points, points from", "deduct,Köln 07,6\n", "deduct 3 more points from Köln: fees",
     "# deducted: Köln 07, 3 more (fees)\ndeduct,Köln 07,9\n"),
    ("more points for another reason", "# deducted: Köln 07, 3 more (fees)\ndeduct,Köln 07,9\n",
     "deduct Köln 3 more", "# deducted: Köln 07, 3 more\ndeduct,Köln 07,12\n"),
    ("more points once more after an undo", "# deducted: Köln 07, 3 more\ndeduct,Köln 07,9\n# undo: x\n"
     "deduct,Köln 07,6\n", "deduct Köln 3 more",
     "# deducted: Köln 07, 3 more\ndeduct,Köln 07,9\n"),
    ("points in all", "deduct,Köln 07,6\n", "deduct Köln 9 points in all", "deduct,Köln 07,9\n"),
    ("fewer points in all", "deduct,Köln 07,6\n", "deduct Köln 0 in all", "deduct,Köln 07,0\n"),
    ("undo of a deduction", "deduct,Köln 07,6\ndeduct,Köln 07,9\n", "undo deduct Köln",
     "# undo: deduct Köln\ndeduct,Köln 07,6\n"),
    ("undo after an undo that was of a score in play", "deduct,Köln 07,6\n# in play: 2,1,0\n# undo\n"
     "# in play: 2,none\ndeduct,Köln 07,9\n", "undo deduct Köln",
     "# undo: deduct Köln\ndeduct,Köln 07,6\n"),
    ("undo once more", "deduct,Köln 07,6\ndeduct,Köln 07,9\n# undo: deduct Köln\n"
     "deduct,Köln 07,6\n", "undo deduct Köln 07", "# undo: deduct Köln 07\ndeduct,Köln 07,0\n"),
)
# the feed so far, what is typed, the status and what is said
REFUSED = (
    ("a date of a played match", PLAYED, "postpone Köln - Dock 2026-05-13", 2,
     "has the result 2-1 already, so it gets no new date"),
    ("a date that is there", MOVED, "postpone Dock - Anchor 2026-05-13", 0,
     "Dock United - Anchor is on 2026-05-13 already"),
    ("the date of the sheet", "", "postpone Köln - Dock 2025-08-31", 0, "on 2025-08-31 already"),
    ("a day that is not", "", "postpone Köln - Dock 2026-02-31", 2, "write it like 2026-05-13"),
    ("a day in two orders", "", "postpone Köln - Dock 03/04/2026", 2,
     "is the day or the month first in 03/04/2026?"),
    ("one of two", "", "postpone Anchor - Köln 2026-05-13", 2,
     "`match 1` (2025-08-31, open), `match 4` (2025-09-07, open)"),
    ("an award without a score", "", "award Köln - Dock", 2, "the score that was awarded is missi"),
    ("an award that is there", PLAYED, "award Köln 2-1 Dock", 0, "has the score 2-1 already"),
    ("undo of no award", PLAYED, "undo award Köln - Dock", 2, "no such ruling"),
    ("undo of no date", "", "undo postpone Dock - Anchor", 2, "no new date that could be taken"),
    ("undo of no deduction", "", "undo deduct Dock", 2, "no deduction that could be taken back"),
    ("undo of nothing", "", "undo", 2, "write the ruling that is to be taken back"),
    ("a match that is not played", "", "cancel Dock - Anchor", 2,
     "gives nobody anything. If the league awards it, write `award Dock United 3-0 Anchor`"),
    ("both lose", "", "both lose Dock - Anchor", 2, "futmax has no score that both sides lose"),
    ("a withdrawal without more", PLAYED, "withdraw Dock", 2,
     "If its 1 open match is lost by a score and what was played stands, write `withdraw Dock United "
     "0-3`"),
    ("a withdrawal that wins", "", "withdraw Dock 3-0", 2, "which loses: `withdraw Dock United 0-3`"),
    ("a second deduction", "deduct,Köln 07,6\n", "deduct Köln 3", 2,
     "Köln 07 has 6 points off already: `deduct Köln 07 3 more` makes it 9, `deduct Köln 07 3 in "
     "all` makes it 3"),
    ("the same deduction", "deduct,Köln 07,6\n", "deduct Köln 6", 0,
     "Köln 07 has 6 points off already, and this line changes nothing; `deduct Köln 07 6 more` "
     "makes it 12"),
    ("the same more points", "# deducted: Köln 07, 3 more\ndeduct,Köln 07,9\n", "deduct Köln 3 more",
     0, "this line stands already, and Köln 07 has 9 points off in all; if it is another ruling, "
     "write `deduct Köln 07 12 in all`"),
    ("the same correction", PLAYED, "correct Köln 2-1 Dock", 0, "has the score 2-1 already"),
    ("a sign", "", "deduct Dock -3", 2, "without a sign: `deduct Dock United 3`. futmax knows no "
     "points that a club brings with it. If Dock United has 3, take 3 off each of the other 2 "),
    ("points brought forward", "", "credit Dock 3", 2, "take 3 off each of the other 2 clubs"),
    ("no points", "", "deduct Köln 07", 2, "a deduction is written like `deduct Ararat 3`"),
    ("too many points", "deduct,Dock United,90\n", "deduct Dock 10 more", 2, "from 0 to 99"),
    ("a reason that is too long", "", f"deduct Dock 3: {'late ' * 220}", 2, "the reason is too long"),
)


def check_rulings(counter: Counter) -> None:
    """Rulings in a feed, in an evening, and what they make of tonight."""
    with tempfile.TemporaryDirectory() as work:
        sheet, feed = Path(work) / "sheet.csv", Path(work) / "feed.csv"
        sheet.write_text(SHEET, "utf-8")
        words = ["feed", sheet, "--log", feed]
        for name, before, typed, wanted in TAKEN:
            feed.write_text(before, "utf-8")
            run = called(*words, data=(typed + "\n").encode("utf-8"))
            counter.check(f"ruling: {name}", sound_end(run) + (
                [] if run.returncode == 0 and run.stdout.decode("utf-8") == wanted
                else [str(run.stdout + run.stderr, "utf-8")]))
        for name, before, typed, status, says in REFUSED:
            feed.write_text(before, "utf-8")
            run = called(*words, data=(typed + "\n").encode("utf-8"))
            counter.check(f"ruling refused: {name}", sound_end(run) + said(run, status, says) + (
                ["written: " + run.stdout.decode("utf-8")] if run.stdout else []))
        feed.write_text("deduct,Dock United,6\n", "utf-8")
        run = called(*words, data=b"deduct,Dock United,3\n")
        other = called(*words, "--days", "month-first", data=b"postpone match 1 03/04/2026\n")
        counter.check("ruling: a date whose order is told", [] if other.stdout.startswith(
            b"# new date: 1,2026-03-04 (") else [str(other)])
        counter.check("ruling: a record that replaces a total", said(
            run, 0, "line 1: Dock United had 6 points off, and has 3 in all now"))
    _check_lint(counter)
    _check_tonight(counter)
    _check_live(counter)


def _check_lint(counter: Counter) -> None:
    """A new date in a form that nothing goes by is told."""
    for line, is_told in (("# new date: 3,2026-05-13", False), ("# new date: 3,none (x)", False),
                          ("# new date: 9,2026-05-13", True), ("# new date: 3,13.05.2026", True),
                          ("# New date 3,2026-05-13", True)):
        run = called("lint", "-", data=f"{SHEET}{line}\nask\n".encode("utf-8"))
        counter.check(f"lint: {line}", [] if (b"counts for nothing" in run.stdout) == is_told
                      else [run.stdout.decode("utf-8")])


def _check_tonight(counter: Counter) -> None:
    """Which matches come next: without what waits for its day."""
    sheet = read_sheet(SHEET.encode("utf-8"))
    rounds = SHEET.replace("# 2025-08-31", "# Matchday 1").replace("# 2025-09-07", "# Matchday 2")
    both = "# new date: 1,none\n# new date: 2,2026-05-13\n"
    for text, feed, wanted in ((SHEET, "", [1, 2]), (SHEET, both, [3, 4]),
                               (SHEET, "# new date: 1,2026-05-13\n", [2]),
                               (SHEET, both + "# new date: 2,sheet\n", [2]),
                               (rounds, both, [3, 4]), (rounds, "# new date: 1,2026-05-13\n", [2])):
        days = days_of((text + feed).encode("utf-8"), sheet)
        found = [one.number for one in next_matches(sheet, Season(), days)]
        counter.check(f"tonight after {feed!r}", [] if found == wanted else [str(found)])


def _check_live(counter: Counter) -> None:
    """Rulings in an evening: each is echoed, kept, and taken back by `undo` and by its name."""
    with tempfile.TemporaryDirectory() as work:
        evening = Evening(Path(work))
        run = evening.run("postpone Köln - Dock 2026-05-13\nundo\naward Anchor 3-0 Köln: forfeit\n"
                          "deduct Dock 2\ndeduct Dock 1 more\nundo deduct Dock\n")
        counter.check("evening: rulings", missing(
            run, "match 2: Köln - Dock United is on 2026-05-13 now",
            "taken back: match 2: Köln - Dock United is on the date of the sheet again",
            "match 1: Anchor 3-0 Köln noted", "Dock United: 2 points deducted in all (before: 0)",
            "Dock United: 3 points deducted in all (before: 2)",
            "Dock United: 2 points deducted in all (before: 3)"))
        wanted = ("# new date: 2,2026-05-13 (Köln - Dock United)\n# undo\n"
                  "# new date: 2,sheet (Köln - Dock United)\n"
                  "# awarded: 1,Anchor - Köln; forfeit\nresult,1,3,0\ndeduct,Dock United,2\n"
                  "# deducted: Dock United, 1 more\ndeduct,Dock United,3\n# undo: deduct Dock\ndeduct,Dock United,2\n")
        counter.check("evening: the log of rulings",
                      [] if evening.kept() == wanted else [evening.kept()])
        run = evening.run("deduct Dock 5\n", "deduct,Dock United,2\n")
        counter.check("evening: a second deduction", said(run, 2, "`deduct Dock United 5 more`"))
