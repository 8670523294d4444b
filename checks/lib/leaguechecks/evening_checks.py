"""An evening with `league live` in words: what is echoed, what an ask says, what is taken back.

The league has three clubs and three matches, and two goals a side at most; the program is
`slow_program.py`, which tries every finish. What is expected was worked out by hand: after
Anchor 2-1 Köln all three can still be first; after Köln 0-0 Dock United, Köln has a point and no
match, and Anchor or Dock United gets two more at least in the last match.
"""

from __future__ import annotations

import subprocess
import tempfile
from pathlib import Path

from .counting import Counter, league, said, sound_end, unmarked

SLOW = Path(__file__).resolve().parent / "slow_program.py"
SHEET = """league,Cup,2
club,Anchor,1
club,Köln,1
club,Dock United,1
match,Anchor,Köln
match,Köln,Dock United
match,Dock United,Anchor
line,1
season
"""


def check_evening(counter: Counter) -> None:
    """All looks at an evening in words."""
    with tempfile.TemporaryDirectory() as work:
        evening = Evening(Path(work))
        _check_echo(counter, evening)
        _check_answers(counter, evening)
        _check_undo(counter, evening)
        _check_in_play(counter, evening)
        _check_lines(counter, evening)
        _check_tonight(counter, evening)
        _check_words(counter, evening)


class Evening:
    """A sheet and a log in a folder, and the command upon them."""

    def __init__(self, folder: Path) -> None:
        self.sheet, self.log = folder / "sheet.csv", folder / "log.csv"
        self.sheet.write_text(SHEET, "utf-8")

    def words(self, *more: object) -> list[object]:
        """The words of the command."""
        return ["live", self.sheet, self.log, "--program", SLOW, *more]

    def run(self, typed: str, log: str = "", more: tuple = ()) -> subprocess.CompletedProcess:
        """Runs it on a log that holds this, with these lines typed."""
        self.log.write_text(log, "utf-8")
        return league(*self.words(*more), data=typed.encode("utf-8"))

    def kept(self) -> str:
        """What the log holds."""
        return unmarked(self.log.read_text("utf-8"))


def lines_of(run: subprocess.CompletedProcess) -> list[str]:
    return run.stdout.decode("utf-8").splitlines()


def missing(run: subprocess.CompletedProcess, *wanted: str) -> list[str]:
    """Which of these lines standard output has not, in this order."""
    rest = iter(lines_of(run))
    faults = [f"no line: {line}" for line in wanted if line not in rest]
    return sound_end(run) + faults + (lines_of(run) if faults else [])


def _check_echo(counter: Counter, evening: Evening) -> None:
    """Each line is echoed; a refused one is quoted, with its number."""
    run = evening.run("Anchor 2-1 Köln\n\ncorrect Anchor 2-2 Köln\nannul Anchor - Köln\n"
                      "deduct Dock United 1\n")
    counter.check("evening: each line is echoed", missing(
        run, "match 1: Anchor 2-1 Köln noted", "match 1: Anchor 2-2 Köln noted (it had 2-1)",
        "match 1: Anchor - Köln is open again (it had 2-2)",
        "Dock United: 1 point deducted in all (before: 0)"))
    run = evening.run("Anchor 2-1 Köln\n\nAncor 1-0 Köln\nwhat now\n")
    counter.check("evening: a refused line is quoted", said(
        run, 2, "line 3, `Ancor 1-0 Köln`: refused, not sent: no club is called `Ancor`; the "
                "nearest name is `Anchor`"))
    counter.check("evening: so is each of them", said(
        run, 2, "line 4, `what now`: refused, not sent: this is not understood"))
    kept = "result,1,2,1\n"
    counter.check("evening: it is not kept", [] if evening.kept() == kept else [evening.kept()])


def _check_answers(counter: Counter, evening: Evening) -> None:
    """An ask says what changed since the last one, be it in the log of another evening."""
    run = evening.run("Anchor 2-1 Köln\nask\nask\nKöln 0-0 Dock United\nask\nrows\n")
    counter.check("evening: what changed", missing(
        run, "answer 1, after 1 event, however the open matches end, with at most 2 goals a side, "
             "and however lots are drawn:",
        "  First place - open: Anchor, Köln and Dock United",
        "answer 2, after 1 event:", "  nothing changed since the last ask",
        "answer 3, after 2 events:", "  Köln, first place: open → out",
        "verdict,1,Anchor,possible", "verdict,1,Köln,lost", "verdict,1,Dock United,possible"))
    counter.check("evening: one change alone", [] if sum("→" in it for it in lines_of(run)) == 1
                  else lines_of(run))
    run = evening.run("ask\n", "result,1,2,1\nask\nresult,2,0,0\n")
    counter.check("evening: since the last ask of the log", missing(
        run, "2 events of the log replayed", "answer 1, after 2 events:",
        "  Köln, first place: open → out"))


def _check_undo(counter: Counter, evening: Evening) -> None:
    """The last line is taken back by records of the feed, one after the other."""
    for name, typed, kept, echo in (
        ("a result", "Anchor 2-1 Köln", "void,1",
         "taken back: match 1: Anchor - Köln is open again (it had 2-1)"),
        ("a correction", "result,1,0,0\ncorrect Anchor 2-1 Köln", "fix,1,0,0",
         "taken back: match 1: Anchor 0-0 Köln noted (it had 2-1)"),
        ("an annulment", "result,1,1,0\nannul Anchor - Köln", "result,1,1,0",
         "taken back: match 1: Anchor 1-0 Köln noted"),
        ("a deduction", "deduct Köln 2\ndeduct Köln 5 in all", "deduct,Köln,2",
         "taken back: Köln: 2 points deducted in all (before: 5)"),
        ("the first deduction", "deduct Köln 2", "deduct,Köln,0",
         "taken back: Köln: 0 points deducted in all (before: 2)"),
    ):
        run = evening.run(typed + "\nundo\n")
        faults = missing(run, echo)
        if evening.kept().splitlines()[-2:] != ["# undo", kept]:
            faults.append(evening.kept())
        counter.check(f"evening: undo of {name}", faults)
    run = evening.run("undo\nundo\nundo\n", "result,1,2,1\nfix,1,2,2\n")
    faults = said(run, 2, "line 3, `undo`: refused, not sent: there is nothing to take back")
    wanted = "result,1,2,1\nfix,1,2,2\n# undo\nfix,1,2,1\n# undo\nvoid,1\n"
    faults += [] if evening.kept() == wanted else [evening.kept()]
    counter.check("evening: undo of what the log had", faults)
    run = evening.run("undo\n", wanted)
    counter.check("evening: what was taken back is not taken back again", said(
        run, 2, "there is nothing to take back"))


def _check_in_play(counter: Counter, evening: Evening) -> None:
    """A score in play is no result: an ask does not count it, and the table shows both."""
    run = evening.run("Anchor 2-1 Köln\nask\nKöln ~0-0 Dock United\nask\ntable\n")
    counter.check("evening: in play", missing(
        run, "match 2: Köln 0-0 Dock United in play, no result", "answer 2, after 1 event:",
        "  nothing changed since the last ask",
        "  1 score in play is not counted; `table` shows how it stands with them",
        "place  club         played  points  difference  goals",
        "    1  Anchor            1       3          +1      2",
        "as it stands, if Köln – Dock United 0:0 were the end:",
        "    1  Anchor            1       3          +1      2",
        "    2  Dock United       1       1           0      0",
        "    3  Köln              2       1          -1      1",
        "Köln, first place: open → out"))
    log = evening.kept()
    wanted = "result,1,2,1\nask\n# in play: 2,0,0\nask\n"
    counter.check("evening: it is a comment of the log", [] if log == wanted else [log])
    run = evening.run("table\nKöln 1-0 Dock United\ntable\nundo\ntable\n", log)
    counter.check("evening: a later evening has it too", missing(
        run, "as it stands, if Köln – Dock United 0:0 were the end:",
        "match 2: Köln 1-0 Dock United noted",
        "taken back: match 2: Köln - Dock United is open again (it had 1-0)",
        "as it stands, if Köln – Dock United 0:0 were the end:"))
    counts = sum(line.startswith("as it stands") for line in lines_of(run))
    counter.check("evening: a result ends it", [] if counts == 2 else lines_of(run))
    for form in ("~Köln 1-0 Dock United", "Köln 1-0~ Dock United", "Köln 1-0 Dock United ~",
                 "~ result,2,1,0"):
        run = evening.run(form + "\nundo\n")
        counter.check(f"evening: `{form}`", missing(
            run, "match 2: Köln 1-0 Dock United in play, no result",
            "taken back: match 2: Köln - Dock United has no score in play"))
    evening.sheet.write_text(SHEET.replace("Anchor", "An~chor"), "utf-8")
    run = evening.run("An~chor 2-1 Köln\n")
    counter.check("evening: a name with a tilde", missing(
        run, "match 1: An~chor 2-1 Köln noted"))
    evening.sheet.write_text(SHEET, "utf-8")
    run = evening.run("~ Köln - Dock United\n")
    counter.check("evening: in play wants a score", said(run, 2, "line 1, `~ Köln - Dock United`"))


def _check_tonight(counter: Counter, evening: Evening) -> None:
    """What a match decides with each of its scores: `checks/page` has it worked out by hand."""
    run = evening.run("tonight\n", "result,1,2,1\n")
    counter.check("evening: tonight", missing(
        run, "of 2 matches, each by itself, whatever its score up to 2 goals a side and however "
             "the other open matches end:",
        "  Köln - Dock United, if it is a draw: Köln, first place: out",
        "  Köln - Dock United, if Dock United wins: Köln, first place: out",
        "  Dock United - Anchor, if it is a draw: Köln, first place: out",
        "  Dock United - Anchor, if Anchor wins: Anchor, first place: in; Köln, first place: "
        "out; Dock United, first place: out"))
    counter.check("evening: what one match decides", missing(
        evening.run("when dock - anchor\nwhen,2\n", "result,1,2,1\n"),
        "of 1 match, each by itself, whatever its score up to 2 goals a side and however the other "
        "open matches end:",
        "  Dock United - Anchor, if it is a draw: Köln, first place: out",
        "  Köln - Dock United, if it is a draw: Köln, first place: out"))
    asked = evening.run("when,1\nwhen Köln\nwhen,7\n", "result,1,2,1\n")
    for says in ("line 1, `when,1`: refused, not sent: This match has a result already; nothing",
                 "line 2, `when Köln`: refused, not sent: a match is asked about like `when ",
                 "There is no fixture 7"):
        counter.check("evening: a match that cannot be asked about", said(asked, 2, says))
    counter.check("evening: a question is not kept", [] if evening.kept() == "result,1,2,1\n"
                  else [evening.kept()])
    rows = evening.run("when,2\n", "result,1,2,1\nwhen,3\n", more=("--rows",))
    lines = rows.stdout.decode("utf-8").splitlines()
    counter.check("evening: rows of a when", sound_end(rows) + (
        [] if lines[0] == "when,1,2,home" and lines[-1] == "# end of answer 1, after 1 event"
        else lines))
    counter.check("evening: no more than that", [] if sum("first place" in it for it in lines_of(run)) == 4
                  else lines_of(run))


def _check_lines(counter: Counter, evening: Evening) -> None:
    """Lines go by their names, and one that only a comment has is asked as well."""
    evening.sheet.write_text(SHEET.replace("line,1", "# line 1: Cup\nline,1\n# line 2"), "utf-8")
    run = evening.run("Anchor 2-1 Köln\nask\nKöln 0-0 dock\nask\n")
    counter.check("evening: names of lines", missing(
        run, "  Cup (first place) - open: Anchor, Köln and Dock United",
        "  The top 2 - open: Anchor, Köln and Dock United",
        "match 2: Köln 0-0 Dock United noted", "  Köln, Cup (first place): open → out",
        "  Anchor, the top 2: open → in"))
    evening.sheet.write_text(SHEET, "utf-8")


def _check_words(counter: Counter, evening: Evening) -> None:
    """The other words, and what they need."""
    run = evening.run("rows\n")
    counter.check("evening: rows of nothing", said(run, 2, "nothing was asked so far"))
    run = evening.run("help\nquit\nAnchor 2-1 Köln\n")
    counter.check("evening: help", missing(
        run, "quit                          end the evening; the log keeps everything"))
    faults = [] if evening.kept() == "" else [evening.kept()]
    counter.check("evening: quit ends it", faults + said(run, 0, "log.csv keeps 0 events"))
    run = evening.run("", more=("--mode", "table"))
    counter.check("evening: a mode has rows", said(run, 1, "--mode and --proofs need --rows"))
    run = evening.run("ask\n", "result,9,1,0\n")
    counter.check("evening: a log that is none", said(run, 2, "log.csv, line 1: "))
    run = evening.run("Anchor 2-1 Köln\nundo\nask\nquit\nask\n", more=("--rows",))
    rows = run.stdout.decode("utf-8")
    wanted = "ask,2\nverdict,1,Anchor,possible\n"
    counter.check("evening: rows echo nothing", sound_end(run) + (
        [] if rows.startswith(wanted) and rows.endswith("# end of answer 1, after 2 events\n")
        else [rows]))
