"""Slips of an evening: a score in play that is typed as a final, the wrong one of two matches, a
score that can hardly be. The league is that of `evening_checks.py`.
"""

from __future__ import annotations

import tempfile
from pathlib import Path

from .counting import Counter, league, said
from .evening_checks import SHEET, Evening, missing


def check_slips(counter: Counter) -> None:
    """All slips."""
    with tempfile.TemporaryDirectory() as work:
        evening = Evening(Path(work))
        _check_marks(counter, evening)
        _check_played(counter, evening)
        _check_undo(counter, evening)
        _check_limit(counter, evening)
        _check_counts(counter, evening)


def _check_marks(counter: Counter, evening: Evening) -> None:
    """What stands beside a score and says that it is in play, or that the match is open."""
    for mark in ("67'", "45+2'", "(HT)", "HT", "half time", "ht", "(67.)", "90+4", "live"):
        run = evening.run(f"Köln 1-0 Dock United {mark}\nask\n")
        counter.check(f"evening: a score with {mark}", missing(
            run, "match 2: Köln 1-0 Dock United in play, no result", "answer 1, after 0 events, "
            "however the open matches end, with at most 2 goals a side, and however lots are "
            "drawn:") + ([] if evening.kept() == "# in play: 2,1,0\nask\n" else [evening.kept()]))
    for line in ("67' Köln 1-0 Dock United", "HT: Köln 1-0 Dock United", "Köln 1-0 HT Dock United"):
        run = evening.run(line + "\n")
        counter.check(f"evening: `{line}`", missing(
            run, "match 2: Köln 1-0 Dock United in play, no result"))
    for mark in ("abandoned", "(postponed)"):
        run = evening.run(f"Köln 1-0 Dock United {mark}\n")
        counter.check(f"evening: a match that is {mark}", said(
            run, 2, f"refused, not sent: `{mark.strip('()')}` marks the match as open: 1-0 is no "
                    "result. Leave the line out until the match is played"))
    run = evening.run("Köln - Dock United (postponed)\n")
    counter.check("evening: postponed without a score", said(
        run, 2, "refused, not sent: `postponed` marks the match as open. Leave the line out"))


def _check_played(counter: Counter, evening: Evening) -> None:
    """A line for a match that has a result: what may be meant comes before what destroys it."""
    evening.sheet.write_text(SHEET.replace("line,1", "match,Köln,Anchor\nline,1"), "utf-8")
    log = "result,1,2,1\n"
    replaces = "Anchor - Köln (match 1) has the result 2-1 already; `correct Anchor 0-1 Köln` " \
               "would replace it"
    open_first = "refused, not sent: open is Köln - Anchor (match 4): did you mean that? "
    for name, typed, before, says in (
        ("the return match is open", "Anchor 0-1 Köln", log, open_first + replaces),
        ("no other match is open", "Anchor 0-1 Köln", log + "result,4,0,0\n",
         "refused, not sent: " + replaces),
        ("the same result", "Anchor 2-1 Köln", log + "result,4,0,0\n", "refused, not sent: Anchor "
         "- Köln (match 1) has the result 2-1 already: this line can be left out"),
        ("in play after a final typed too early", "Köln ~0-1 Anchor", log + "result,4,0,1\n",
         "Köln - Anchor (match 4) has the result 0-1 already; `undo` takes it back"),
        ("in play of the other match", "Anchor 0-1 Köln 67'", log, open_first + "Anchor - Köln "
         "(match 1) has the result 2-1 already; `undo` takes it back"),
        ("in play of an old result", "Anchor ~0-1 Köln", log + "result,4,0,1\n", "refused, not "
         "sent: Anchor - Köln (match 1) has the result 2-1 already; `annul Anchor - Köln` takes "
         "it back"),
    ):
        run = evening.run(typed + "\n", before)
        counter.check(f"evening: {name}", said(run, 2, says) + (
            [] if evening.kept() == before else [evening.kept()]))
    run = evening.run("correct Anchor 0-1 Köln\n", log)
    counter.check("evening: what was offered is taken", missing(
        run, "match 1: Anchor 0-1 Köln noted (it had 2-1)"))
    evening.sheet.write_text(SHEET, "utf-8")


def _check_undo(counter: Counter, evening: Evening) -> None:
    """Behind a refused line `undo` takes nothing back; once more, it takes the line before."""
    log = "result,1,2,1\n"
    run = evening.run("Ancor 1-0 Köln\nundo\n", log)
    counter.check("slips: undo of a refused line", said(
        run, 2, "the last line was refused, so there is nothing of it to take back; `undo` again "
                "takes back match 1: Anchor 2-1 Köln noted") + (
        [] if evening.kept() == log else [evening.kept()]))
    run = evening.run("Ancor 1-0 Köln\nundo\nundo\n", log)
    counter.check("slips: undo once more", missing(
        run, "taken back: match 1: Anchor - Köln is open again (it had 2-1)"))
    run = evening.run("Ancor 1-0 Köln\nKöln ~1-1 Dock United\nundo\n", log)
    counter.check("slips: undo of a line behind a refused one", missing(
        run, "taken back: match 2: Köln - Dock United has no score in play"))
    run = evening.run("Anchor 0-1 Köln\nAnchor ~0-1 Köln\nundo\nAnchor ~0-1 Köln\n")
    counter.check("slips: undo where a refused line offers it", missing(
        run, "taken back: match 1: Anchor - Köln is open again (it had 0-1)",
        "match 1: Anchor 0-1 Köln in play, no result"))
    run = evening.run("Ancor 1-0 Köln\nundo\n")
    counter.check("slips: undo of a refused line alone", missing(
        run, "the last line was refused, so there is nothing of it to take back"))
    run = evening.run("Köln ~1-0 Dock United\nKöln ~1-1 Dock United\nundo\n")
    counter.check("slips: undo of the second score in play", missing(
        run, "taken back: match 2: Köln 1-0 Dock United in play, no result"))


def _check_limit(counter: Counter, evening: Evening) -> None:
    """A score above the sheet's goal limit of 2 is said, and so is a log that is not there."""
    for typed, above in (("Anchor 12-1 Köln", "12-1"), ("result,1,0,3", "0-3"),
                         ("Anchor ~3-0 Köln", "3-0"),
                         ("result,1,1,1\ncorrect Anchor 1-3 Köln", "1-3")):
        run = evening.run(typed + "\n")
        counter.check(f"slips: {typed}", missing(
            run, f"Anchor {above} Köln is above the goal limit 2 of the sheet: is this meant? It "
                 "was taken all the same"))
    run = evening.run("Anchor 2-1 Köln\n")
    counter.check("slips: within the limit", said(run, 0, "noted") + (
        ["said all the same"] if "goal limit" in run.stdout.decode("utf-8") else []))
    run = league("feed", evening.sheet, data="Anchor 12-1 Köln\n".encode("utf-8"))
    counter.check("slips: above the limit in feed", said(
        run, 0, "line 1: Anchor 12-1 Köln is above the goal limit 2 of the sheet"))
    evening.log.unlink()
    run = league(*evening.words(), data=b"quit\n")
    counter.check("slips: a new log", missing(
        run, f"{evening.log} is not there: a new log is begun"))
    run = league(*evening.words(), data=b"quit\n")
    counter.check("slips: a log that is there", missing(run, "0 events of the log replayed"))


def _check_counts(counter: Counter, evening: Evening) -> None:
    """What is passed over is told in the singular and in the plural."""
    results, still = "Anchor 2-1 Köln\nKöln 0-0 Dock United\n", "Dock United - Anchor\n"
    cross = "Home\tANC\tKÖL\tDOC\nAnchor\t\t2-1\t\nKöln\t\t\t0-0\nDock United\t\t\t\n"
    for lines, says in (
        (results[:16] * 2, "1 result added; 1 was there already"),
        (results * 2, "2 results added; 2 were there already"),
        (results + still, "skipped: 1 match without a score (line 3"),
        (results + still * 2, "skipped: 2 matches without a score (line 3"),
        (results + "Dock United - Anchor postp.\n" * 2, "2 matches without a score (postp.) ("),
        ("Results\n\n" + cross, "1 line outside the cross table (line 1"),
        ("Results\n\n" + cross + "Source: the league\n", "2 lines outside the cross table ("),
    ):
        run = league("feed", evening.sheet, data=lines.encode("utf-8"))
        counter.check(f"slips: {says}", said(run, 0, says))
