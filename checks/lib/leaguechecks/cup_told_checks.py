"""What is said of answers for cups: in sentences, on pages and in an evening, by a program in place
of futmax that tries every finish (`fake_cup.py`).
"""

from __future__ import annotations

import subprocess
import tempfile
from pathlib import Path

from leaguelib.answer_end import AnswerEnd
from leaguelib.answers import read_report
from leaguelib.asking import Asked
from leaguelib.cup_why import CupWhy
from leaguelib.feeds import read_input
from leaguelib.modes import GROUPS
from leaguelib.runners import BEYOND, key_words

from .counting import HOME, Counter, called, league, said, sound_end
from .cup_mistakes import CUP, EARLY, LATE

FAKE = HOME / "checks" / "lib" / "fake_cup.py"
UNSETTLED = """ask,5
verdict,1,Köln,unsettled
["finish","inside"]
["score",6,0,0]
["lots",[1,2,3,4,5,6]]
["group_spent","second_at_least",5,[3,1,-100000,-100000,-100000,-100000,-100000]]
["new_split","home",6]
["open"]
["open"]
verdict,1,Elbe,unsettled
["group_spent","top",5]
["new_split","home",6]
["new_leaf","count"]
["open"]
["group_spent","second_at_most",5,[100000,100000,100000,100000,100000,100000,100000]]
["new_split","home",6]
["new_leaf","in","low",[4]]
["open"]
"""


def check_cups_told(counter: Counter) -> None:
    """All of it."""
    check_cup_answers(counter)
    check_told(counter)
    check_cup_evening(counter)


def check_cup_answers(counter: Counter) -> None:
    """Answers of `groups`: each ends with its last line; unsettled rows tell their questions."""
    data = (CUP + LATE).encode("utf-8")
    for words in ([], ["--proofs"]):
        run = subprocess.run([FAKE, GROUPS, *words], input=data, capture_output=True, check=True)
        faults = []
        for answer in run.stdout.split(b"ask,")[1:]:
            end = AnswerEnd(6, 1, GROUPS, bool(words), (3, 3))
            told = [end.take(raw) for raw in (b"ask," + answer).splitlines()]
            if told.index(True) != len(told) - 1:
                faults.append(f"ends at line {told.index(True) + 1} of {len(told)}")
        counter.check(f"where an answer for a cup ends: {words}", faults)
    report = read_report(UNSETTLED.encode("utf-8"))
    given = read_input((CUP + EARLY).encode("utf-8"))
    why = CupWhy(str(FAKE), (CUP + EARLY).encode("utf-8"), given, 0, [], 2000, lambda row: None)
    asked = Asked(0, 0, given.season_at(0), report.answers[0], 2000)
    texts = [" ".join(why.sentences(row)) if not row.examples else str(row.proofs["outside"])
             for row in report.answers[0].verdicts]
    faults = [f"not said: {says}" for says in (
        "Whether it can qualify is not known: the budget was spent on whether Elbe can end first "
        "in Group Two.", "whether Elbe can end second in Group Two.", "the record `cup`")
        if says not in texts[1]]
    question = report.answers[0].verdicts[0].proofs["outside"].question
    words = key_words(question.key)
    faults += [] if words == "3 points and goal difference +1" else [words]
    faults += [] if asked.unsettled == 2 else [f"unsettled: {asked.unsettled}"]
    faults += [] if key_words((1, 0, 1, 1, 0, 2, 993)) == (
        "1 point, goal difference 0, 1 goal, 1 away goal, 0 wins, 2 away wins and rank 7") else [
        "a whole key"]
    faults += [] if key_words((BEYOND,) * 7).startswith("100000 points") else ["beyond"]
    counter.check("an unsettled row of a cup", faults)


def check_told(counter: Counter) -> None:
    """Sentences and pages of a cup, by the program that tries every finish."""
    with tempfile.TemporaryDirectory() as work:
        early, late = (Path(work) / name for name in ("early.csv", "late.csv"))
        early.write_text(CUP + EARLY, "utf-8")
        late.write_text(CUP + LATE, "utf-8")
        poor, sooner = Path(work) / "poor.csv", Path(work) / "sooner.csv"
        poor.write_text(CUP.replace("2000,1", "1,1") + EARLY, "utf-8")
        sooner.write_text(CUP.replace("Mini,3", "Mini,1") + "result,1,1,0\nresult,2,1,0\n"
                          "result,4,1,0\nresult,5,1,0\nresult,3,1,0\n", "utf-8")
        for name, words, says in (
                ("rows", ["ask", late, "--rows"],
                 "verdict,1,Anchor,clinched\nverdict,1,Köln,clinched\nverdict,1,Dock United,lost\n"
                 "verdict,1,Delta,clinched\nverdict,1,Elbe,lost\nverdict,1,Fjord,lost\n"),
                ("early rows", ["ask", early, "--rows"],
                 "verdict,1,Anchor,clinched\nverdict,1,Köln,possible\nverdict,1,Dock United,lost\n"
                 "verdict,1,Delta,clinched\nverdict,1,Elbe,possible\n"
                 "verdict,1,Fjord,possible\n"),
                ("ask", ["ask", late], "Qualification. In: Anchor, Köln and Delta. Out: Dock "
                 "United, Elbe and Fjord."),
                ("what changed", ["ask", late],
                 "Qualification: Köln open → in; Elbe and Fjord open → out."),
                ("who qualifies", ["ask", late], "The winner of each group and the best runner-up "
                 "qualify."),
                ("tables", ["table", late], "Group Two place club played points to win difference "
                 "1 Delta 2 6 0 +2"),
                ("ranking", ["ask", late], "1 Köln One 3 +1 2 in 2 Elbe Two 3 +0 1 out"),
                ("why first", ["explain", early, "--why", "Anchor"],
                 "Anchor ends first in Group One, however the open matches end. The program's "
                 "check accepts the proof."),
                ("why lost", ["explain", sooner, "--why", "Dock United"],
                 "Dock United ends third or lower in Group One"),
                ("ways", ["explain", early, "--why", "Köln"],
                 "It misses, for example, as second of Group One with 3 points and goal difference "
                 "+1. Of the other runners-up, before it is Fjord of Group Two (3 points and goal "
                 "difference +2)."),
                ("all played", ["explain", late, "--why", "Elbe"], "All matches are played. Elbe "
                 "is second of Group Two with 3 points and goal difference 0. Of the other "
                 "runners-up, before it is Köln of Group One (3 points and goal difference +1)."),
                ("asked again", ["ask", poor], "Some rows were unsettled; asked again with the "
                 "budget 50,000, all are settled."),
                ("unsettled", ["explain", poor, "--budget", "1", "--why", "Elbe"],
                 "Not settled: the program stopped when its budget of 1 steps was spent; this says "
                 "nothing for or against the club. It qualifies, for example, as second of Group "
                 "Two with 3 points and goal difference +2, if this ends Elbe – Fjord 3:0. Of the "
                 "other runners-up, behind it is Köln of Group One (3 points and goal difference "
                 "+1). Whether it can miss is not known: the budget was spent on whether Elbe can "
                 "end third or lower in Group Two."),
                ("board", ["board", late], "The winner of each group and the best runner-up "
                 "qualify."),
                ("a board's reasons", ["board", early], "Dock United ends third or lower in Group "
                 "One, however the open matches end."),
                ("objects", ["ask", late, "--json"],
                 '{"type":"verdict","ask":2,"line":1,"club":"Köln","verdict":"clinched"}')):
            run = called(*words, "--program", FAKE)
            text = " ".join(run.stdout.decode("utf-8").split())
            counter.check("a cup told: " + name, sound_end(run) + (
                [] if run.returncode == 0 and " ".join(says.split()) in text
                else [text, run.stderr.decode("utf-8")]))


def check_cup_evening(counter: Counter) -> None:
    """An evening of a cup: answers, tables as it stands, and what is for leagues alone."""
    with tempfile.TemporaryDirectory() as work:
        sheet, log = Path(work) / "sheet.csv", Path(work) / "log.csv"
        sheet.write_text(CUP, "utf-8")
        log.write_text(EARLY, "utf-8")
        lines = "Elbe ~3-0 Fjord\ntable\ntonight\nElbe 1-0 Fjord\nask\n"
        run = league("live", sheet, log, "--program", FAKE, data=lines.encode("utf-8"))
        text = run.stdout.decode("utf-8") + run.stderr.decode("utf-8")
        faults = [f"not said: {says}" for says in (
            "1  Elbe       Two         3          +2      3", "Elbe, qualification: open → out",
            "Köln, qualification: open → in", "this is a cup") if says not in text]
        counter.check("a cup's evening", sound_end(run) + faults + ([text] if faults else []))
        run = league("live", sheet, log, "--rows", "--proofs", "--program", FAKE, data=b"ask\n")
        counter.check("a cup's rows live", sound_end(run) + said(run, 0, '["group_tree","top"')
                      + said(run, 0, "# end of answer 1, after 6 events"))
        run = league("live", sheet, log, "--rows", "--mode", "table", "--program", FAKE)
        counter.check("a cup's table live", said(run, 1, "is for leagues"))
