"""Cups: refusals in their order, sheets out of groups and lists, feeds by names. Where the program
answers cups, its refusals and rows are compared.
"""

from __future__ import annotations

import random
import re
import subprocess
import tempfile
from pathlib import Path

from leaguelib.feeds import read_input
from leaguelib.lint import refusal_of
from leaguelib.modes import GROUPS

from .counting import HOME, PROGRAM, Counter, called, said, same, sound_end
from .cup_mistakes import CUP, LATE, MISTAKES, REFUSALS
from .lint_checks import PIECES, mistake_faults

MOST_COMPARED = 300
GROUPS_TEXT = "A: a1, a2, a3, a4\nGroup B: b1; b2; b3\n"
LIST_TEXT = """= Small cup
Group A | a1 a2 a3
▪ Group A
Fri Jun 14 2024
a1 2-0 a2
Matchday 2
a2 - a3
a3 - a1
▪ Group B
b1 - b2
b2 - b3
b3 - b1
"""
TABLE_TEXT = "Gruppe,Heim,Gast\nX,a1,a2\nX,a2,a3\nX,a3,a1\nY,b1,b2\nY,b2,b3\nY,b3,b1\n"


def check_cups(counter: Counter) -> None:
    """All of it."""
    check_cup_refusals(counter)
    check_cup_sheets(counter)
    check_cup_feeds(counter)
    if program_knows_groups():
        check_program(counter)


def program_knows_groups() -> bool:
    """Whether the program is built, and answers cups."""
    if not Path(PROGRAM).is_file():
        return False
    run = subprocess.run([PROGRAM, GROUPS], input=b"", capture_output=True, check=False)
    return run.returncode == 2


def last_row(data: bytes) -> str:
    """The row with which the program ends in the mode `groups`, if it is a fault."""
    run = subprocess.run([PROGRAM, GROUPS], input=data, capture_output=True, check=False)
    rows = run.stdout.decode("utf-8", "replace").splitlines()
    return rows[-1] if rows and rows[-1].startswith("fault,") else ""


def check_cup_refusals(counter: Counter) -> None:
    """The refusals in the order of the tests, and what lint says of mistakes."""
    for text, fault in REFUSALS:
        found = str(refusal_of(text.encode("utf-8"), GROUPS) or "")
        counter.check(f"cup refused: {fault} {text[-30:]!r}", [] if found == fault else [found])
    for mistake in MISTAKES:
        counter.check("cup mistake: " + mistake.name, mistake_faults(mistake))
    for name, words, status, says in (
            ("of another mode", ["lint", "-", "--mode", "decide"], 2, "the sheet of a cup"),
            ("tonight", ["tonight", "-"], 1, "which this part does not take"),
            ("scores", ["scores", "-"], 1, "which this part does not take"),
            ("save", ["save", "-"], 1, "which this part does not take")):
        run = called(*words, data=(CUP + "ask\n").encode("utf-8"))
        counter.check("a cup: " + name, sound_end(run) + said(run, status, says))


def check_cup_sheets(counter: Counter) -> None:
    """Sheets out of groups alone, of a text, and of a table; and what cannot be one."""
    with tempfile.TemporaryDirectory() as work:
        groups, given = Path(work) / "groups.txt", Path(work) / "list.txt"
        groups.write_text(GROUPS_TEXT, "utf-8")
        run = called("sheet", "--runners-up", "1", "--groups", groups, "--name", "T",
                     "--no-comments")
        text = run.stdout.decode("utf-8")
        pairs = [frozenset(line.split(",")[1:]) for line in text.splitlines()
                 if line.startswith("match,")]
        counter.check("a cup of groups alone", said(run, 0, "cup,T,9,2000,1\ngroup,A\nclub,a1,1\n")
                      + ([] if len(pairs) == len(set(pairs)) == 9 else [text]))
        for name, source, wanted in (("a text", LIST_TEXT, "AB"), ("a table", TABLE_TEXT, "XY"),
                                     ("lines", re.sub(r".*Group.*\n", "", LIST_TEXT), "AB")):
            given.write_text(source, "utf-8")
            run = called("sheet", "--runners-up", "1", given, "--name", "T", "--no-comments")
            counter.check("a cup out of " + name, same(run, "".join(
                ["cup,T,9,2000,1\n", *[part for letter, club in zip(wanted, "ab") for part in (
                    f"group,{letter}\n", *[f"club,{club}{at},1\n" for at in (1, 2, 3)],
                    *[f"match,{club}{at},{club}{at % 3 + 1}\n" for at in (1, 2, 3)])],
                 "season\n"]).encode("utf-8")))
        for name, more, words, says in (
                ("a final", "▪ Final\na1 - b1\n", ["--runners-up", "1"], "play in two groups"),
                ("a match too few", "", ["--runners-up", "1", "--rounds", "3"], "were added"),
                ("a club of no group", "", ["--runners-up", "1", "--groups", str(groups)],
                 "is not complete"),
                ("lines", "", ["--runners-up", "1", "--lines", "1"], "is for leagues"),
                ("no quota", "", ["--groups", str(groups)], "Say --runners-up"),
                ("all runners-up", "", ["--runners-up", "2"], "a number from 1 to 1")):
            given.write_text(LIST_TEXT + more, "utf-8")
            run = called("sheet", given, *words)
            counter.check("no cup's sheet: " + name, sound_end(run) + said(run, run.returncode,
                                                                           says))
    for name, sizes, matches in (("eight-groups-of-four", [4] * 8, 48),
                                 ("twelve-groups-of-five", [5] * 12, 120)):
        sheet = read_input((HOME / "templates" / f"{name}.csv").read_bytes()).sheet
        run = called("lint", "--sheet-only", HOME / "templates" / f"{name}.csv")
        found = [len(group.clubs) for group in sheet.groups], len(sheet.fixtures)
        counter.check("template of " + name, said(run, 0, "No mistakes found") + (
            [] if found == (sizes, matches) else [str(found)]))


def check_cup_feeds(counter: Counter) -> None:
    """Results by names become fixtures of the whole cup."""
    with tempfile.TemporaryDirectory() as work:
        sheet = Path(work) / "sheet.csv"
        sheet.write_text(CUP, "utf-8")
        lines = "Anchor 1-0 Köln\nElbe - Fjord 2-2\ncorrect Elbe 3-2 Fjord\ndeduct Elbe 3\n"
        run = called("feed", sheet, "--ask", data=lines.encode("utf-8"))
        counter.check("a cup's feed", same(
            run, "result,1,1,0\nresult,6,2,2\nfix,6,3,2\ndeduct,Elbe,3\nask\n".encode("utf-8")))
        run = called("feed", sheet, data="Anchor 1-0 Elbe\n".encode("utf-8"))
        counter.check("a match of two groups", said(run, 2, "has no match Anchor - Elbe"))


def check_program(counter: Counter) -> None:
    """The rows of the program beside those that are wanted, on inputs with pieces changed."""
    for text, fault in REFUSALS:
        found = last_row(text.encode("utf-8"))
        counter.check(f"program on a cup: {fault} {text[-30:]!r}",
                      [] if found == fault else [found])
    draw = random.Random(20)
    pieces = [*PIECES, b"group,Two\n", b"cup,", b"2000,2"]
    good, faults = (CUP + LATE).encode("utf-8"), []
    for _ in range(MOST_COMPARED):
        data = bytearray(good)
        for _ in range(draw.choice((1, 1, 1, 2, 3))):
            start = draw.randrange(len(data) + 1)
            data[start:start + draw.choice((0, 0, 1, 2, 5, 12))] = draw.choice(pieces)
        found = str(refusal_of(bytes(data), GROUPS) or "")
        faults += [] if last_row(bytes(data)) == found else [f"{found}: {bytes(data)!r}"]
    counter.check(f"refusals of {MOST_COMPARED} cups", faults[:3])
    run = subprocess.run([PROGRAM, GROUPS], input=(CUP + LATE).encode("utf-8"),
                         capture_output=True, check=False)
    other = subprocess.run([HOME / "checks" / "cup_reference.py"],
                           input=(CUP + LATE).encode("utf-8"), capture_output=True, check=True)
    rows = [row for row in run.stdout.splitlines() if not row.startswith(b"[")]
    counter.check("the program's rows of a cup", [] if rows == other.stdout.splitlines() else [
        run.stdout.decode("utf-8", "replace")])
