"""Everyday mistakes: what lint says and offers, and what the program says where it is built."""

from __future__ import annotations

import os
import random
import subprocess

from leaguelib.files import examine
from leaguelib.lint import look, looked_at, refusal_of

from .counting import PROGRAM, Counter, called, sound_end
from .mistake import FEED, SHEET, Mistake
from .mistakes import TABLE

MOST_COMPARED = 300
PIECES = (b"", b",", b'"', b"\r", b"\n", b"\xef\xbb\xbf", b"#", b" ", b"0", b"100", b"\x7f",
          b"\xff", b"club,", b"match,", b"line,2\n", b"season\n", b"ask\n", b"result,2,0,0\n",
          b",,\n", b"deduct,Anchor,5\n", b",2000,overall_first", b"x" * 41, b"y" * 1100)


def check_mistakes(counter: Counter) -> None:
    """Each mistake of the table: what lint says, and what the program says."""
    for mistake in TABLE:
        counter.check("mistake: " + mistake.name, mistake_faults(mistake))
    for mistake in TABLE if program_answers() else ():
        counter.check("program: " + mistake.name, program_faults(mistake))
    for mistake in TABLE[::12]:
        run = called("lint", "-", data=mistake.input)
        text, status = looked_at([("standard input", mistake.input)])
        counter.check("command: " + mistake.name, sound_end(run) + (
            [] if (run.stdout.decode(), run.returncode) == (text, status) else ["it says other"]))


def mistake_faults(mistake: Mistake) -> list[str]:
    """What lint should have said and did not."""
    text, status = looked_at([("standard input", mistake.input)])
    wanted = 2 if mistake.fault else 3
    faults = [] if status == wanted else [f"status {status}, not {wanted}"]
    faults += [f"not said: {says}" for says in mistake.says if says.lower() not in text.lower()]
    offered = [line[16:] for line in text.splitlines() if line.startswith(("    write:", " " * 16))]
    faults += [f"not offered: {line}" for line in mistake.writes if line not in offered]
    if mistake.fault and f"`{mistake.fault}`" not in text:
        faults.append(f"not said: {mistake.fault}")
    return faults + (["lint said: " + text] if faults else [])


def check_whens(counter: Counter) -> None:
    """A `when` is right in the mode `whatif`, and in no other one."""
    played = SHEET + "result,1,2,1\n"
    for name, text, mode, status, says in (
            ("right", played + "ask\nwhen,2\nwhen,02\n", "whatif", 0, ""),
            ("none", played + "ask\n", "whatif", 3, "the feed has no `when`"),
            ("in verdicts", played + "when,2\nask\n", "verdicts", 2, "`league lint --mode whatif`"),
            ("played", played + "when,1\n", "whatif", 2, "nothing is open in it"),
            ("too many fields", played + "when,2,0\n", "whatif", 2, "    write:      when,2"),
            ("a date", played + "when,2024-05-09,2\n", "whatif", 2, "    write:      when,2"),
            ("names", played + "when,Anchor,Köln\nwhen,Köln - Dock\n", "whatif", 2,
             "you wrote:  when,Köln - Dock\n    write:      when,2"),
            ("no number", played + "when,99\n", "whatif", 2, "there is no fixture 99")):
        told, ended = looked_at([("standard input", text.encode())], mode=mode)
        faults = [] if ended == status else [f"status {ended}, not {status}"]
        counter.check("lint of a when: " + name, faults + (
            [] if says.lower() in told.lower() and not faults else [told]))


def program_answers() -> bool:
    """Whether the program is built, and knows deductions and the order of the criteria."""
    if not os.access(PROGRAM, os.X_OK):
        return False
    probe = SHEET.replace("Cup,9", "Cup,9,2000,overall_first") + "deduct,Anchor,1\nask\n"
    run = subprocess.run([PROGRAM, "table"], input=probe.encode(), capture_output=True, check=False)
    return run.returncode == 0


def program_faults(mistake: Mistake) -> list[str]:
    """What the program says other than the table."""
    run = subprocess.run([PROGRAM, "table"], input=mistake.input, capture_output=True, check=False)
    rows = run.stdout.decode("utf-8", "replace").splitlines()
    last = rows[-1] if rows and rows[-1].startswith("fault,") else ""
    return [] if last == mistake.fault else [f"the program says {last or 'no fault'}"]


def check_mended(counter: Counter) -> None:
    """Each mistake for which lint offers lines all through is mended by them."""
    mended = 0
    for mistake in TABLE:
        file = examine(mistake.input)
        findings = look(file.data).findings if file.is_readable else []
        if not findings or not all(one.instead or one.is_dropped for one in findings):
            continue
        instead: dict[int, list[str]] = {}
        for one in findings:
            instead[one.line] = instead.get(one.line) or one.instead
        lines = file.data.decode("utf-8", "surrogateescape").removesuffix("\n").split("\n")
        text = ""
        for number in range(1, max(len(lines), *instead) + 1):
            kept = lines[number - 1:number] if number not in instead else instead[number]
            text += "".join(line + "\n" for line in kept)
        again = look(text.encode("utf-8", "surrogateescape")).findings
        mended += 1
        counter.check("mended: " + mistake.name, [one.message for one in again])
    counter.check("most mistakes are mended by what lint offers",
                  [] if mended >= 60 else [f"{mended} of {len(TABLE)}"])


def check_offers(counter: Counter) -> None:
    """A feed with many mistakes, put right as lint offers, has none left."""
    data = (SHEET + "result,1,5-1\nresult,Köln,dock united,2,2\nresult,1,5,2\nvoid,3\nASK\n"
            "deduct,Ancor,-3\nask\n")
    run = called("lint", "-", data=data.encode())
    offered = [line[16:] for line in run.stdout.decode().splitlines()
               if line.startswith("    write:") and "leave the line out" not in line]
    mended = SHEET + "".join(line + "\n" for line in offered) + "ask\n"
    again = called("lint", "-", data=mended.encode())
    counter.check("a feed put right as lint offers", sound_end(run) + (
        [] if again.returncode in (0, 3) and len(offered) == 5 else [again.stdout.decode()]))


def check_refusals(counter: Counter) -> None:
    """The rows of the program, and those that lint tells, on inputs with a few pieces changed."""
    draw = random.Random(7)
    good = (FEED + "fix,1,0,0\ndeduct,Köln,2\nvoid,1\nresult,2,3,3\nask\n").encode("utf-8")
    faults = []
    for _ in range(MOST_COMPARED):
        data = bytearray(good)
        for _ in range(draw.choice((1, 1, 1, 2, 3))):
            start = draw.randrange(len(data) + 1)
            data[start:start + draw.choice((0, 0, 1, 2, 5, 12))] = draw.choice(PIECES)
        found = refusal_of(bytes(data))
        wrong = Mistake("", bytes(data), str(found) if found else "", ())
        faults += [f"{fault}: {bytes(data)!r}" for fault in program_faults(wrong)]
    counter.check(f"refusals of {MOST_COMPARED} inputs", faults[:3])
