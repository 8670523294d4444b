"""Input that is no input: a message and a status, never an exception."""

from __future__ import annotations

import random
import tempfile
from pathlib import Path

from leaguelib.answers import BadAnswer, read_report
from leaguelib.bookkeeper import Bookkeeper
from leaguelib.common import Trouble
from leaguelib.feed_lines import made_lines
from leaguelib.lint import looked_at
from leaguelib.matches import read_matches

from .counting import HOME, Counter, called, league, said, sound_end
from .defect_checks import CASES
from .list_checks import CROSS, REFUSED
from .made_checks import FEEDS, MADE, SHEETS
from .mistake import FEED, SHEET
from .mistakes import TABLE
from .shapes import CLUBS, SHAPES, games_of

MOST_RANDOM = 36
MOST_CHANGED = 1500
MOST_HALVED = 120


def check_changed(counter: Counter) -> None:
    """Inputs made of parts of others: whatever they are, a message and no exception."""
    draw = random.Random(12)
    inputs = [mistake.input for mistake in TABLE if len(mistake.input) < 3000]
    lines = [text for _, text, _, _ in FEEDS] + [text for _, text, *_ in SHEETS]
    lines += [CROSS, *(text for _, text, *_ in CASES), *(text for _, text, _ in REFUSED)]
    faults = []
    for _ in range(MOST_CHANGED):
        data = changed(draw, draw.choice(inputs), draw.choice(inputs))
        text = changed(draw, draw.choice(lines).encode("utf-8"), draw.choice(inputs))
        for name, call in (("lint", lambda: looked_at([("input", data)])),
                           ("feed", lambda: made_lines(Bookkeeper(SHEET.encode("utf-8")), text)),
                           ("sheet", lambda: read_matches(text)),
                           ("answer", lambda: read_report(data))):
            try:
                call()
            except (Trouble, BadAnswer):
                pass
            except Exception as fault:  # pylint: disable=broad-except
                faults.append(f"{name}: {fault!r} on {data!r}, {text!r}")
    counter.check(f"{MOST_CHANGED} changed inputs", faults[:3])


def check_halved(counter: Counter) -> None:
    """Fronts and backs of lists of each shape, and those with bytes changed: no exception."""
    draw = random.Random(51)
    games = games_of(CLUBS[:6], 7)
    whole = [data for make in SHAPES.values() for data in make(games)]
    faults = []
    for _ in range(MOST_HALVED):
        data = draw.choice(whole)
        place = draw.randrange(len(data))
        part = data[place:] if draw.random() < 0.5 else data[:place]
        part = changed(draw, part, draw.choice(whole)[:500])
        for name, call in (("sheet", lambda: read_matches(part, "list")),
                           ("feed", lambda: made_lines(Bookkeeper(SHEET.encode("utf-8")), part))):
            try:
                call()
            except Trouble as trouble:
                faults += [] if trouble.message else [f"{name}: no message"]
            except Exception as fault:  # pylint: disable=broad-except
                faults.append(f"{name}: {fault!r} on {part!r}")
    counter.check(f"{MOST_HALVED} halves of lists", faults[:3])


def changed(draw: random.Random, data: bytes, other: bytes) -> bytes:
    """The data with a few places changed, most of them into parts of the other data."""
    result = bytearray(data)
    for _ in range(draw.randrange(6)):
        start, front = draw.randrange(len(result) + 1), draw.randrange(len(other) + 1)
        part = other[front:front + draw.randrange(12)]
        if draw.random() < 0.3:
            part = draw.randbytes(draw.randrange(4))
        result[start:start + draw.randrange(8)] = part
    return bytes(result)


def random_inputs() -> list[bytes]:
    """Random bytes, half files, and files with a few bytes changed; the same at each run."""
    draw = random.Random(2024)
    good = (FEED + "deduct,Anchor,3\nask\n").encode("utf-8")
    inputs = [b"\x00", b"\xff\xfe", b"\xef\xbb\xbf", b"[" * 3000, b",", b'"', b"\n" * 50, b"\r\r\r",
              b"= a\n", b"HomeTeam,AwayTeam\n", b"HomeTeam,AwayTeam\n\x00,\xff\n", b"9" * 1500]
    for _ in range(MOST_RANDOM):
        kind = draw.randrange(4)
        if kind == 0:
            inputs.append(draw.randbytes(draw.randrange(400)))
        elif kind == 1:
            inputs.append(good[:draw.randrange(len(good))])
        elif kind == 2:
            inputs.append(good[draw.randrange(len(good)):])
        else:
            changed = bytearray(good)
            for _ in range(draw.randrange(1, 12)):
                changed[draw.randrange(len(changed))] = draw.randrange(256)
            inputs.append(bytes(changed))
    return inputs


def check_random(counter: Counter) -> None:
    """Whatever stands in the files: a message and a status, never a traceback."""
    with tempfile.TemporaryDirectory() as work:
        odd, sheet, log = (Path(work) / name for name in ("odd", "sheet.csv", "log"))
        sheet.write_text(SHEET, "utf-8")
        calls = (["lint", odd], ["lint", sheet, odd], ["sheet", odd, *MADE], ["feed", odd, sheet],
                 ["feed", sheet, odd], ["feed", sheet, odd, "--log", odd],
                 ["live", odd, log, "--program", "/bin/cat"],
                 ["live", sheet, odd, "--program", "/bin/true"])
        for number, data in enumerate(random_inputs()):
            faults = []
            for words in calls if number % 4 == 0 else calls[number % 8:number % 8 + 1]:
                odd.write_bytes(data)
                run = (league if words[0] == "live" else called)(*words, data=data[:200])
                faults += [f"{words[0]}: {fault}" for fault in sound_end(run)]
            counter.check(f"random input {number}", faults + ([repr(data)] if faults else []))
    missing = called("lint", "/nowhere/sheet.csv")
    counter.check("a file that is not there", sound_end(missing) + said(missing, 4, "cannot be "
                                                                                    "read"))
    folder = called("lint", HOME)
    counter.check("a folder for a file", sound_end(folder) + said(folder, 4, "cannot be read"))
