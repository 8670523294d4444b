"""What a long task says while it goes on: nothing at first, then how far it is and how long yet."""

from __future__ import annotations

import io

from leaguelib.progress import Progress, progress_text

from .counting import Counter


class Terminal(io.StringIO):
    """A text that says that it is a terminal."""

    def isatty(self) -> bool:
        return True


class Clock:
    """A clock that is set by hand."""

    def __init__(self) -> None:
        self.now = 100.0

    def __call__(self) -> float:
        return self.now


def check_progress(counter: Counter) -> None:
    """The words, and when they are written."""
    for name, wanted, given in (
        ("half", "places: 40 of 80, about 5 s left", ("places", 40, 80, 5.0)),
        ("a quarter", "places: 1 of 4, about 9 s left", ("places", 1, 4, 3.0)),
        ("nothing yet", "places: 0 of 4, 3 s so far", ("places", 0, 4, 3.0)),
        ("no total", "the answer: 3 s so far", ("the answer", 0, 0, 2.5)),
        ("minutes", "places: 1 of 101, about 5 min 0 s left", ("places", 1, 101, 3.0)),
    ):
        told = progress_text(*given)
        counter.check(f"progress: {name}", [] if told == wanted else [told])
    counter.check("progress: on a terminal", _told(Terminal(), False, [
        "", "\rleague: places: 1 of 4, about 7 s left\x1b[K",
        "\rleague: places: 2 of 4, about 3 s left\x1b[K"], "\r\x1b[K"))
    counter.check("progress: not asked for", _told(io.StringIO(), False, ["", "", ""], ""))
    counter.check("progress: asked for", _told(io.StringIO(), True, [
        "", "league: places: 1 of 4, about 7 s left\n", ""], ""))


def _told(stream: io.StringIO, is_wanted: bool, wanted: list[str], at_end: str) -> list[str]:
    """What is wrong with what is written after 1.9, 2.1 and 2.7 seconds, and at the end."""
    clock = Clock()
    faults = []
    with Progress("places", 4, is_wanted, stream, clock, False) as progress:
        for seconds, steps, text in zip((1.9, 2.1, 2.7), (0, 1, 1), wanted):
            progress.step(steps)
            clock.now = 100.0 + seconds
            before = stream.getvalue()
            progress.tell()
            said = stream.getvalue()[len(before):]
            if said != text:
                faults.append(f"after {seconds} s {said!r}, not {text!r}")
        before = stream.getvalue()
    said = stream.getvalue()[len(before):]
    return faults + ([] if said == at_end else [f"at the end {said!r}, not {at_end!r}"])
