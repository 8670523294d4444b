"""The log of an evening in other hands: lines that another program adds, a log that is cut or put
in place of another, an evening that is stopped, and the prompt, which only a terminal has.
"""

from __future__ import annotations

import os
import pty
import select
import signal
import subprocess
import sys
import tempfile
import time
from pathlib import Path

from .counting import LEAGUE, Counter, unmarked
from .evening_checks import Evening

PATIENCE = 20.0


class Running:
    """The command while it runs: what is typed, and what it has said so far."""

    def __init__(self, evening: Evening, has_terminal: bool = False) -> None:
        self.evening = evening
        evening.log.write_text("", "utf-8")
        words = [sys.executable, str(LEAGUE), *map(str, evening.words())]
        self.input, end = pty.openpty() if has_terminal else (None, subprocess.PIPE)
        # what runs after `&` in a shell passes Ctrl-C over, and so would the command
        self.process = subprocess.Popen(
            words, stdin=end, stdout=end, stderr=subprocess.STDOUT,
            preexec_fn=lambda: signal.signal(signal.SIGINT, signal.SIG_DFL))
        if has_terminal:
            os.close(end)
            self.output = self.input
        else:
            self.input, self.output = self.process.stdin.fileno(), self.process.stdout.fileno()
        self.said = ""
        self.faults: list[str] = []
        self.hears("can be typed" if has_terminal else "replayed\n")

    def type(self, text: str) -> None:
        """Types a line."""
        os.write(self.input, text.encode("utf-8") + b"\n")

    def add(self, text: str) -> None:
        """Adds to the log, as another program does."""
        with open(self.evening.log, "a", encoding="utf-8") as log:
            log.write(text)

    def hears(self, wanted: str) -> None:
        """Waits until the command has said this after what it was heard to say before."""
        until = time.monotonic() + PATIENCE
        while wanted not in self.said:
            ready, _, _ = select.select([self.output], [], [], max(0.0, until - time.monotonic()))
            piece = os.read(self.output, 1 << 16) if ready else b""
            if not piece:
                self.faults.append(f"not said: {wanted}; but: {self.said}")
                return
            self.said += piece.decode("utf-8", "replace")
        self.said = self.said[self.said.index(wanted) + len(wanted):]

    def ends(self, status: int) -> None:
        """Waits for the end, which has to have this status."""
        if self.process.stdin is not None:
            self.process.stdin.close()
        found = self.process.wait(timeout=PATIENCE)
        if found != status:
            self.faults.append(f"status {found}, not {status}")
        if self.process.stdout is not None:
            self.process.stdout.close()

    def keeps(self, path: Path, wanted: str) -> None:
        """What a file has to hold."""
        found = unmarked(path.read_text("utf-8")) if path.exists() else "no file"
        if found != wanted:
            self.faults.append(f"{path.name} holds {found!r}, not {wanted!r}")


def mark_in(log: Path) -> str:
    """The three lines with which the log begins, the mark of its sheet."""
    return "".join(log.read_text("utf-8").splitlines(keepends=True)[:3])


def check_log(counter: Counter) -> None:
    """All looks at a log in other hands."""
    for name, check in (("lines of another program", _grows), ("a refused line", _refused_line),
                        ("a line that is never ended", _half_line),
                        ("another file in its place", _replaced), ("a log that is cut", _cut),
                        ("stopped by hand", _stopped)):
        with tempfile.TemporaryDirectory() as work:
            running = Running(Evening(Path(work)))
            check(running, running.evening.log)
            counter.check(f"log: {name}", running.faults)
    with tempfile.TemporaryDirectory() as work:
        running = Running(Evening(Path(work)), has_terminal=True)
        _terminal(running)
        counter.check("log: the prompt of a terminal", running.faults)
        os.close(running.input)


def _grows(running: Running, log: Path) -> None:
    """Lines of another program are taken, echoed and answered, whole ones alone."""
    running.type("Anchor 2-1 Köln")
    running.hears("match 1: Anchor 2-1 Köln noted")
    running.add("# in play: 3,1,1\nresult,2,0,0\nask\nresult,3,")
    running.hears("log.csv, line 5: match 3: Dock United 1-1 Anchor in play, no result")
    running.hears("log.csv, line 6: match 2: Köln 0-0 Dock United noted")
    running.hears("answer 1, after 2 events, ")
    running.add("2,2\n")
    running.hears("log.csv, line 8: match 3: Dock United 2-2 Anchor noted")
    running.type("ask")
    running.hears("answer 2, after 3 events:\n  Anchor, first place: open → in\n")
    running.ends(0)
    running.keeps(log, "result,1,2,1\n# in play: 3,1,1\nresult,2,0,0\nask\nresult,3,2,2\nask\n")


def _refused_line(running: Running, log: Path) -> None:
    """A line that futmax would refuse is told with its number, and may be taken out."""
    running.add("result,1,2,1\nresult,1,2,1\n")
    running.hears("log.csv, line 5, `result,1,2,1`: not taken: Fixture 1 has this result already")
    log.write_text(mark_in(log) + "result,1,2,1\n", "utf-8")
    time.sleep(0.7)
    running.type("Köln 0-0 Dock United")
    running.hears("match 2: Köln 0-0 Dock United noted")
    running.ends(2)
    running.keeps(log, "result,1,2,1\nresult,2,0,0\n")


def _half_line(running: Running, log: Path) -> None:
    """A line that its program does not end is ended after a second, and refused for itself."""
    running.add("result,3,")
    running.type("Anchor 2-1 Köln")
    running.hears("log.csv, line 4, `result,3,`: not taken: ")
    running.hears("match 1: Anchor 2-1 Köln noted")
    running.ends(2)
    running.keeps(log, "result,3,\nresult,1,2,1\n")


def _replaced(running: Running, log: Path) -> None:
    """A file that goes on where the log ended may take its place, as editors do it."""
    running.type("Anchor 2-1 Köln")
    running.hears("noted\n")
    other = log.with_name("other.csv")
    other.write_text(mark_in(log) + "result,1,2,1\nfix,1,2,2\n", "utf-8")
    other.replace(log)
    running.hears("log.csv, line 5: match 1: Anchor 2-2 Köln noted (it had 2-1)")
    running.type("undo")
    running.hears("taken back: match 1: Anchor 2-1 Köln noted (it had 2-2)")
    running.ends(0)
    running.keeps(log, "result,1,2,1\nfix,1,2,2\n# undo\nfix,1,2,1\n")


def _cut(running: Running, log: Path) -> None:
    """Where lines are gone that were taken, the evening says so and goes on beside."""
    running.type("Anchor 2-1 Köln")
    running.hears("noted\n")
    log.write_text("result,2,1,1\n", "utf-8")
    running.hears("another program changed or removed lines of it. Nothing is lost: all that was "
                  f"taken is in {log}.evening")
    running.type("Köln 0-0 Dock United")
    running.hears("match 2: Köln 0-0 Dock United noted")
    running.ends(0)
    running.keeps(log, "result,2,1,1\n")
    running.keeps(Path(f"{log}.evening"), "result,1,2,1\nresult,2,0,0\n")


def _stopped(running: Running, log: Path) -> None:
    """Ctrl-C loses nothing, and says where it is."""
    running.type("Anchor 2-1 Köln\nKöln ~1-0 Dock United")
    running.hears("in play")
    running.process.send_signal(signal.SIGINT)
    running.hears(f"stopped by hand. {log} keeps 1 event; `league live` goes on with it")
    running.ends(130)
    running.keeps(log, "result,1,2,1\n# in play: 2,1,0\n")


def _terminal(running: Running) -> None:
    """The prompt stands before each line, also after a line of another program."""
    running.hears("\r\n> ")
    running.type("Anchor 2-1 Köln")
    running.hears("noted\r\n> ")
    running.add("deduct,Anchor,3\n")
    running.hears("line 5: Anchor: 3 points deducted in all (before: 0)\r\n> ")
    running.type("wrong")
    running.hears("line 2, `wrong`: refused, not sent")
    running.hears("> ")
    running.type("quit")
    running.hears("log.csv keeps 2 events")
    running.ends(0)
