"""How far a task is, on standard error, once it has taken more than two seconds.

    with Progress("places", 80) as progress:
        for question in questions:
            answer(question)
            progress.step()

Without a total only the time so far is told. On a terminal it is one line, written over and taken
away at the end; elsewhere nothing is written, unless it is asked for (`is_wanted`), and then it is
one line every few seconds.
"""

from __future__ import annotations

import math
import sys
import threading
import time
from typing import Callable, TextIO

QUIET_SECONDS = 2.0
TERMINAL_SECONDS = 0.5
LINE_SECONDS = 5.0


def add_progress_argument(parser) -> None:
    """The word that asks for progress where standard error is no terminal."""
    parser.add_argument("--progress", action="store_true",
                        help="report progress on standard error even if that is no terminal")


def progress_text(task: str, done: int, total: int, seconds: float) -> str:
    """How far a task is after so many seconds; the time left as if all steps took alike."""
    if total <= 0:
        return f"{task}: {_time(seconds)} so far"
    text = f"{task}: {min(done, total)} of {total}"
    if not 0 < done <= total:
        return f"{text}, {_time(seconds)} so far"
    return f"{text}, about {_time(seconds * (total - done) / done)} left"


def _time(seconds: float) -> str:
    """Seconds, or minutes and seconds; a begun second counts."""
    whole = math.ceil(seconds)
    return f"{whole} s" if whole < 120 else f"{whole // 60} min {whole % 60} s"


class Progress:
    """Tells how far a task is while it goes on; to be used with `with`."""

    def __init__(self, task: str, total: int = 0, is_wanted: bool = False,
                 stream: TextIO | None = None,
                 clock: Callable[[], float] = time.monotonic, tells_itself: bool = True) -> None:
        self.task = task
        self.total = total
        self.done = 0
        self._stream = sys.stderr if stream is None else stream
        self._clock = clock
        self._is_terminal = self._stream is not None and self._stream.isatty()
        self._is_shown = self._stream is not None and (is_wanted or self._is_terminal)
        self._tells_itself = tells_itself
        self._pause = TERMINAL_SECONDS if self._is_terminal else LINE_SECONDS
        self._start = self._due = 0.0
        self._has_line = False
        self._lock = threading.Lock()
        self._ended = threading.Event()
        self._thread: threading.Thread | None = None

    def __enter__(self) -> Progress:
        self._start = self._clock()
        self._due = self._start + QUIET_SECONDS
        if self._is_shown and self._tells_itself:
            self._thread = threading.Thread(target=self._keep_on, daemon=True)
            self._thread.start()
        return self

    def __exit__(self, *_: object) -> None:
        self._ended.set()
        if self._thread is not None:
            self._thread.join()
        if self._has_line and self._is_terminal:
            self._write("\r\x1b[K")

    def step(self, count: int = 1) -> None:
        """Counts steps that are done."""
        self.done += count

    def tell(self) -> None:
        """Writes how far it is, where that is due."""
        now = self._clock()
        if not self._is_shown or now < self._due:
            return
        self._due = now + self._pause
        text = "league: " + progress_text(self.task, self.done, self.total, now - self._start)
        self._write(f"\r{text}\x1b[K" if self._is_terminal else text + "\n")
        self._has_line = True

    def _keep_on(self) -> None:
        """Tells it again and again until the task is done."""
        while not self._ended.wait(TERMINAL_SECONDS / 2):
            self.tell()

    def _write(self, text: str) -> None:
        """Writes; a closed standard error stops it, and not the task."""
        with self._lock:
            try:
                self._stream.write(text)
                self._stream.flush()
            except (OSError, ValueError):
                self._is_shown = False
