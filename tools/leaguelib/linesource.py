"""Lines from standard input as they come, with a look around while none does."""

from __future__ import annotations

import os
import select
import sys
from typing import Callable

GLANCE_SECONDS = 0.5
PIECE = 1 << 16
MOST_TYPED = 1_025


class LineSource:
    """The lines of a file that is open to read; `wait` calls `look` while no line comes."""

    def __init__(self, look: Callable[[], None], file: int = 0) -> None:
        self._look = look
        self._file = file
        self._rest = b""
        self._has_ended = False

    def wait(self) -> str | None:
        """The next line without its end, or none if there is no further one."""
        while b"\n" not in self._rest and not self._has_ended:
            ready, _, _ = select.select([self._file], [], [], GLANCE_SECONDS)
            if not ready:
                self._look()
                continue
            piece = os.read(self._file, PIECE)
            # of a line that is far too long the front is kept, which is refused
            start, sign, end = piece.partition(b"\n")
            self._rest = (self._rest + start)[:MOST_TYPED] + sign + end
            self._has_ended = not piece
        if not self._rest:
            return None
        line, _, self._rest = self._rest.partition(b"\n")
        return line.decode("utf-8", "surrogateescape")


class Prompt:
    """What stands before a line that is typed; nothing if nobody types."""

    TEXT = "> "

    def __init__(self) -> None:
        self.is_shown = _is_terminal(sys.stdin) and _is_terminal(sys.stdout)

    def show(self) -> None:
        """Writes it."""
        if self.is_shown:
            sys.stdout.write(self.TEXT)
            sys.stdout.flush()

    def leave(self) -> None:
        """Goes to the next line, out of the one that is typed."""
        if self.is_shown:
            sys.stdout.write("\n")
            sys.stdout.flush()


def _is_terminal(stream: object) -> bool:
    return stream is not None and stream.isatty()
