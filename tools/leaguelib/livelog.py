"""The log of an evening: a feed that is kept line by line, and may grow by another program's hand.

What stands in the file is the evening: a line is written first and taken from the file then, so
that lines of several hands are taken in the order in which they stand there.
"""

from __future__ import annotations

import fcntl
import os
import time
from typing import BinaryIO

from . import common, writing
from .sheet_marks import missing_mark
from .texts import Sheet

PATIENCE_SECONDS = 1.0
GLANCE_SECONDS = 0.02
BESIDE = ".evening"


class LiveLog:
    """The log, open to read and to add to, for one `league live` alone."""

    def __init__(self, path: str) -> None:
        self.path = path
        self.notes: list[str] = []
        self.is_new = not os.path.exists(path)
        self.known = b""
        self._refused: set[int] = set()
        self._stamp: tuple[int, ...] = ()
        self._file = _opened(path)

    def close(self) -> None:
        """Closes the file, and lets others keep it."""
        self._file.close()

    def read(self) -> bytes:
        """All that stands in the log; a last line without its end gets one."""
        data = self._content()
        if data and not data.endswith(b"\n"):
            self._write(b"\n")
            data += b"\n"
        self.known = data
        self._stamp = self._stamp_now()
        return data

    def mark(self, sheet: Sheet) -> None:
        """Adds the mark of the sheet, unless it is there."""
        mark = missing_mark(sheet, self.known)
        if mark:
            self.append(*mark)

    def lines(self) -> int:
        """How many lines were taken so far."""
        return self.known.count(b"\n")

    def refuse(self, line: int) -> None:
        """Notes a line, from 1, that is no line of a feed: whoever takes it out changes nothing."""
        self._refused.add(line)

    def append(self, *lines: str) -> None:
        """Adds lines, down to the disk, all or none; they are taken with the next `grown`."""
        self._wait_for_line_end()
        self._write(b"".join(line.encode("utf-8", "surrogateescape") + b"\n" for line in lines))

    def grown(self) -> list[str]:
        """The whole lines that stand after those taken so far, whoever wrote them."""
        stamp = self._stamp_now()
        if stamp == self._stamp:
            return []
        self._stamp = stamp
        data = self._content_at_path()
        if not self._goes_on(data):
            time.sleep(PATIENCE_SECONDS / 4)
            data = self._content_at_path()
        if not self._goes_on(data):
            self._go_beside()
            return []
        if self._is_replaced():
            self._take_over()
        new = data[len(self.known):]
        new = new[:new.rfind(b"\n") + 1]
        self.known += new
        return [line.decode("utf-8", "surrogateescape").rstrip("\r")
                for line in new.split(b"\n")[:-1]]

    def _goes_on(self, data: bytes) -> bool:
        """Whether the log goes on from what was taken, be it without the refused lines."""
        if data.startswith(self.known):
            return True
        mended = self._mended()
        if not self._refused or not data.startswith(mended):
            return False
        self.known, self._refused = mended, set()
        return True

    def _mended(self) -> bytes:
        """What was taken, without the refused lines."""
        lines = self.known.split(b"\n")
        return b"\n".join(line for number, line in enumerate(lines, 1)
                          if number not in self._refused)

    def _wait_for_line_end(self) -> None:
        """Gives another program some time to write its line to the end, and else ends it."""
        until = time.monotonic() + PATIENCE_SECONDS
        data = self._content()
        while data and not data.endswith(b"\n"):
            if time.monotonic() > until:
                self._write(b"\n")
                return
            time.sleep(GLANCE_SECONDS)
            data = self._content()

    def _content(self) -> bytes:
        self._file.seek(0)
        return self._file.read()

    def _content_at_path(self) -> bytes:
        """What stands under the log's name now, which may be another file."""
        try:
            with open(self.path, "rb") as file:
                return file.read()
        except OSError:
            return b""

    def _write(self, data: bytes) -> None:
        writing.append(self.path, data)

    def _stamp_now(self) -> tuple[int, ...]:
        """What changes when the file does."""
        try:
            state = os.stat(self.path)
        except OSError:
            return (0,)
        return (state.st_dev, state.st_ino, state.st_size, state.st_mtime_ns)

    def _is_replaced(self) -> bool:
        """Whether another file stands under the log's name."""
        own = os.fstat(self._file.fileno())
        return self._stamp_now()[:2] != (own.st_dev, own.st_ino)

    def _take_over(self) -> None:
        """Keeps the file that another program put in the log's place, with all that was there."""
        self._file.close()
        self._file = _opened(self.path)

    def _go_beside(self) -> None:
        """Goes on in a file of its own: what was taken already is no longer what the log has."""
        old, beside = self.path, writing.free_name(self.path + BESIDE)
        self._file.close()
        self.known, self._refused = self._mended(), set()
        writing.replace(beside, self.known)
        self._file = _opened(beside)
        self.path = beside
        self._stamp = self._stamp_now()
        self.notes.append(f"{old}: another program changed or removed lines of it. Nothing is "
                          f"lost: all that was taken is in {beside}, which is the log "
                          "from now on")


def _opened(path: str) -> BinaryIO:
    """The file, open to read and to add to, and locked."""
    try:
        file = open(path, "a+b")
    except OSError as fault:
        raise common.Trouble(f"{path}: cannot be written: {fault.strerror}",
                             common.CANNOT_WRITE) from fault
    try:
        fcntl.flock(file, fcntl.LOCK_EX | fcntl.LOCK_NB)
    except OSError as fault:
        file.close()
        raise common.Trouble(f"{path}: another `league live` keeps this log. Type there, or wait "
                             "for its end",
                             common.CANNOT_WRITE) from fault
    return file
