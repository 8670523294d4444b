"""A running futmax: it gets a sheet and events, and is started again if it ends."""

from __future__ import annotations

import subprocess
from dataclasses import dataclass, field
from typing import Callable

from . import common
from .answer_end import AnswerEnd


@dataclass
class Ended(Exception):
    """The program ended: its status, and its last row where that is a fault."""

    status: int
    fault: tuple[str, ...] = ()
    lines: list[bytes] = field(default_factory=list)

    @property
    def reason(self) -> str:
        """Why it ended, for people."""
        if not self.fault:
            return f"futmax ended with status {self.status}"
        return f"futmax says `{','.join(self.fault)}`"


class Session:
    """The program with all that was sent to it."""

    def __init__(self, command: list[str], sheet: bytes,
                 make_end: Callable[[], AnswerEnd]) -> None:
        self.command = command
        self.sheet = sheet if sheet.endswith(b"\n") else sheet + b"\n"
        self.make_end = make_end
        self.events: list[bytes] = []
        self.process: subprocess.Popen | None = None

    def start(self) -> None:
        """Starts the program, and sends the sheet and all events so far."""
        self.stop()
        try:
            self.process = subprocess.Popen(self.command, stdin=subprocess.PIPE,
                                            stdout=subprocess.PIPE)
        except OSError as fault:
            raise common.Trouble(f"{self.command[0]} cannot be run: {fault.strerror}",
                                 common.NO_PROGRAM) from fault
        self._write(self.sheet + b"".join(self.events))

    def stop(self) -> int:
        """Closes the program's input, and gives the status with which it ends."""
        if self.process is None:
            return 0
        for pipe in (self.process.stdin, self.process.stdout):
            try:
                pipe.close()
            except OSError:
                pass
        status = self.process.wait()
        self.process = None
        return status

    def _write(self, data: bytes) -> bool:
        """Sends bytes; whether the program took them."""
        try:
            self.process.stdin.write(data)
            self.process.stdin.flush()
            return True
        except OSError:
            return False

    def send(self, line: str) -> bool:
        """Sends an event; where the program has ended it is started again with all of them."""
        data = line.encode("utf-8", "surrogateescape") + b"\n"
        self.events.append(data)
        if self.process.poll() is None and self._write(data):
            return True
        self.start()
        return False

    def ask(self) -> list[bytes]:
        """The lines of the answer to an `ask`; raises `Ended` if the program ends instead."""
        end: AnswerEnd = self.make_end()
        lines: list[bytes] = []
        self._write(b"ask\n")
        while True:
            raw = self.process.stdout.readline()
            if not raw:
                break
            lines.append(raw)
            if end.take(raw.rstrip(b"\r\n")):
                if not end.fault:
                    return lines
                break
        self.process.stdin.close()
        status = self.process.wait()
        raise Ended(status, end.fault, lines)
