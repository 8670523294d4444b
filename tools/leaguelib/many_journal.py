"""What is kept of many leagues while they are asked: one file a league, put there whole or not at
all, so that a run that was broken off goes on where it stopped, and no league is counted twice.
"""

from __future__ import annotations

import fcntl
import hashlib
import json
from pathlib import Path
from typing import Iterable

from . import common, writing
from .many_league import Part, part_of


class Journal:
    """A folder of parts. One run at a time works on it; a second one is turned away."""

    def __init__(self, folder: str) -> None:
        self.folder = Path(folder).resolve()
        self.parts = self.folder / "parts"
        self.tasks = self.folder / "tasks"
        try:
            self.parts.mkdir(parents=True, exist_ok=True)
            self.tasks.mkdir(exist_ok=True)
            self._lock = open(self.folder / "lock", "ab")  # held until this run ends
        except OSError as fault:
            raise self._trouble(fault) from fault

    def hold(self) -> None:
        """Takes the journal for this run; raises `Trouble` if another run has it."""
        try:
            fcntl.flock(self._lock, fcntl.LOCK_EX | fcntl.LOCK_NB)
        except BlockingIOError as fault:
            raise common.Trouble(f"{self.folder}: another run works with this journal. Wait for it, "
                                 "or name another one by --journal.", common.CANNOT_WRITE) from fault
        except OSError:
            pass  # a file system without locks
        for path in self.parts.glob(f"{writing.ASIDE}*"):
            path.unlink()
        self._drop_tasks()

    def leave(self) -> None:
        """Closes the lock in a process that was forked, so that it ends with this run alone."""
        self._lock.close()

    def path_of(self, league: str) -> Path:
        """Where the part of a league is kept."""
        name = hashlib.sha256(league.encode("utf-8", "surrogateescape")).hexdigest()[:32]
        return self.parts / f"{name}.json"

    def put(self, part: Part) -> None:
        """Keeps a part; one that was there before goes away at once.

        What a broken machine leaves of a file is no part, and its league is asked again.
        """
        try:
            text = json.dumps(part.as_object()).encode("ascii")
            writing.put_whole(str(self.path_of(part.league)), [text], is_synced=False)
        except OSError as fault:
            raise self._trouble(fault) from fault

    def get(self, league: str) -> Part | None:
        """The part of a league, or none if none is kept, or what is kept is no part."""
        try:
            with open(self.path_of(league), encoding="ascii") as file:
                part = part_of(json.load(file))
        except FileNotFoundError:
            return None
        except (OSError, ValueError, TypeError):
            return None
        return part if part.league == league else None

    def drop(self, leagues: Iterable[str]) -> None:
        """Takes the parts of these leagues away."""
        for league in leagues:
            self.path_of(league).unlink(missing_ok=True)

    def put_tasks(self, lines: Iterable[str], most: int) -> list[Path]:
        """Writes tasks into files of so many lines each, and gives the files."""
        self._drop_tasks()
        every = [f"{line}\n".encode("ascii") for line in lines]
        paths: list[Path] = []
        try:
            for first in range(0, len(every), most):
                paths.append(self.tasks / f"{len(paths) + 1}.json")
                writing.put_whole(str(paths[-1]), every[first:first + most], is_synced=False)
        except OSError as fault:
            raise self._trouble(fault) from fault
        return paths

    def _drop_tasks(self) -> None:
        """Takes tasks of an earlier run away, and nothing else that may stand there."""
        for path in self.tasks.glob("[0-9]*.json"):
            path.unlink()

    def _trouble(self, fault: OSError) -> common.Trouble:
        return common.Trouble(f"{self.folder}: the journal cannot be written: {fault.strerror}. "
                              "Make room, or name another folder by --journal.",
                              common.CANNOT_WRITE)
