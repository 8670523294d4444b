"""Many leagues on this machine: as many workers as processors, each a process of its own.

Workers are forked, so that none has to start Python and to read its modules once more. A process
that forks has one thread alone: this one hands leagues out, and sleeps until a worker answers.
"""

from __future__ import annotations

import json
import os
import selectors
import socket
from collections import deque
from typing import BinaryIO, Callable

from . import common
from .cli import status_of
from .many_league import Part, Settings, answered, part_of
from .many_list import Task
from .many_worker import TRIES, text_of

Taker = Callable[[Part], None]
TELL_SECONDS = 0.25


class Worker:
    """A worker's process, and the number of the league that it answers."""

    def __init__(self) -> None:
        self.number = self.tries = self.process = 0
        self.end: socket.socket | None = None
        self.line: BinaryIO | None = None

    def start(self, serve: Callable[[BinaryIO], int]) -> None:
        """Forks a process that serves the other end of a line to here."""
        self.end, there = socket.socketpair()
        self.process = os.fork()
        if self.process == 0:
            status = common.OWN_FAULT
            try:
                self.end.close()
                status = status_of(lambda: serve(there.makefile("rwb")))
            finally:
                os._exit(status)  # nothing of the other process is to be ended here
        there.close()
        self.line = self.end.makefile("rwb")

    def ask(self, number: int) -> None:
        """Hands a league to the process."""
        self.number = number
        try:
            self.line.write(b"%d\n" % number)
            self.line.flush()
        except OSError:
            pass  # it has ended, and so gives no part

    def part(self) -> Part | None:
        """The part of its league, or none if it ended over it."""
        try:
            return part_of(json.loads(self.line.readline()))
        except (OSError, ValueError, TypeError):
            return None

    def leave(self) -> None:
        """Closes the line to the process, which ends where its input does."""
        if self.line is not None:
            self.end.close()
            try:
                self.line.close()
            except OSError:
                pass  # it ended before it took its league
            self.line = None

    def stop(self) -> None:
        """Ends the process."""
        if self.line is not None:
            self.leave()
            os.waitpid(self.process, 0)


class Workers:
    """The workers, and the leagues that wait; `leave` closes what no worker is to hold open."""

    def __init__(self, tasks: list[Task], settings: Settings, jobs: int,
                 leave: Callable[[], None]) -> None:
        self.tasks = tasks
        self.settings = settings
        self.waiting = deque(range(len(tasks)))
        self.leave = leave
        self.ready = selectors.DefaultSelector()
        self.all = [Worker() for _ in range(jobs)]

    def hand_out(self, worker: Worker) -> None:
        """Gives a worker the next league, if there is one."""
        if self.waiting:
            worker.tries = 0
            self.ask(worker, self.waiting.popleft())

    def ask(self, worker: Worker, number: int) -> None:
        """Has a league answered, by a new process where there is none."""
        if worker.line is None:
            worker.start(self.serve)
        worker.tries += 1
        worker.ask(number)
        self.ready.register(worker.end, selectors.EVENT_READ, worker)

    def answer_of(self, worker: Worker) -> Part | None:
        """The part that a worker gives; none if it ended and has its league once more."""
        self.ready.unregister(worker.end)
        part = worker.part()
        if part is None:
            worker.stop()
            if worker.tries < TRIES:
                self.ask(worker, worker.number)
                return None
            part = lost_part(self.tasks[worker.number])
        self.hand_out(worker)
        return part

    def serve(self, line: BinaryIO) -> int:
        """What a worker does: it answers leagues until no more come."""
        self.leave()
        self.ready.close()
        for worker in self.all:
            worker.leave()
        for raw in iter(line.readline, b""):
            part = answered(self.tasks[int(raw)], self.settings)
            line.write(text_of(part).encode("ascii") + b"\n")
            line.flush()
        return common.DONE


def run_local(tasks: list[Task], settings: Settings, jobs: int, take: Taker,
              tell: Callable[[], None], leave: Callable[[], None]) -> None:
    """Has each league answered by one of so many workers; `take` gets the parts one by one."""
    workers = Workers(tasks, settings, jobs, leave)
    try:
        for worker in workers.all:
            workers.hand_out(worker)
        while workers.ready.get_map():
            for key, _ in workers.ready.select(TELL_SECONDS):
                part = workers.answer_of(key.data)
                if part is not None:
                    take(part)
            tell()
    finally:
        for worker in workers.all:
            worker.stop()
        workers.ready.close()


def lost_part(task: Task) -> Part:
    """What is said of a league over which workers ended again and again."""
    return Part(task.name, status=common.NO_PROGRAM, place=", ".join(task.paths[:1]),
                why=f"its worker ended {TRIES} times before it was answered; was memory short?")
