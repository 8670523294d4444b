"""Many leagues on other machines, by an engine that is there: GNU parallel, Slurm or Dask.

Each gets the command and the program as one file. What an engine loses is handed out again; a part
that comes twice is taken once.
"""

from __future__ import annotations

import json
import os
import shlex
import shutil
import subprocess
import time
from dataclasses import dataclass

from . import common, writing
from .many_journal import Journal
from .many_league import Settings, part_of
from .many_list import Task
from .many_local import Taker, lost_part
from .many_ship import write_shipped
from .many_worker import TRIES, line_of

SHIPPED = "leaguelib.zip"
POLL_SECONDS = 0.3
MOST_ARRAY = 1_000
BATCH = 4


@dataclass
class Engine:
    """What the engines share: the journal, how leagues are asked, and who takes the parts."""

    journal: Journal
    settings: Settings
    take: Taker
    hosts: list[str]
    words: list[str]
    jobs: int | None = None
    batch: int = BATCH

    def run(self, by: str, tasks: list[Task]) -> None:
        """Has all leagues answered; those that are lost are handed out again, but not for ever."""
        # Dask imports what it is given, and so gets no main part
        write_shipped(self.settings.program, str(self.journal.folder / SHIPPED), by != "dask")
        waiting = {task.name: task for task in tasks}
        for _ in range(TRIES):
            if waiting:
                ENGINES[by](self, waiting)
        for task in waiting.values():
            self.take(lost_part(task))

    def line(self, task: Task, has_files: bool) -> str:
        """A task as workers take it; where a file cannot be read the worker says so."""
        try:
            return line_of(task, self.settings, has_files)
        except common.Trouble:
            return line_of(task, self.settings, False)

    def took(self, text: str | bytes, waiting: dict[str, Task]) -> None:
        """Takes a part as a worker wrote it, once; what is no part is passed over."""
        try:
            part = part_of(json.loads(text))
        except (ValueError, TypeError):
            return
        if waiting.pop(part.league, None) is not None:
            self.take(part)


def program_of(name: str, package: str) -> str:
    """Where a program of the engine stands."""
    found = shutil.which(name)
    if found is None:
        raise common.Trouble(f"{name} is not there; install the package {package}",
                             common.NO_PROGRAM)
    return found


def run_parallel(engine: Engine, waiting: dict[str, Task]) -> None:
    """GNU parallel: leagues go to the hosts by ssh and rsync, parts come back as output."""
    command = [program_of("parallel", "parallel"), "--will-cite", "--retries", str(TRIES)]
    command += ["--jobs", str(engine.jobs)] if engine.jobs else []
    for host in engine.hosts:
        command += ["--sshlogin", host]
    if engine.hosts:
        folder = f"/tmp/futmax-{os.urandom(6).hex()}"
        command += ["--workdir", folder, "--basefile", SHIPPED, "--transferfile", "{}", "--cleanup"]
    command += [*engine.words, f"python3 {SHIPPED} many --worker <{{}}"]
    lines = (engine.line(task, has_files=True) for task in list(waiting.values()))
    paths = engine.journal.put_tasks(lines, engine.batch)
    names = "".join(f"tasks/{path.name}\n" for path in paths)
    with subprocess.Popen(command, cwd=engine.journal.folder, stdin=subprocess.PIPE,
                          stdout=subprocess.PIPE) as run:
        run.stdin.write(names.encode())
        run.stdin.close()
        for raw in run.stdout:
            engine.took(raw, waiting)


def run_slurm(engine: Engine, waiting: dict[str, Task]) -> None:
    """A Slurm array: nodes see the same files, and put parts into the journal themselves."""
    submit = program_of("sbatch", "slurm-client")
    journal = engine.journal
    most = max(engine.batch, -(-len(waiting) // MOST_ARRAY))
    paths = journal.put_tasks((engine.line(task, has_files=False) for task in waiting.values()),
                              most)
    script = journal.folder / "array.sh"
    place = shlex.quote(str(journal.folder))
    text = (f"#!/bin/sh\ncd {place} && exec python3 {SHIPPED} many --worker --journal {place} \\\n"
            "    \"tasks/$SLURM_ARRAY_TASK_ID.json\"\n")
    writing.replace(str(script), text.encode("utf-8", "surrogateescape"))
    array = f"1-{len(paths)}" + (f"%{engine.jobs}" if engine.jobs else "")
    command = [submit, "--wait", "--parsable", "--no-requeue", f"--array={array}",
               "--job-name=futmax", "--output=/dev/null", *engine.words, str(script)]
    with subprocess.Popen(command, stdin=subprocess.DEVNULL, stdout=subprocess.DEVNULL) as run:
        while True:
            is_ended = run.poll() is not None
            for name in list(waiting):
                part = journal.get(name)
                if part is not None and waiting.pop(name, None) is not None:
                    engine.take(part)
            if is_ended:
                return
            time.sleep(POLL_SECONDS)


def run_dask(engine: Engine, waiting: dict[str, Task]) -> None:
    """Dask's distributed scheduler: leagues go to its workers, parts come back."""
    try:
        from distributed import Client, as_completed  # pylint: disable=import-outside-toplevel
        from distributed.diagnostics.plugin import (  # pylint: disable=import-outside-toplevel
            UploadFile)
    except ImportError as fault:
        raise common.Trouble("Dask is not there; install the package python3-distributed",
                             common.NO_PROGRAM) from fault
    if not engine.hosts:
        raise common.Trouble("--by dask wants the scheduler's address: --hosts tcp://HOST:8786",
                             common.BAD_WORDS)
    try:
        client = Client(engine.hosts[0], timeout=20)
    except (OSError, TimeoutError) as fault:
        raise common.Trouble(f"{engine.hosts[0]}: no scheduler answers there: {fault}",
                             common.NO_PROGRAM) from fault
    with client:
        client.register_worker_plugin(UploadFile(str(engine.journal.folder / SHIPPED)),
                                      name=f"futmax-{os.urandom(16).hex()}")
        left = iter(list(waiting.values()))
        room = 4 * max(1, sum(client.nthreads().values()))

        def hand_out():
            task = next(left, None)
            return task and client.submit(answer_shipped, engine.line(task, True), retries=TRIES,
                                          pure=False)

        running = as_completed([it for it in (hand_out() for _ in range(room)) if it])
        for future in running:
            if future.status == "finished":
                engine.took(future.result(), waiting)
            following = hand_out()
            if following:
                running.add(following)


def answer_shipped(line: str) -> str:
    """What a worker of Dask runs: the part for a line, by the program out of the one file."""
    from leaguelib import many_ship, many_worker  # pylint: disable=import-outside-toplevel
    return many_worker.text_of(many_worker.part_for(line, many_ship.unpacked_program()))


ENGINES = {"parallel": run_parallel, "slurm": run_slurm, "dask": run_dask}
