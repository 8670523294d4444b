"""A worker: it takes leagues as lines of JSON, and gives the part of each as a line of JSON.

    {"league": NAME, "paths": [PATH, ..], "settings": {..}}          files that it reads itself
    {"league": NAME, "files": [[NAME, TEXT], ..], "settings": {..}}  files that are sent along

TEXT has a sign for each byte (Latin 1), so that nothing is lost. The program is that of the worker.
"""

from __future__ import annotations

import json
import sys
from dataclasses import asdict, replace

from . import common
from .given import given_of
from .many_journal import Journal
from .many_league import Part, Settings, answered, answered_input
from .many_list import Task, plain

TRIES = 3


def line_of(task: Task, settings: Settings, has_files: bool) -> str:
    """A task as a worker takes it; raises `Trouble` if its files cannot be read."""
    value = {"league": task.name, "settings": asdict(replace(settings, program=""))}
    if has_files:
        value["files"] = [[plain(path), common.read_bytes(path).decode("latin-1")]
                          for path in task.paths]
    else:
        value["paths"] = list(task.paths)
    return json.dumps(value)


def part_for(line: str, program: str) -> Part:
    """The part of the league that a line tells of."""
    value = json.loads(line)
    settings = Settings(**{**value["settings"], "program": program})
    if "paths" in value:
        return answered(Task(value["league"], tuple(value["paths"])), settings)
    try:
        given = given_of([(name, text.encode("latin-1")) for name, text in value["files"]],
                         adds_ask=False)
    except common.Trouble as trouble:
        return Part(value["league"], status=trouble.status, why=trouble.message)
    return answered_input(value["league"], given, settings)


def text_of(part: Part) -> str:
    """A part as a worker writes it."""
    return json.dumps(part.as_object())


def run_worker(program: str, path: str | None = None, folder: str | None = None) -> int:
    """Answers tasks line by line: from a file or standard input, into a journal or to the output.
    """
    journal = Journal(folder) if folder else None
    with (open(path, "rb") if path else sys.stdin.buffer) as source:
        for raw in iter(source.readline, b""):
            part = part_for(raw.decode("ascii"), program)
            if journal:
                journal.put(part)
                continue
            sys.stdout.write(text_of(part) + "\n")
            sys.stdout.flush()
    return common.DONE
