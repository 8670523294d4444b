"""Asks many leagues after each day or matchday, and writes a row for each change of a word: date,
league, line, club, word. WHERE is a folder with a folder for each league, or a list with a league a
line, `SHEET FEED` or `NAME,SHEET,FEED`. A run that was broken off goes on where it stopped; a
league that cannot be answered is reported, and the others go on. docs/many.md says more.
"""

from __future__ import annotations

import argparse
import hashlib
import os
import tempfile
from typing import Iterable, Iterator

from . import common, writing
from .many_asks import ASKS, DAYS, END, MATCHDAYS
from .many_engines import BATCH, ENGINES, Engine
from .many_journal import Journal
from .many_league import Part, Settings
from .many_list import Task, tasks_in
from .many_local import run_local
from .many_output import csv_texts, json_texts, write_database
from .many_ship import archive_path, unpacked_program, write_shipped
from .many_worker import run_worker
from .progress import Progress, add_progress_argument
from .texts import MOST_BUDGET


def add_arguments(parser: argparse.ArgumentParser) -> None:
    """The words of `league many`."""
    parser.add_argument("where", nargs="?", metavar="WHERE",
                        help="a folder of leagues, or a list of them; `-` is a list on standard "
                             "input")
    parser.add_argument("--at", choices=(DAYS, MATCHDAYS, ASKS, END), default=DAYS,
                        help="when is asked: after each day (the default; matchdays if no dates "
                             "are known), after each matchday, at the feed's own asks, at the end")
    parser.add_argument("--every", type=int, default=0, metavar="N",
                        help="ask after every N events instead")
    parser.add_argument("--budget", type=int, metavar="N",
                        help=f"this budget, 1 to {MOST_BUDGET}, in place of those of the sheets")
    parser.add_argument("-o", "--output", metavar="FILE", help="file for the rows")
    parser.add_argument("--json", action="store_true", help="JSON lines in place of CSV")
    parser.add_argument("--db", metavar="FILE",
                        help="put the leagues into this database of SQLite; without -o no rows are "
                             "written elsewhere")
    parser.add_argument("--journal", metavar="FOLDER",
                        help="folder for finished leagues; otherwise beside the output")
    parser.add_argument("--jobs", type=int, metavar="N",
                        help="how many at a time (as many as processors)")
    parser.add_argument("--by", choices=tuple(ENGINES), help="an engine for other machines")
    parser.add_argument("--hosts", action="append", default=[], metavar="HOST",
                        help="a host for GNU parallel, as its --sshlogin takes it, once for each; "
                             "or the address of Dask's scheduler")
    parser.add_argument("--word", action="append", default=[], metavar="WORD",
                        help="a word for the engine's own command, like --word=--partition=short")
    parser.add_argument("--batch", type=int, default=BATCH, metavar="N",
                        help="how many leagues an engine gets at a time, if it counts files "
                             f"({BATCH})")
    parser.add_argument("--ship", metavar="FILE",
                        help="only write this command and the program as one file")
    parser.add_argument("--worker", action="store_true", help=argparse.SUPPRESS)
    parser.add_argument("--program", metavar="PATH",
                        help="the program futmax, if it is not found by itself")
    add_progress_argument(parser)


def run(arguments: argparse.Namespace) -> int:
    """Runs `league many`."""
    if arguments.worker:
        return _work(arguments)
    _test_words(arguments)
    program = os.path.abspath(common.program_path(arguments.program))
    if arguments.ship:
        write_shipped(program, arguments.ship)
        return common.DONE
    tasks = tasks_in(arguments.where)
    digest = hashlib.sha256(common.read_bytes(program)).hexdigest()
    settings = Settings(program, arguments.at, arguments.every, arguments.budget, digest)
    with tempfile.TemporaryDirectory(prefix="futmax-many-") as folder:
        journal = Journal(_journal_place(arguments) or folder)
        journal.hold()
        waiting = _waiting(tasks, settings, journal)
        _answer(waiting, settings, journal, arguments)
        status = _tell(tasks, journal)
        _write(tasks, journal, arguments)
    return status


def _test_words(arguments: argparse.Namespace) -> None:
    """Ends the command if words do not fit together."""
    wrong = ""
    if arguments.where is None and not arguments.ship:
        wrong = "WHERE is missing: a folder of leagues, or a list of them."
    elif arguments.budget is not None and not 1 <= arguments.budget <= MOST_BUDGET:
        wrong = f"--budget is 1 to {MOST_BUDGET:,}."
    elif arguments.every < 0 or arguments.batch < 1 or (arguments.jobs or 1) < 1:
        wrong = "--every, --batch and --jobs take numbers from 1 on."
    elif arguments.by == "parallel" and ":" in arguments.hosts:
        wrong = "--hosts `:` is this machine; name the others, or leave --by out."
    if wrong:
        raise common.Trouble(wrong, common.BAD_WORDS)


def _work(arguments: argparse.Namespace) -> int:
    """Answers the leagues of a file into a journal, or those of standard input."""
    program = arguments.program or (unpacked_program() if archive_path()
                                    else common.program_path())
    return run_worker(program, arguments.where, arguments.journal)


def _journal_place(arguments: argparse.Namespace) -> str | None:
    """Where the journal is kept; none if it need not outlast the run."""
    if arguments.journal:
        return arguments.journal
    beside = arguments.output or arguments.db
    return f"{beside}.journal" if beside else None


def _waiting(tasks: list[Task], settings: Settings, journal: Journal) -> list[Task]:
    """The leagues that have no part yet for what their files say now."""
    waiting = []
    for task in tasks:
        part = journal.get(task.name)
        try:
            is_kept = (part is not None and part.status != common.NO_PROGRAM
                       and part.digest == settings.digest(task.read()))
        except common.Trouble:
            is_kept = False
        if not is_kept:
            waiting.append(task)
    journal.drop(task.name for task in waiting)
    return waiting


def _answer(waiting: list[Task], settings: Settings, journal: Journal,
            arguments: argparse.Namespace) -> None:
    """Has the leagues answered, here or by an engine."""
    with Progress("leagues", len(waiting), arguments.progress,
                  tells_itself=bool(arguments.by)) as progress:
        def take(part: Part) -> None:
            journal.put(part)
            progress.step()

        if arguments.by:
            tasks = [Task(task.name, tuple(map(os.path.abspath, task.paths))) for task in waiting]
            Engine(journal, settings, take, arguments.hosts, arguments.word, arguments.jobs,
                   arguments.batch).run(arguments.by, tasks)
            return
        jobs = min(arguments.jobs or len(os.sched_getaffinity(0)), max(len(waiting), 1))
        run_local(waiting, settings, jobs, take, progress.tell, journal.leave)


def _parts(tasks: Iterable[Task], journal: Journal) -> Iterator[Part]:
    """The parts of all leagues, one by one."""
    for task in tasks:
        part = journal.get(task.name)
        if part is None:
            part = Part(task.name, status=common.NO_PROGRAM, why="nothing is known of it")
        yield part


def _tell(tasks: list[Task], journal: Journal) -> int:
    """Says which leagues were not answered, and gives the status of the run."""
    statuses = []
    for part in _parts(tasks, journal):
        if part.status != common.DONE:
            statuses.append(part.status)
            place = f"{part.place}: " if part.place else ""
            common.say(f"league: {part.league}: {place}{part.why}")
    if not statuses:
        return common.DONE
    count = f"{len(tasks):,} leagues" if len(tasks) > 1 else "1 league"
    common.say(f"league: {len(statuses):,} of {count} not answered; the others are. Fix them, and "
               f"run it again: with a journal what is answered is kept.")
    if common.NO_PROGRAM in statuses:
        return common.NO_PROGRAM
    return statuses[0] if len(set(statuses)) == 1 else common.TO_MEND


def _write(tasks: list[Task], journal: Journal, arguments: argparse.Namespace) -> None:
    """Writes the rows of all leagues, in the order of the list."""
    if arguments.db:
        write_database(_parts(tasks, journal), arguments.db)
    if arguments.db and not arguments.output:
        return
    texts = (json_texts if arguments.json else csv_texts)(_parts(tasks, journal))
    path = arguments.output or "-"
    if path == "-":
        for text in texts:
            common.write_text(text)
        return
    writing.replace(path, (text.encode("utf-8") for text in texts))
