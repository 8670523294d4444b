"""One league of many: its rows, one a change of a word, or why it has none.

    part = answered(task, Settings(program))

A part is what is kept of a league, as JSON. At the first moment every club's word is a row, later
those alone that are another word than at the moment before.
"""

from __future__ import annotations

import fcntl
import hashlib
import re
import subprocess
import tempfile
import time
from dataclasses import dataclass, field
from typing import BinaryIO, Iterator

from . import common
from .feeds import Input, InputReader
from .given import Given
from .line_names import asked_lines
from .lines import line_runs, with_lines_of
from .many_asks import DAYS, asked_feed, front_of, moments_of
from .many_list import Task, plain
from .modes import DECIDE, OLDER, mode_words
from .records import Refused, count_lines, fields_of, records_of
from .running import ENDINGS
from .words import words_for

ROW = re.compile(rb"\n([avfu][^\n]*)")
FORM = 2
SET_PIPE_BYTES = 1031  # Linux; F_SETPIPE_SZ in Python from 3.10 on
PIPE_BYTES = 1 << 20
LEAST_PAUSE, MOST_PAUSE = 0.0003, 0.002


@dataclass(frozen=True)
class Settings:
    """How leagues are asked: by which program, at which moments, with which budget."""

    program: str
    when: str = DAYS
    every: int = 0
    budget: int | None = None
    program_digest: str = ""

    def digest(self, given: Given) -> str:
        """What an answer depends on, in one word: these settings and the files."""
        words = [FORM, self.when, self.every, self.budget, self.program_digest]
        return hashlib.sha256(repr(words).encode() + b"\0" + given.whole.data).hexdigest()


@dataclass
class Part:
    """What is known of a league: its rows `(date, line, club, word)`, or what is wrong with it.

    `place` is the file and line that are at fault, where one is.
    """

    league: str
    digest: str = ""
    title: str = ""
    asks: int = 0
    rows: list[tuple[str, int, str, str]] = field(default_factory=list)
    status: int = common.DONE
    place: str = ""
    why: str = ""

    def as_object(self) -> dict:
        """The part as JSON takes it."""
        return dict(vars(self))


def part_of(value: dict) -> Part:
    """The part that JSON has; raises `TypeError` or `ValueError` where it is none."""
    part = Part(**value)
    part.rows = [(str(date), int(line), str(club), str(word))
                 for date, line, club, word in part.rows]
    return part


def answered(task: Task, settings: Settings) -> Part:
    """The part of a league; whatever is wrong with the league stands in it."""
    try:
        return answered_input(task.name, task.read(), settings)
    except common.Trouble as trouble:
        return Part(task.name, status=trouble.status, why=plain(trouble.message))


def answered_input(name: str, given: Given, settings: Settings) -> Part:
    """The same from files that were read."""
    part = Part(name, settings.digest(given))
    try:
        league = _read(part, given)
        if league is not None:
            part.title = league.sheet.name
            _ask(part, given.whole.data, league, settings)
    except common.Trouble as trouble:
        part.rows, part.status, part.why = [], trouble.status, plain(trouble.message)
    return part


def _read(part: Part, given: Given) -> Input | None:
    """The sheet and feed; none if a line is refused, which is noted."""
    reader = InputReader()
    data, entries, fields = given.whole.data, [], []
    try:
        for record in records_of(data):
            fields = record.fields
            entry = reader.take(record)
            if entry is not None:
                entries.append(entry)
        fields = []
        reader.test_end(count_lines(data))
        return Input(reader.sheet, entries)
    except Refused as refused:
        part.status = common.TO_MEND
        part.place = given.origin(refused.line)
        part.why = f"{words_for(refused, fields, reader.sheet)} (`{refused.code}`)"
        return None


def _ask(part: Part, data: bytes, league: Input, settings: Settings) -> None:
    """Asks at each moment, and notes what changed; more lines than a run takes in several runs."""
    moments = moments_of(data, league, settings.when, settings.every)
    feed = asked_feed(moments)
    sheet = front_of(data)
    if settings.budget is not None:
        from .asking import with_budget  # pylint: disable=import-outside-toplevel
        sheet = with_budget(sheet, settings.budget)
    lines = asked_lines(data, league.sheet)
    runs = line_runs(lines) if lines != league.sheet.lines else [None]
    noted = []
    for number, chosen in enumerate(runs):
        whole = (sheet if chosen is None else with_lines_of(sheet, chosen)) + feed
        asks = 0
        for at, changes in enumerate(_changes(settings.program, whole)):
            noted += [(at, number, moments[at].label, *change) for change in changes]
            asks += 1
        if asks != len(moments):
            raise common.Trouble(f"futmax answered {asks} asks of {len(moments)}.",
                                 common.NO_PROGRAM)
    noted.sort(key=lambda row: row[:2])
    part.rows = [row[2:] for row in noted]
    part.asks = len(moments)


def _changes(program: str, data: bytes) -> Iterator[list[tuple[int, str, str]]]:
    """For each answer the lines, clubs and words that are not those of the answer before."""
    words: dict[bytes, bytes] = {}
    found: list[tuple[int, str, str]] | None = None
    for raw in rows_of(program, data):
        if raw.startswith(b"ask,"):
            if found is not None:
                yield found
            found = []
        elif raw.startswith(b"verdict,") and found is not None:
            # a row is a line, a club and a word: only what is new has to be taken apart
            key, _, last = raw.rpartition(b",")
            if words.get(key) != last:
                words[key] = last
                fields = fields_of(raw)
                found.append((int(fields[1]), fields[2], fields[3]))
    if found is not None:
        yield found


def _reads(pipe: BinaryIO) -> Iterator[bytes]:
    """What comes out of a pipe, with pauses and much room in it, so that it comes in few parts."""
    try:
        fcntl.fcntl(pipe, SET_PIPE_BYTES, PIPE_BYTES)
    except OSError:
        pass  # with the usual room of a pipe the program waits more often
    pause = LEAST_PAUSE
    while True:
        time.sleep(pause)
        read = pipe.read(PIPE_BYTES)
        if not read:
            return
        yield read
        pause = min(2 * pause, MOST_PAUSE)


def rows_of(program: str, data: bytes, mode: str = DECIDE) -> Iterator[bytes]:
    """The rows of a run by one thread, without finishes; raises `Trouble` if it ends badly. If the
    program does not know the mode it is run once more in the older one.

    The program writes each row by itself, and most are finishes: a reader that wakes for each takes
    as long as the program, and a file takes longer to write than a pipe. So what is there is read
    after pauses. However long an answer is, little of it is kept.
    """
    last, is_whole = b"", False
    with tempfile.TemporaryFile() as source:
        source.write(data)
        source.seek(0)
        try:
            run = subprocess.Popen([program, *mode_words(mode)], stdin=source,
                                   stdout=subprocess.PIPE, bufsize=0, close_fds=False)
        except (OSError, ValueError) as fault:
            reason = getattr(fault, "strerror", None) or str(fault)
            raise common.Trouble(f"{program} cannot be run: {reason}",
                                 common.NO_PROGRAM) from fault
    with run:
        rest = b"\n"
        for read in _reads(run.stdout):
            text = rest + read
            end = text.rfind(b"\n")
            for found in ROW.finditer(text, 0, end):
                last = found[1]
                yield last
            rest, is_whole = text[end:], read.endswith(b"\n")
    if run.returncode == 0 and is_whole:
        return
    if run.returncode == 1 and mode in OLDER:
        yield from rows_of(program, data, OLDER[mode])
        return
    if last.startswith(b"fault,"):
        raise common.Trouble(f"futmax ended with `{last.decode('utf-8', 'replace')}`, and these "
                             "tools see no fault: it may be an older program.", common.NO_PROGRAM)
    reason = ENDINGS.get(run.returncode, "it may have been stopped from outside")
    raise common.Trouble(f"futmax ended with status {run.returncode}: {reason}.",
                         common.NO_PROGRAM)
