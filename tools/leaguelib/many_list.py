"""Where many leagues are found: in a folder, or in a list of files.

In a folder, each folder at any depth that has a `sheet.csv` is a league, with the `feed.csv` beside
it; in any other folder each file `*.csv` that begins with a `league` record is one, sheet and feed
in one. A league is called by its place below the folder. A list has a league a line, as
comma separated fields or, where no comma is in it, as words: `SHEET FEED`, `NAME,SHEET,FEED`, or
one file with both. Its files are looked for beside it.
"""

from __future__ import annotations

import os
import shlex
from dataclasses import dataclass
from pathlib import Path

from . import common
from .given import Given, given_of
from .records import fields_of, record_of

SHEET, FEED = "sheet.csv", "feed.csv"


@dataclass(frozen=True)
class Task:
    """A league that is asked: what it is called, and the files that it stands in."""

    name: str
    paths: tuple[str, ...]

    def read(self) -> Given:
        """Sheet and feed as one input; raises `Trouble` if a file cannot be read."""
        return given_of([(plain(path), common.read_bytes(path)) for path in self.paths],
                        adds_ask=False)


def plain(name: str) -> str:
    """A name of a file as text; bytes that are no UTF-8 are written as `\\xNN`."""
    return os.fsencode(name).decode("utf-8", "backslashreplace")


def tasks_in(where: str) -> list[Task]:
    """The leagues of a folder or of a list; raises `Trouble` if there are none."""
    is_folder = where != "-" and os.path.isdir(where)
    tasks = _in_folder(where) if is_folder else _in_list(where)
    if not tasks and is_folder:
        raise common.Trouble(f"{plain(where)}: there is no league here. A league is a folder with "
                             f"{SHEET} and {FEED}, or a file that begins with a `league` record.")
    if not tasks:
        raise common.Trouble(f"{plain(where)}: this list names no league. Write `SHEET FEED`, a "
                             "league a line.")
    return tasks


def _in_folder(where: str) -> list[Task]:
    """The leagues of a folder, by their names."""
    tasks = []
    for folder, folders, files in os.walk(where, onerror=_cannot_read):
        folders.sort()
        if SHEET in files:
            sheet = os.path.join(folder, SHEET)
            found = {folder: (sheet, os.path.join(folder, FEED))}
        else:
            paths = [os.path.join(folder, name) for name in sorted(files) if name.endswith(".csv")]
            found = {path[:-len(".csv")]: (path,) for path in paths if _begins_a_league(path)}
        for place, paths in found.items():
            name = os.path.relpath(place, where)
            name = os.path.basename(os.path.abspath(where)) if name == "." else name
            tasks.append(Task(plain(name), paths))
    tasks.sort(key=lambda task: task.name)
    _test_names([(task.name, plain(where)) for task in tasks])
    return tasks


def _cannot_read(fault: OSError) -> None:
    raise common.Trouble(f"{plain(fault.filename or '')}: cannot be read: {fault.strerror}",
                         common.CANNOT_READ) from fault


def _begins_a_league(path: str) -> bool:
    """Whether the first record of a file is one of a league."""
    try:
        with open(path, "rb") as file:
            for number, raw in enumerate(file.readlines(65_536), 1):
                record = record_of(number, raw.rstrip(b"\r\n"))
                if record is not None:
                    return record.kind == "league"
    except OSError as fault:
        _cannot_read(fault)
    return False


def _in_list(where: str) -> list[Task]:
    """The leagues of a list, in its order."""
    home = Path(".") if where == "-" else Path(where).parent
    tasks, places = [], []
    for number, raw in enumerate(common.read_bytes(where).splitlines(), 1):
        place = f"{plain(where)}, line {number}"
        fields = _fields_of(raw, place)
        if not fields:
            continue
        if len(fields) > 3:
            raise common.Trouble(f"{place}: a league has one to three fields, and not "
                                 f"{len(fields)}: `SHEET,FEED` or `NAME,SHEET,FEED`.")
        files = fields[1:] if len(fields) == 3 else fields
        name = fields[0] if len(fields) == 3 else _name_of(fields[0])
        tasks.append(Task(plain(name), tuple(str(home / file) for file in files)))
        places.append((tasks[-1].name, place))
    _test_names(places)
    return tasks


def _fields_of(raw: bytes, place: str) -> list[str]:
    """The fields of a line of the list; words where no comma stands in it."""
    text = raw.decode("utf-8", "surrogateescape").lstrip("\ufeff").strip()
    if not text or text.startswith("#"):
        return []
    if "," in text:
        return [field.strip() for field in fields_of(os.fsencode(text))]
    try:
        return shlex.split(text)
    except ValueError as fault:
        raise common.Trouble(f"{place}: a quote is not closed.") from fault


def _name_of(file: str) -> str:
    """What a league is called whose sheet is this file: its folder, or the file without `.csv`."""
    path = Path(file)
    if path.name == SHEET and path.parent != Path("."):
        return str(path.parent)
    return file[:-len(".csv")] if file.endswith(".csv") else file


def _test_names(places: list[tuple[str, str]]) -> None:
    """Raises `Trouble` if two leagues have one name, as their rows could not be told apart."""
    seen: dict[str, str] = {}
    for name, place in places:
        if name in seen:
            raise common.Trouble(f"{place}: a league {name} is in {seen[name]} already. Give "
                                 "each a name of its own: `NAME,SHEET,FEED`.")
        seen[name] = place
