"""What a part is given: files read one after the other, the sheet in front, with an ask at the end
where the feed has none; and where each line of the whole stands.
"""

from __future__ import annotations

import argparse
import os
from dataclasses import dataclass

from . import common
from .cups import begins_a_cup, first_kind
from .files import Joined, examine, joined
from .names import shown
from .records import fields_of
from .sheet_marks import test_marks

MOST_QUOTED = 80
STANDARD_INPUT = "standard input"
NO_CUP = ("this is the sheet of a cup, which this part does not take; `league ask`, `table`, "
          "`explain`, `board`, `live`, `check`, `feed` and `lint` do.")


@dataclass
class Given:
    """An input as futmax gets it, and the files that it came from.

    `report_line` is the first line of a report after the record `proofs`, and 0 if none is.
    """

    whole: Joined
    data: bytes
    paths: list[str]
    has_own_ask: bool
    report_line: int = 0

    def origin(self, line: int) -> str:
        """The file and the line in it, for a line of the whole; the report counts for itself."""
        if self.report_line and line >= self.report_line:
            return f"line {line - self.report_line + 1} of the report"
        return self.whole.origin(line)

    def file_and_line(self, line: int) -> tuple[str, int]:
        """The file and the number in it, for a line of the whole."""
        found = [start for start in self.whole.starts if start[1] <= line]
        if not found:
            return "", line
        name, first, number = found[-1]
        return name, line - first + number

    def quoted(self, line: int) -> str:
        """The line of the whole as a message shows it; nothing if there is no such line."""
        text = self.text_of(line)
        if not text:
            return ""
        return shown(text if len(text) <= MOST_QUOTED else text[:MOST_QUOTED] + "..")

    def text_of(self, line: int) -> str:
        """The line of the whole, without its end; nothing if there is no such line."""
        rows = self.data.split(b"\n") if line > 0 else []
        if line > len(rows) or not rows:
            return ""
        return rows[line - 1].rstrip(b"\r").decode("utf-8", "replace")


def add_file_arguments(parser: argparse.ArgumentParser) -> None:
    """The files of an input, and the program to ask."""
    parser.add_argument("files", nargs="*", default=["-"], metavar="FILE",
                        help="sheet and feed, in one file or several; `-` is standard input (the "
                             "default). The end of a feed without an `ask` counts as one")
    parser.add_argument("--program", metavar="PATH",
                        help="the program futmax, if it is not found by itself")


def test_output(paths: list[str], output: str) -> None:
    """Ends the command if its output would take the place of a file that it reads."""
    for path in paths if output != "-" else []:
        try:
            is_same = path != "-" and os.path.samefile(path, output)
        except OSError:
            continue
        if is_same:
            raise common.Trouble(f"-o: {path} is one of the files that are read. Name another one "
                                 "for what is written.", common.BAD_WORDS)


def read_all(paths: list[str]) -> list[tuple[str, bytes]]:
    """The files with their names, in the order in which they are named."""
    if paths.count("-") > 1:
        raise common.Trouble("standard input can be read once: one `-` is enough.",
                             common.BAD_WORDS)
    return [(STANDARD_INPUT if path == "-" else path, common.read_bytes(path)) for path in paths]


def gather(paths: list[str], adds_ask: bool = True, takes_cup: bool = False) -> Given:
    """Reads the files, the sheet first, and adds an ask where the feed has none."""
    return given_of(read_all(paths), adds_ask, takes_cup)


def given_of(files: list[tuple[str, bytes]], adds_ask: bool = True,
             takes_cup: bool = False) -> Given:
    """The files as one input, the sheet first, with an ask added where the feed has none; raises
    `Trouble` at the sheet of a cup where none is taken.
    """
    files = sorted(files, key=lambda file: first_kind(file[1]) not in ("league", "cup"))
    if files and begins_a_cup(files[0][1]) and not takes_cup:
        raise common.Trouble(f"{files[0][0]}: {NO_CUP}", common.BAD_WORDS)
    for name, data in files:
        for message in examine(data).messages:
            raise common.Trouble(f"{name}: {message}.")
    test_marks(files)
    parts = [(name, ended(data)) for name, data in files[:-1]]
    whole = joined(parts + files[-1:])
    has_season, has_ask, report_line = _look(whole.data)
    data = whole.data
    if adds_ask and has_season and not has_ask and not report_line:
        data = ended(data) + b"ask\n"
    return Given(whole, data, [name for name, _ in files], has_ask, report_line)


def ended(data: bytes) -> bytes:
    """The bytes with a line end after the last line."""
    return data if data.endswith(b"\n") or not data else data + b"\n"


def _look(data: bytes) -> tuple[bool, bool, int]:
    """Whether there is a `season` and an `ask` after it, and the first line after `proofs`."""
    has_season = has_ask = False
    for number, raw in enumerate(data.split(b"\n"), 1):
        kind = (fields_of(raw.rstrip(b"\r")) or [""])[0] if raw[:1] in b'sap"' else ""
        has_season = has_season or kind == "season"
        has_ask = has_ask or (has_season and kind == "ask")
        if has_season and kind == "proofs":
            return has_season, has_ask, number + 1
    return has_season, has_ask, 0

