"""The rows of many leagues as CSV, as JSON lines, and in a database of SQLite."""

from __future__ import annotations

import csv
import io
import json
from typing import TYPE_CHECKING, Iterable, Iterator

from . import common
from .many_league import Part

if TYPE_CHECKING:
    import sqlite3

HEADS = ("date", "league", "line", "club", "word")
TABLES = """
CREATE TABLE IF NOT EXISTS leagues (league TEXT PRIMARY KEY, title TEXT NOT NULL,
    asks INTEGER NOT NULL, status INTEGER NOT NULL, place TEXT NOT NULL, why TEXT NOT NULL);
CREATE TABLE IF NOT EXISTS changes (date TEXT NOT NULL, league TEXT NOT NULL REFERENCES leagues,
    line INTEGER NOT NULL, club TEXT NOT NULL, word TEXT NOT NULL, number INTEGER NOT NULL,
    PRIMARY KEY (league, number));
CREATE INDEX IF NOT EXISTS changes_by_club ON changes (league, line, club);
"""


def csv_texts(parts: Iterable[Part]) -> Iterator[str]:
    """The rows as CSV, with their heads in front; a text for each league."""
    yield ",".join(HEADS) + "\n"
    for part in parts:
        text = io.StringIO()
        writer = csv.writer(text, lineterminator="\n")
        writer.writerows((date, part.league, line, club, word)
                         for date, line, club, word in part.rows)
        yield text.getvalue()


def json_texts(parts: Iterable[Part]) -> Iterator[str]:
    """The rows as JSON lines; a text for each league."""
    for part in parts:
        yield "".join(json.dumps(dict(zip(HEADS, (date, part.league, line, club, word))),
                                 ensure_ascii=False) + "\n"
                      for date, line, club, word in part.rows)


def write_database(parts: Iterable[Part], path: str) -> None:
    """Puts the leagues into a database in one go: what it had of these leagues is replaced."""
    import sqlite3  # pylint: disable=import-outside-toplevel,redefined-outer-name
    try:
        base = sqlite3.connect(path)
        try:
            base.executescript(TABLES)
            with base:
                for part in parts:
                    _put(base, part)
        finally:
            base.close()
    except sqlite3.Error as fault:
        raise common.Trouble(f"{path}: this database cannot be written: {fault}. Name another "
                             "file by --db.", common.CANNOT_WRITE) from fault


def _put(base: sqlite3.Connection, part: Part) -> None:
    """Puts one league in place of what was known of it."""
    base.execute("DELETE FROM changes WHERE league = ?", (part.league,))
    base.execute("INSERT OR REPLACE INTO leagues VALUES (?, ?, ?, ?, ?, ?)",
                 (part.league, part.title, part.asks, part.status, part.place, part.why))
    base.executemany("INSERT INTO changes VALUES (?, ?, ?, ?, ?, ?)",
                     [(date, part.league, line, club, word, number)
                      for number, (date, line, club, word) in enumerate(part.rows, 1)])
