"""Feeds and whole inputs: the records after `season`, tested in the order of docs/formats.md."""

from __future__ import annotations

from dataclasses import dataclass, field

from .cups import CupReader, reader_for
from .records import Record, Refused, count_lines, number_of, records_of
from .texts import (FEED_WIDTHS, MOST_DEDUCTION, MOST_EVENTS, MOST_GOALS, Entry, Season, Sheet,
                    SheetReader)


class FeedReader:
    """Takes the records of a feed one by one, and keeps the season as it stands."""

    def __init__(self, sheet: Sheet, takes_proofs: bool = False,
                 takes_whens: bool = False) -> None:
        self.sheet = sheet
        self.season = Season()
        self.takes_proofs = takes_proofs
        self.takes_whens = takes_whens

    def copy(self) -> FeedReader:
        """The same reader, to be tried apart from this one."""
        other = FeedReader(self.sheet, self.takes_proofs, self.takes_whens)
        other.season = self.season.copy()
        return other

    def take(self, record: Record) -> Entry:
        """The entry of the next record, or raises `Refused` and changes nothing."""
        entry = self.read(record)
        self.season.apply(entry)
        return entry

    def read(self, record: Record) -> Entry:
        """The entry of a record in the season as it stands; changes nothing."""
        kind = record.kind
        is_of_mode = {"proofs": self.takes_proofs, "when": self.takes_whens}.get(kind, True)
        if kind not in FEED_WIDTHS or not is_of_mode:
            self._refuse(record, "unknown_record", 1)
        if len(record.fields) != FEED_WIDTHS[kind]:
            self._refuse(record, "wrong_width")
        if kind == "deduct":
            entry = self._read_deduction(record)
        elif kind in ("ask", "proofs"):
            entry = Entry(kind, record.line)
        else:
            entry = self._read_score(record)
        if entry.is_event and self.season.events >= MOST_EVENTS:
            self._refuse(record, "log_full", 1)
        return entry

    def _read_score(self, record: Record) -> Entry:
        """A result, correction or annulment, or a `when`."""
        fields, kind = record.fields, record.kind
        fixture = number_of(fields[1])
        if fixture is None or not 1 <= fixture <= len(self.sheet.fixtures):
            self._refuse(record, "unknown_fixture", 2)
        score = (0, 0)
        if kind in ("result", "fix"):
            score = (self._goals_in(record, 3), self._goals_in(record, 4))
        if kind in ("result", "when") and fixture in self.season.scores:
            self._refuse(record, "already_played", 2)
        if kind in ("fix", "void") and fixture not in self.season.scores:
            self._refuse(record, "not_played", 2)
        return Entry(kind, record.line, fixture, score)

    def _read_deduction(self, record: Record) -> Entry:
        """Points deducted from a club, in all."""
        name = record.fields[1]
        if not self.sheet.club_named(name):
            self._refuse(record, "unknown_club", 2)
        points = number_of(record.fields[2])
        if points is None or points > MOST_DEDUCTION:
            self._refuse(record, "bad_points", 3)
        return Entry("deduct", record.line, club=name, points=points)

    def _goals_in(self, record: Record, position: int) -> int:
        goals = number_of(record.fields[position - 1])
        if goals is None or goals > MOST_GOALS:
            self._refuse(record, "bad_goals", position)
        return goals

    def _refuse(self, record: Record, code: str, position: int = 0) -> None:
        raise Refused(record.line, code, position, "feed")


@dataclass
class Input:
    """A whole input: the sheet, the entries of the feed, and the lines after `proofs`, if any.

    `report_line` is the number of the first line after `proofs`; 0 if there is none.
    """

    sheet: Sheet
    entries: list[Entry] = field(default_factory=list)
    report_line: int = 0

    def season_at(self, ask: int) -> Season:
        """The season at an ask of the feed, counted from 0; after the last ask, the end."""
        season = Season()
        asks = 0
        for entry in self.entries:
            if entry.kind == "ask":
                if asks == ask:
                    break
                asks += 1
            season.apply(entry)
        return season


class InputReader:
    """Takes the records of a whole input one by one: those of the sheet, then those of the feed.

    The first record tells whether the sheet is a cup's, unless `is_cup` does.
    """

    def __init__(self, takes_proofs: bool = False, takes_whens: bool = False,
                 is_cup: bool | None = None) -> None:
        self.is_cup = is_cup
        self.sheet_reader = CupReader() if is_cup else SheetReader()
        self.feed_reader: FeedReader | None = None
        self.takes_proofs = takes_proofs
        self.takes_whens = takes_whens

    @property
    def sheet(self) -> Sheet | None:
        """The sheet as far as it was read."""
        return self.sheet_reader.sheet

    def copy(self) -> InputReader:
        """The same reader, to be tried apart from this one."""
        other = InputReader(self.takes_proofs, self.takes_whens, self.is_cup)
        other.sheet_reader = self.sheet_reader.copy()
        if self.feed_reader is not None:
            other.feed_reader = self.feed_reader.copy()
        return other

    def take(self, record: Record) -> Entry | None:
        """Takes the next record, or raises `Refused` and changes nothing; gives a feed's entry."""
        if self.feed_reader is not None:
            return self.feed_reader.take(record)
        if self.sheet is None:
            self.sheet_reader = reader_for(record, self.is_cup)
        self.sheet_reader.take(record)
        if self.sheet_reader.is_ended:
            self.end_sheet()
        return None

    def end_sheet(self) -> None:
        """Goes on with the feed, as after `season`."""
        self.feed_reader = FeedReader(self.sheet_reader.sheet, self.takes_proofs, self.takes_whens)

    def test_end(self, lines: int) -> None:
        """Raises `Refused` if the input may not end after so many lines."""
        if self.feed_reader is None:
            code = self.sheet_reader.missing if self.sheet is None else "no_season"
            raise Refused(lines + 1, code, 0, "sheet")


def read_input(data: bytes, takes_proofs: bool = False, takes_whens: bool = False,
               is_cup: bool | None = None) -> Input:
    """Reads a sheet and the feed after it, or raises `Refused` at the line the program refuses."""
    reader = InputReader(takes_proofs, takes_whens, is_cup)
    entries: list[Entry] = []
    for record in records_of(data):
        entry = reader.take(record)
        if entry is None:
            continue
        if entry.kind == "proofs":
            return Input(reader.sheet, entries, record.line + 1)
        entries.append(entry)
    reader.test_end(count_lines(data))
    return Input(reader.sheet, entries)


def read_sheet(data: bytes) -> Sheet:
    """Reads a file that holds a sheet; lines after `season` are not looked at."""
    reader = InputReader()
    for record in records_of(data):
        reader.take(record)
        if reader.feed_reader is not None:
            return reader.sheet
    reader.test_end(count_lines(data))
    raise AssertionError("the sheet has ended")
