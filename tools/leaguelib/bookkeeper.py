"""Keeps a season by names: turns a line by names into a line of the feed, and tests it."""

from __future__ import annotations

import re
from dataclasses import replace

from . import common
from .cleaning import KINDS, OTHER_WORDS
from .dates import is_same_day
from .feeds import FeedReader, InputReader
from .fixtures_by_name import named_fixture
from .ledger import Ledger
from .list_settings import MONTH_FIRST, settings_in
from .match_lines import parts_of
from .matches import Match
from .names import UnknownName, club_of
from .records import Record, Refused, count_lines, lines_of, record_of, records_of
from .refusals import advise
from .rulings import lines_for, replaced_text, ruling_of
from .sheet_dates import dates_of, moved
from .sheet_marks import test_marks
from .slips import Changed, Known, Unclear, above_limit, played_text, why_open
from .texts import Fixture, Sheet
from .words import words_for

FIRST_WORD = re.compile(r"^(correct|correction|fix|annul|annulled|void|result)\s*:?\s+(\S.*)$",
                        re.IGNORECASE)
WHEN = re.compile(r"^when(?:\s*,\s*(\S+)|\s+(\S.*))$", re.IGNORECASE)
MEANINGS = {"correct": "fix", "correction": "fix", "annul": "void", "annulled": "void"}


class Bookkeeper:
    """A sheet and the season so far, which takes lines by names."""

    def __init__(self, sheet: bytes, log: bytes = b"", sheet_name: str = "the sheet",
                 log_name: str = "the feed", aliases: dict[str, str] | None = None) -> None:
        self.reader = InputReader()
        self.meant: dict[str, str] = {}
        self.notes: list[str] = []
        self.entered: set[int] = set()
        self.forms = "`league feed --help`"
        self.ledger = Ledger()
        self._read_sheet(sheet, sheet_name)
        test_marks([(sheet_name, sheet), (log_name, log)])
        self.settings = settings_in(sheet)
        self.aliases = {**self.settings.names, **(aliases or {})}
        self._dates_of_sheet = dates_of(sheet, self.sheet)
        self.dates = dict(self._dates_of_sheet)
        self._read_log(log, log_name)

    @property
    def sheet(self) -> Sheet:
        """The sheet."""
        return self.reader.sheet

    @property
    def names(self) -> list[str]:
        """The names of the clubs."""
        return [club.name for club in self.sheet.clubs]

    @property
    def feed(self) -> FeedReader:
        """The reader of the feed, with the season as it stands."""
        return self.reader.feed_reader

    def _read_sheet(self, data: bytes, name: str) -> None:
        fields: list[str] = []
        try:
            for record in records_of(data):
                if self.reader.feed_reader is not None:
                    raise common.Trouble(f"{name}, line {record.line}: a line comes after "
                                         f"`season`; the sheet ends there, and the feed is a file "
                                         f"of its own")
                fields = record.fields
                self.reader.take(record)
            fields = []
            self.reader.test_end(count_lines(data))
        except Refused as refused:
            words = words_for(refused, fields, self.reader.sheet)
            raise common.Trouble(f"{name}, line {refused.line}: {words} (`league lint` says "
                                 f"more)") \
                from refused

    def _read_log(self, data: bytes, name: str) -> None:
        fields: list[str] = []
        try:
            for number, raw in lines_of(data):
                record = record_of(number, raw)
                fields = record.fields if record else []
                self.take_line(raw.decode("utf-8", "surrogateescape"), record)
        except Refused as refused:
            words = words_for(refused, fields, self.reader.sheet)
            raise common.Trouble(f"{name}, line {refused.line}: {words} (`league lint` says "
                                 f"more)") \
                from refused

    def take_notes(self) -> list[str]:
        """What has to be said about the last line; it is said once."""
        notes, self.notes = self.notes, []
        return notes

    def enter(self, line: str) -> None:
        """Takes a line that was made here."""
        record = record_of(1, line.encode("utf-8", "surrogateescape"))
        self.take_line(line, record)
        if record is not None and record.kind == "result":
            self.entered.add(int(record.fields[1]))

    def take_line(self, line: str, record: Record | None) -> None:
        """Takes a line of the feed, which is a record or a comment."""
        if record is not None:
            self.ledger.note(self.feed.take(record))
        elif self.ledger.pass_over(line):
            self.dates = moved(self._dates_of_sheet, self.ledger.days())

    def is_order(self, text: str) -> bool:
        """Whether a line is one of the feed, or a correction, an annulment or a ruling by names."""
        line = text.strip()
        if line.lower() in KINDS or FIRST_WORD.match(line) or ruling_of(line, self):
            return True
        word = line.split(",")[0].strip().lower()
        return "," in line and (word in KINDS or word in OTHER_WORDS)

    def lines_of(self, text: str) -> list[str]:
        """The lines of the feed for a line by names, tested: a record, a ruling, or nothing."""
        ruling = ruling_of(text.strip(), self)
        if ruling is not None:
            return lines_for(self, *ruling)
        line = self.line_of(text)
        self.notes += replaced_text(self.feed.season, line or "")
        return [] if line is None else [line]

    def line_of(self, text: str) -> str | None:
        """The line of the feed for a line by names, tested; none if it is empty or a comment."""
        line = text.strip()
        if not line or line.startswith("#"):
            return None
        found = FIRST_WORD.match(line)
        if found is None and self.is_order(line):
            return self.tested(line.lower() if line.lower() in KINDS else line)
        kind, rest = ("result", line)
        if found:
            word = found.group(1).lower()
            kind, rest = MEANINGS.get(word, word), found.group(2)
        parts = parts_of(rest, self.settings.days == MONTH_FIRST)
        if parts.match is None:
            why = parts.why
            reason = why if why and "cannot be read" not in why else "this is not understood"
            raise Unclear(f"{reason}. A result is written like `Germany 5-1 Scotland`; "
                          f"{self.forms} has the other forms")
        if kind != "void" and parts.told.word:
            raise Unclear(why_open(parts.told))
        return self.line_of_match(kind, self.with_score(parts.match))

    def asked_match(self, text: str) -> Fixture | None:
        """The open match of a line `when,5` or `when Germany - Scotland`; none of any other line.

        Raises `Unclear` if the match is not one that is open.
        """
        found = WHEN.match(text.strip())
        is_name = any(club.name.lower().startswith("when") for club in self.sheet.clubs)
        if found is None or (is_name and not found.group(1)):
            return None
        number = found.group(1)
        if number is None:
            match = parts_of(found.group(2)).match
            if match is None:
                raise Unclear("a match is asked about like `when Germany - Scotland` or `when,5`")
            number = self.fixture_of("when", match).number
        line = self.tested(f"when,{number}")
        return self.sheet.fixture(int(line.split(",")[1]))

    def with_score(self, match: Match) -> Match:
        """The match with its score, also where signs alone say to whom it was awarded."""
        if not match.winner:
            return match
        if self.settings.walkover is None:
            raise Unclear("the signs say who won and not the score: write the score that counts, "
                          "like 3-0, or give --walkover 3-0")
        won, lost = self.settings.walkover
        return replace(match, score=(won, lost) if match.winner == "home" else (lost, won))

    def line_of_listed(self, match: Match) -> str | None:
        """The line for a match of a list, none if its score stands already."""
        fixture = self.fixture_of("result", match)
        if self.feed.season.scores.get(fixture.number) == match.score:
            return None
        return self.line_of_match("result", match)

    def line_of_match(self, kind: str, match: Match) -> str:
        """The line for a match by names."""
        if kind != "void" and match.score is None:
            raise Unclear("the score is missing, as in `Germany 5-1 Scotland`")
        fixture = self.fixture_of(kind, match)
        if kind == "result" and fixture.number in self.feed.season.scores:
            raise self._changed(fixture, match.score)
        if kind == "fix" and self.feed.season.scores.get(fixture.number) == match.score:
            raise Known(f"{fixture.home} - {fixture.away} has the score {match.score[0]}-"
                        f"{match.score[1]} already")
        date = self.dates.get(fixture.number, "")
        if match.date and date and not is_same_day(match.date, date):
            self.notes.append(f"the sheet has {fixture.home} - {fixture.away} on {date}, and not "
                              f"on {match.date}; it was taken all the same")
        goals = [] if kind == "void" else [str(goal) for goal in match.score or ()]
        return self.tested(",".join([kind, str(fixture.number), *goals]))

    def _changed(self, fixture: Fixture, score: tuple[int, int]) -> Unclear:
        """What to say of another result, and how it is put in place of the one that stands; the
        line was tried.
        """
        front = played_text(self.sheet, self.feed.season, fixture)
        if self.feed.season.scores[fixture.number] == score:
            return Known(f"{front}: this line can be left out")
        typed = f"correct {fixture.home} {score[0]}-{score[1]} {fixture.away}"
        line, notes = f"fix,{fixture.number},{score[0]},{score[1]}", list(self.notes)
        try:
            is_taken = self.line_of(typed) == line
        except Unclear:
            is_taken = False
        self.notes = notes
        typed = typed if is_taken else line
        return Changed(f"{front}; `{typed}` would replace it", line, typed)

    def club(self, name: str) -> str:
        """The club that a name means; raises `Unclear` if none is meant, or several may be."""
        if name not in self.meant:
            try:
                self.meant[name] = club_of(name, self.names, self.aliases)
            except UnknownName as unknown:
                raise Unclear(unknown.message) from unknown
        return self.meant[name]

    def fixture_of(self, kind: str, match: Match) -> Fixture:
        """The fixture of a match by names; raises `Unclear` if it is none, or one of several."""
        return named_fixture(self, kind, match)

    def tested(self, line: str) -> str:
        """The line, where the program takes it; raises `Unclear` if it does not."""
        record = record_of(1, line.encode("utf-8", "surrogateescape"))
        if record is None:
            raise Unclear("this line has no field")
        self.test(record)
        self.notes += above_limit(self.sheet, self.feed.read(record))
        return line

    def test(self, record: Record) -> None:
        """Raises `Unclear`, with what to write instead, where the program would refuse a record."""
        try:
            self.feed.read(record)
        except Refused as refused:
            advice = advise(record, refused, self.reader)
            hint = " Write: " + " / ".join(advice.instead) if advice.instead else ""
            raise Unclear(advice.message + hint) from refused
