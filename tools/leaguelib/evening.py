"""An evening's season as its log tells it: events, scores in play, and how each is taken back.

A score in play is no result. It stands in the log as a comment, `# in play: FIXTURE,HOME,AWAY`,
which futmax passes over, and counts until the match has a result; so does a new date of a match
(`ledger.py`). Behind the comment `# undo` the next line takes back the one before it.
"""

from __future__ import annotations

import re
from dataclasses import replace
from typing import Tuple

from .bookkeeper import Bookkeeper
from .ledger import new_date_line
from .match_lines import Parts, parts_of
from .match_list import Match
from .records import record_of, row_text
from .sheet_dates import NEW_DATE
from .slips import Unclear, played_text
from .texts import Entry, Fixture
from .wording import counted, shown

UNDO = "# undo"
IN_PLAY = re.compile(r"^#\s*in play:\s*(\d{1,6})\s*,\s*(?:(\d{1,2})\s*,\s*(\d{1,2})|none)\s*$")
TILDE = re.compile(r"^\s*~\s*|~\s*(?=\d)|(?<=\d)\s*~\s*|\s*~\s*$")

Score = Tuple[int, int]


def in_play_line(fixture: int, score: Score | None) -> str:
    """The line of the log for a score in play, or for none any more."""
    return f"# in play: {fixture}," + ("none" if score is None else f"{score[0]},{score[1]}")


def kind_of(line: str) -> str:
    """The first field of a line of the log; nothing if futmax passes it over."""
    record = record_of(1, line.encode("utf-8", "surrogateescape"))
    return record.kind if record else ""


def is_event(line: str) -> bool:
    """Whether futmax is to be told a line."""
    return kind_of(line) not in ("", "ask", "when")


class Evening:
    """Takes the lines of a log in order, and says each in words."""

    def __init__(self, book: Bookkeeper) -> None:
        self.book = book
        self.book.forms = "`help`"
        self.book.feed.takes_whens = True
        self._in_play: dict[int, Score] = {}
        self._back: list[str] = []
        self._told: list[str] = []
        self._is_undoing = False

    @property
    def in_play(self) -> dict[int, Score]:
        """The scores in play, of matches without a result."""
        scores = self.book.feed.season.scores
        return {number: score for number, score in sorted(self._in_play.items())
                if number not in scores}

    def lines_of(self, text: str) -> list[str]:
        """The lines of the log for a line as it was typed; none if there is nothing in it."""
        plain = TILDE.sub(" ", text).strip()
        parts = Parts(None) if self.book.is_order(plain) else parts_of(plain)
        score = parts.told.in_play
        if plain == text.strip() and score is None:
            return self.book.lines_of(text)
        if parts.match is not None and (score or parts.told.score) is not None:
            self._test_open(parts.match)
        line = self.book.line_of(plain) if score is None else (
            self.book.line_of_match("result", replace(parts.match, score=score)))
        record = record_of(1, line.encode("utf-8", "surrogateescape")) if line else None
        if record is None or record.kind != "result":
            raise Unclear("a score in play is written like `Germany ~1-0 Scotland`")
        entry = self.book.feed.read(record)
        return [in_play_line(entry.fixture, entry.score)]

    def _test_open(self, match: Match) -> None:
        """Raises `Unclear` if a match has a result, and so no score in play."""
        fixture, season = self.book.fixture_of("result", match), self.book.feed.season
        if fixture.number not in season.scores:
            return
        is_last = bool(self._back) and self._back[-1] == f"void,{fixture.number}"
        way = "undo" if is_last else f"annul {fixture.home} - {fixture.away}"
        raise Unclear(f"{played_text(self.book.sheet, season, fixture)}; `{way}` takes it back",
                      offers_undo=is_last)

    def back(self) -> list[str]:
        """The lines of the log that take the last one back; none if there is none."""
        return [UNDO, self._back[-1]] if self._back else []

    def nothing_back(self) -> str:
        """What to say of an `undo` after a line that was refused."""
        front = "the last line was refused, so there is nothing of it to take back"
        return front + (f"; `undo` again takes back {self._told[-1]}" if self._told else "")

    def take(self, line: str) -> str:
        """Takes a line of the log that changes something, and gives it in words.

        Empty if nothing is said of it; raises `Unclear` if futmax would refuse it.
        """
        text = line.strip()
        if text == UNDO:
            self._is_undoing = True
        if text.startswith("#"):
            found, day = IN_PLAY.match(text), NEW_DATE.match(text)
            words = self._take_in_play(found) if found else self._take_day(day) if day else ""
            self.book.take_line(text, None)
            return words
        record = record_of(1, line.encode("utf-8", "surrogateescape"))
        if record is None:
            return ""
        self.book.test(record)
        entry = self.book.feed.read(record)
        before = self._before(entry)
        self.book.take_line(line, record)
        if entry.kind == "void" and not self._is_undoing:
            self._in_play.pop(entry.fixture, None)
        words = self._words(entry, before)
        if entry.is_event:
            self._note_back(self._line_back(entry, before), words)
        self._is_undoing = self._is_undoing and not entry.is_event
        return words

    def _note_back(self, line: str, words: str) -> None:
        """Remembers how the line is taken back, or forgets it where it took one back itself."""
        if self._is_undoing and self._back:
            self._back.pop()
            self._told.pop()
        else:
            self._back.append(line)
            self._told.append(words)

    def _take_in_play(self, found: re.Match) -> str:
        """Takes a score in play; one of a match that is not open, or not there, is passed over."""
        number = int(found.group(1))
        if not 1 <= number <= len(self.book.sheet.fixtures):
            return ""
        fixture = self.book.sheet.fixture(number)
        back = in_play_line(number, self._in_play.get(number))
        taken = "taken back: " if self._is_undoing else ""
        if found.group(2) is None:
            self._in_play.pop(number, None)
            words = f"match {number}: {_names(fixture)} has no score in play"
        else:
            self._in_play[number] = (int(found.group(2)), int(found.group(3)))
            words = f"match {number}: {_scored(fixture, self._in_play[number])} in play, no result"
        self._note_back(back, words)
        self._is_undoing = False
        return taken + words

    def _take_day(self, found: re.Match) -> str:
        """Takes the new date of a match; one of a match that is not there is passed over."""
        number, day = int(found.group(1)), found.group(2)
        if not 1 <= number <= len(self.book.sheet.fixtures):
            return ""
        fixture = self.book.sheet.fixture(number)
        where = {"none": "has no date now", "sheet": "is on the date of the sheet again"}
        words = f"match {number}: {_names(fixture)} {where.get(day, f'is on {day} now')}"
        taken = "taken back: " if self._is_undoing else ""
        self._note_back(new_date_line(fixture, self.book.ledger.day_of(number)), words)
        self._is_undoing = False
        return taken + words

    def _before(self, entry: Entry) -> Score | int | None:
        """What stands before an event: the score of its match, or the points of its club."""
        season = self.book.feed.season
        if entry.kind == "deduct":
            return season.deductions.get(entry.club, 0)
        return season.scores.get(entry.fixture)

    def _line_back(self, entry: Entry, before: Score | int | None) -> str:
        """The line of the feed that takes an event back."""
        if entry.kind == "deduct":
            return row_text("deduct", entry.club, before).rstrip("\n")
        if entry.kind == "result":
            return f"void,{entry.fixture}"
        kind = "result" if entry.kind == "void" else "fix"
        return f"{kind},{entry.fixture},{before[0]},{before[1]}"

    def _words(self, entry: Entry, before: Score | int | None) -> str:
        """An event in words."""
        taken = "taken back: " if self._is_undoing else ""
        if entry.kind == "deduct":
            return (f"{taken}{shown(entry.club)}: {counted(entry.points, 'point')} deducted in all "
                    f"(before: {before})")
        if not entry.is_event:
            return ""
        fixture = self.book.sheet.fixture(entry.fixture)
        text = f"{taken}match {entry.fixture}: "
        if entry.kind == "void":
            return f"{text}{_names(fixture)} is open again (it had {before[0]}-{before[1]})"
        text += f"{_scored(fixture, entry.score)} noted"
        return text + (f" (it had {before[0]}-{before[1]})" if entry.kind == "fix" else "")


def _names(fixture: Fixture) -> str:
    return f"{shown(fixture.home)} - {shown(fixture.away)}"


def _scored(fixture: Fixture, score: Score) -> str:
    return f"{shown(fixture.home)} {score[0]}-{score[1]} {shown(fixture.away)}"
