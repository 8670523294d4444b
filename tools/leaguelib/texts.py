"""Sheets, fixtures and seasons, read by the rules and in the order of docs/formats.md.

Sheets are read here; `feeds.py` reads the feed and a whole input (`read_input`). A caller that
wants to go on after a refused line uses the two readers: `SheetReader.take` and `FeedReader.take`
change nothing if they raise `Refused`. Answers of the program are read in `answers.py`.
"""

from __future__ import annotations

from dataclasses import dataclass, field, replace

from .records import Record, Refused, is_name, number_of

ORDERS = ("head_first", "overall_first")
MOST_CLUBS = 24
MOST_FIXTURES = 600
MOST_LINES = 4
MOST_RANK = 999
MOST_GOAL_LIMIT = 20
MOST_BUDGET = 50_000
USUAL_BUDGET = 2_000
MOST_GOALS = 99
MOST_DEDUCTION = 99
MOST_EVENTS = 100_000
SHEET_WIDTHS = {"league": (3, 4, 5), "club": (3,), "match": (3,), "line": (2,), "season": (1,)}
FEED_WIDTHS = {"result": 4, "fix": 4, "deduct": 3, "void": 2, "ask": 1, "proofs": 1, "when": 2}


@dataclass(frozen=True)
class Club:
    """A club: its number from 1, its name and its fixed rank."""

    number: int
    name: str
    rank: int


@dataclass(frozen=True)
class Fixture:
    """A fixture: its number from 1, the names of its clubs, and the line in which it stands."""

    number: int
    home: str
    away: str
    line: int = 0


@dataclass
class Sheet:
    """A league: what stands in the records before `season`."""

    name: str
    goal_limit: int
    budget: int = USUAL_BUDGET
    order: str = ORDERS[0]
    clubs: list[Club] = field(default_factory=list)
    fixtures: list[Fixture] = field(default_factory=list)
    lines: list[int] = field(default_factory=list)

    @property
    def is_cup(self) -> bool:
        """Whether it is the sheet of a cup (`cups.py`)."""
        return False

    def club_named(self, name: str) -> Club | None:
        """The club of exactly this name."""
        return next((club for club in self.clubs if club.name == name), None)

    def fixture(self, number: int) -> Fixture:
        """The fixture of this number, from 1."""
        return self.fixtures[number - 1]


@dataclass(frozen=True)
class Entry:
    """A record of the feed: `fixture` and `score`, or `club` and `points`, as its kind has them."""

    kind: str
    line: int
    fixture: int = 0
    score: tuple[int, int] = (0, 0)
    club: str = ""
    points: int = 0

    @property
    def is_event(self) -> bool:
        """Whether it changes the season (and raises the number in the next `ask` row)."""
        return self.kind in ("result", "fix", "void", "deduct")


@dataclass
class Season:
    """What is known at a moment: scores by fixture number, points deducted by club name."""

    scores: dict[int, tuple[int, int]] = field(default_factory=dict)
    deductions: dict[str, int] = field(default_factory=dict)
    events: int = 0

    def apply(self, entry: Entry) -> None:
        """Takes an entry that was read; an `ask` changes nothing."""
        if not entry.is_event:
            return
        self.events += 1
        if entry.kind in ("result", "fix"):
            self.scores[entry.fixture] = entry.score
        elif entry.kind == "void":
            del self.scores[entry.fixture]
        else:
            self.deductions[entry.club] = entry.points

    def copy(self) -> Season:
        """The same season, to be changed apart from this one."""
        return Season(dict(self.scores), dict(self.deductions), self.events)

    def open_fixtures(self, sheet: Sheet) -> list[Fixture]:
        """The fixtures without a score, in order."""
        return [fixture for fixture in sheet.fixtures if fixture.number not in self.scores]


class SheetReader:
    """Takes the records of a sheet one by one; `sheet` is there from the first record on."""

    first, missing, widths = "league", "no_league", SHEET_WIDTHS

    def __init__(self) -> None:
        self.sheet: Sheet | None = None
        self.is_ended = False

    def copy(self) -> SheetReader:
        """The same reader, to be tried apart from this one."""
        other = SheetReader()
        other.is_ended = self.is_ended
        if self.sheet is not None:
            other.sheet = replace(self.sheet, clubs=list(self.sheet.clubs),
                                  fixtures=list(self.sheet.fixtures), lines=list(self.sheet.lines))
        return other

    def take(self, record: Record) -> None:
        """Takes the next record, or raises `Refused` and changes nothing."""
        if self.sheet is None and record.kind != self.first:
            self._refuse(record, self.missing, 1)
        self._test_place(record)
        if len(record.fields) not in self.widths[record.kind]:
            self._refuse(record, "wrong_width")
        self._takers()[record.kind](record)

    def _takers(self) -> dict:
        return {"league": self._take_league, "club": self.take_club, "match": self._take_match,
                "line": self._take_line, "season": self._take_season}

    def _test_place(self, record: Record) -> None:
        """Whether a record of this kind may stand here."""
        kind, sheet = record.kind, self.sheet
        if kind not in SHEET_WIDTHS:
            self._refuse(record, "unknown_record", 1)
        if sheet is None:
            return
        if kind == "league" or (kind == "club" and (sheet.fixtures or sheet.lines)):
            self._refuse(record, "unknown_record", 1)
        if kind in ("match", "line", "season") and len(sheet.clubs) < 2:
            self._refuse(record, "too_few_clubs", 1)

    def _take_league(self, record: Record) -> None:
        fields = record.fields
        self._name_in(record, 2)
        sheet = Sheet(fields[1], self._number_in(record, 3, 1, MOST_GOAL_LIMIT))
        if len(fields) > 3:
            sheet.budget = self._number_in(record, 4, 1, MOST_BUDGET)
        if len(fields) > 4:
            if fields[4] not in ORDERS:
                self._refuse(record, "bad_field", 5)
            sheet.order = fields[4]
        self.sheet = sheet

    def take_club(self, record: Record) -> None:
        """Takes a club, wherever it stands."""
        name = self._name_in(record, 2)
        rank = self._number_in(record, 3, 1, MOST_RANK)
        if self.sheet.club_named(name):
            self._refuse(record, "club_twice", 2)
        if len(self.sheet.clubs) == MOST_CLUBS:
            self._refuse(record, "too_many")
        self.sheet.clubs.append(Club(len(self.sheet.clubs) + 1, name, rank))

    def _take_match(self, record: Record) -> None:
        home, away = record.fields[1], record.fields[2]
        for position in (2, 3):
            if not self.sheet.club_named(record.fields[position - 1]):
                self._refuse(record, "unknown_club", position)
        if home == away:
            self._refuse(record, "self_match", 3)
        if len(self.sheet.fixtures) == MOST_FIXTURES:
            self._refuse(record, "too_many")
        self.sheet.fixtures.append(Fixture(len(self.sheet.fixtures) + 1, home, away, record.line))

    def _take_line(self, record: Record) -> None:
        places = number_of(record.fields[1])
        if places is None:
            self._refuse(record, "bad_field", 2)
        if not 1 <= places < len(self.sheet.clubs):
            self._refuse(record, "line_range", 2)
        if places in self.sheet.lines:
            self._refuse(record, "line_twice", 2)
        if len(self.sheet.lines) == MOST_LINES:
            self._refuse(record, "too_many")
        self.sheet.lines.append(places)

    def _take_season(self, record: Record) -> None:
        self.is_ended = True

    def _name_in(self, record: Record, position: int) -> str:
        if not is_name(record.fields[position - 1]):
            self._refuse(record, "bad_field", position)
        return record.fields[position - 1]

    def _number_in(self, record: Record, position: int, least: int, most: int) -> int:
        number = number_of(record.fields[position - 1])
        if number is None or not least <= number <= most:
            self._refuse(record, "bad_field", position)
        return number

    def _refuse(self, record: Record, code: str, position: int = 0) -> None:
        raise Refused(record.line, code, position, "sheet")
