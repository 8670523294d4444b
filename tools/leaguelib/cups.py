"""Cups: groups of clubs whose winners qualify, and as many of the runners-up as the sheet says. A
cup is a sheet over all clubs and fixtures of its groups, so that feeds are those of leagues.
"""

from __future__ import annotations

from dataclasses import dataclass, field, replace

from .records import Record, Refused, number_of, records_of
from .texts import MOST_BUDGET, MOST_GOAL_LIMIT, MOST_RANK, Club, Fixture, Sheet, SheetReader
from .wording import shown

LEAST_CLUBS, MOST_CLUBS = 3, 6
LEAST_GROUPS, MOST_GROUPS = 2, 12
MOST_FIXTURES = 60
CUP_WIDTHS = {"cup": (5,), "group": (2,), "club": (3,), "match": (3,), "season": (1,)}


@dataclass
class Group:
    """A group: its clubs and fixtures have the numbers of the cup."""

    name: str
    clubs: list[Club] = field(default_factory=list)
    fixtures: list[Fixture] = field(default_factory=list)

    @property
    def title(self) -> str:
        """What the group is called among other words."""
        name = shown(self.name)
        return name if " " in name else f"Group {name}"

    def club_named(self, name: str) -> Club | None:
        """The club of the group of exactly this name."""
        return next((club for club in self.clubs if club.name == name), None)


@dataclass
class Cup(Sheet):
    """A cup. Its one line is the number of runners-up that qualify, as the rows of verdicts tell
    it.
    """

    quota: int = 0
    groups: list[Group] = field(default_factory=list)

    @property
    def is_cup(self) -> bool:
        """True."""
        return True

    def group_of(self, club: str) -> Group:
        """The group in which a club plays."""
        return next(group for group in self.groups if group.club_named(club))

    def sheet_of(self, group: Group) -> Sheet:
        """The group as a league of its own, under its own numbers and without a line."""
        first = group.clubs[0].number if group.clubs else 1
        before = group.fixtures[0].number if group.fixtures else 1
        return Sheet(group.name, self.goal_limit, self.budget, self.order,
                     [replace(club, number=club.number - first + 1) for club in group.clubs],
                     [replace(one, number=one.number - before + 1) for one in group.fixtures])


class CupReader(SheetReader):
    """Takes the records of a cup's sheet one by one; `sheet` is there from the first record on."""

    first, missing, widths = "cup", "no_cup", CUP_WIDTHS
    sheet: Cup | None

    def copy(self) -> CupReader:
        """The same reader, to be tried apart from this one."""
        other = CupReader()
        other.is_ended = self.is_ended
        if self.sheet is not None:
            groups = [Group(group.name, list(group.clubs), list(group.fixtures))
                      for group in self.sheet.groups]
            other.sheet = replace(self.sheet, clubs=list(self.sheet.clubs), groups=groups,
                                  fixtures=list(self.sheet.fixtures))
        return other

    @property
    def group(self) -> Group | None:
        """The group begun last, if one was begun."""
        return self.sheet.groups[-1] if self.sheet is not None and self.sheet.groups else None

    def _takers(self) -> dict:
        return {"cup": self._take_cup, "group": self._take_group, "club": self.take_club,
                "match": self._take_match, "season": self._take_season}

    def _test_place(self, record: Record) -> None:
        """Whether a record of this kind may stand here."""
        kind, group = record.kind, self.group
        is_misplaced = self.sheet is not None and (
            kind == "cup" or (kind in ("club", "match") and group is None)
            or (kind == "club" and bool(group.fixtures)))
        if kind not in CUP_WIDTHS or is_misplaced:
            self._refuse(record, "unknown_record", 1)
        if kind in ("match", "group", "season") and group and len(group.clubs) < LEAST_CLUBS:
            self._refuse(record, "too_few_clubs", 1)

    def _take_cup(self, record: Record) -> None:
        name = self._name_in(record, 2)
        limit = self._number_in(record, 3, 1, MOST_GOAL_LIMIT)
        budget = self._number_in(record, 4, 1, MOST_BUDGET)
        quota = number_of(record.fields[4])
        if quota is None:
            self._refuse(record, "bad_field", 5)
        self.sheet = Cup(name, limit, budget, lines=[quota], quota=quota)

    def _take_group(self, record: Record) -> None:
        name = self._name_in(record, 2)
        if len(self.sheet.groups) == MOST_GROUPS:
            self._refuse(record, "too_many")
        self.sheet.groups.append(Group(name))

    def take_club(self, record: Record) -> None:
        """Takes a club of the group begun last, wherever it stands."""
        name = self._name_in(record, 2)
        rank = self._number_in(record, 3, 1, MOST_RANK)
        if self.sheet.club_named(name):
            self._refuse(record, "club_twice", 2)
        if len(self.sheet.groups[-1].clubs) == MOST_CLUBS:
            self._refuse(record, "too_many")
        club = Club(len(self.sheet.clubs) + 1, name, rank)
        self.sheet.clubs.append(club)
        self.sheet.groups[-1].clubs.append(club)

    def _take_match(self, record: Record) -> None:
        home, away = record.fields[1], record.fields[2]
        for position in (2, 3):
            if not self.group.club_named(record.fields[position - 1]):
                self._refuse(record, "unknown_club", position)
        if home == away:
            self._refuse(record, "self_match", 3)
        if len(self.group.fixtures) == MOST_FIXTURES:
            self._refuse(record, "too_many")
        fixture = Fixture(len(self.sheet.fixtures) + 1, home, away, record.line)
        self.sheet.fixtures.append(fixture)
        self.group.fixtures.append(fixture)

    def _take_season(self, record: Record) -> None:
        if len(self.sheet.groups) < LEAST_GROUPS:
            self._refuse(record, "too_few_groups")
        if not 1 <= self.sheet.quota < len(self.sheet.groups):
            self._refuse(record, "quota_range")
        self.is_ended = True


def reader_for(record: Record, is_cup: bool | None = None) -> SheetReader:
    """The reader of a sheet that this record begins, or of what the sheet is known to be."""
    if is_cup is None:
        is_cup = record.kind == CupReader.first
    return CupReader() if is_cup else SheetReader()


def begins_a_cup(data: bytes) -> bool:
    """Whether the first record of an input is that of a cup."""
    return first_kind(data) == CupReader.first


def first_kind(data: bytes) -> str:
    """The first field of an input's first record; nothing if it has none."""
    try:
        return next((record.kind for record in records_of(data)), "")
    except Refused:
        return ""
