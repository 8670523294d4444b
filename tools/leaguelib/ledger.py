"""What a feed tells in its comments, which futmax passes over, and what stood before each ruling.

    # new date: 57,2026-05-13 (Ararat - Beograd)    match 57 is on that day now
    # new date: 57,none (..)                        no day is known for it
    # new date: 57,sheet (..)                       it is on the day of the sheet again
    # awarded: 57,Ararat - Beograd; REASON          the score right below was awarded
    # deducted: Ararat, 3 more (REASON)             how the points right below were ruled
    # undo: ..                                      the line below takes back the one before
"""

from __future__ import annotations

import re
from typing import Dict, List, Optional, Tuple, Union

from .sheet_dates import NEW_DATE
from .texts import Entry, Fixture

UNDO_IN_FRONT = re.compile(r"^#\s*undo\b")
AWARDED = re.compile(r"^#\s*awarded:\s*(\d{1,6})\s*,\s*(.*)$")
DEDUCTED = re.compile(r"^#\s*deducted:\s*(.*\S)\s*$")
OF_SHEET, NO_DAY = "sheet", "none"
WITHDREW = "{} withdrew"

Score = Optional[Tuple[int, int]]


class Ledger:
    """The rulings of a feed so far, in order: for each match or club what stood when."""

    def __init__(self) -> None:
        self.moves: Dict[int, List[str]] = {}
        self.scores: Dict[int, List[Score]] = {}
        self.deductions: Dict[str, List[int]] = {}
        self.awards: Dict[int, str] = {}
        self.ruled: Dict[str, List[str]] = {}
        self._ruling = ""
        self._is_undoing = False

    def pass_over(self, comment: str) -> bool:
        """Takes a line that is no record; whether it moves a match."""
        date, award = NEW_DATE.match(comment), AWARDED.match(comment)
        deducted = DEDUCTED.match(comment)
        self._ruling = deducted.group(1) if deducted else ""
        if date:
            self._note(self.moves.setdefault(int(date.group(1)), [OF_SHEET]), date.group(2))
        elif award:
            self.awards[int(award.group(1))] = award.group(2)
        self._is_undoing = bool(UNDO_IN_FRONT.match(comment))
        return bool(date)

    def note(self, entry: Entry) -> None:
        """Takes a record of the feed that was read."""
        if entry.kind == "deduct":
            self._note_ruling(self.ruled.setdefault(entry.club, []))
            self._note(self.deductions.setdefault(entry.club, [0]), entry.points)
        elif entry.is_event:
            if self._is_undoing:
                self.awards.pop(entry.fixture, None)
            score = None if entry.kind == "void" else entry.score
            self._note(self.scores.setdefault(entry.fixture, [None]), score)

    def _note_ruling(self, ruled: List[str]) -> None:
        """Keeps the words of a deduction, or drops those of the last one where it is taken back."""
        if not self._is_undoing:
            ruled.append(self._ruling)
        elif ruled:
            ruled.pop()
        self._ruling = ""

    def _note(self, stood: list, value: Union[str, int, Score]) -> None:
        """Keeps what stands now; what was taken back goes."""
        if self._is_undoing and len(stood) > 1:
            stood.pop()
        if stood[-1] != value or not self._is_undoing:
            stood.append(value)
        self._is_undoing = False

    def day_of(self, fixture: int) -> str:
        """The new date of a match, `none`, or `sheet` where it has none."""
        return self.moves.get(fixture, [OF_SHEET])[-1]

    def days(self) -> Dict[int, str]:
        """The new dates of all matches that were moved."""
        return {number: stood[-1] for number, stood in self.moves.items()}

    def before(self, stood: Optional[list]) -> list:
        """What stood before what stands, as a list of one; empty if there is nothing to take back.
        """
        return [stood[-2]] if stood and len(stood) > 1 else []


def new_date_line(fixture: Fixture, day: str, reason: str = "") -> str:
    """The comment for the day of a match."""
    return f"# new date: {fixture.number},{day} ({_about(fixture, reason)})"


def awarded_line(fixture: Fixture, reason: str = "") -> str:
    """The comment above a score that was awarded."""
    return f"# awarded: {fixture.number},{_about(fixture, reason)}"


def _about(fixture: Fixture, reason: str) -> str:
    return f"{fixture.home} - {fixture.away}" + (f"; {reason}" if reason else "")
