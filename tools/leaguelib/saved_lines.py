"""The lines of a saved text, tested as docs/formats.md has it: which is the first that may not come
where it stands.
"""

from __future__ import annotations

import json

from .records import count_lines, lines_of, record_of
from .texts import Sheet

SPLITS = ("split", "new_split")
LEAVES = ("leaf", "new_leaf")
TEST_SIZES = {"home": 2, "draw": 2, "hg": 3, "ag": 3, "rival": 2}
MOST_GOALS_OF_TEST = 98


class SavedLines:
    """Takes the lines of a saved text one by one.

    `due` has the rivals asked on the way to each part of the tree that must come yet, the next one
    last.
    """

    def __init__(self, sheet: Sheet) -> None:
        self.sheet = sheet
        self.rows = [["saved", str(places), club.name, claim] for places in sheet.lines
                     for club in sheet.clubs for claim in ("inside", "outside")]
        self.place = -1
        self.due: list[frozenset] = []
        self.is_ended = False

    def takes(self, number: int, raw: bytes) -> bool:
        """Takes a line that may come next; whether it does."""
        if raw.startswith(b"["):
            return self._takes_node(raw)
        record = record_of(number, raw)
        if record is None:
            return True
        if self.due or record.has_return:
            return False
        if record.fields == ["saved_end"]:
            self.is_ended = True
            return True
        later = self.rows[self.place + 1:]
        if record.fields not in later:
            return False
        self.place += 1 + later.index(record.fields)
        self.due = [frozenset()]
        return True

    def _takes_node(self, raw: bytes) -> bool:
        """Takes a node of a tree."""
        try:
            line = json.loads(raw)
        except (ValueError, RecursionError):
            return False
        if not self.due or not isinstance(line, list) or not line:
            return False
        asked = self.due[-1]
        if line[0] in SPLITS and self._is_test(line[1:]):
            if line[1] == "rival":
                if line[2] in asked:
                    return False
                asked = asked | {line[2]}
            self.due[-1:] = [asked, asked]
            return True
        if line == ["open"] or (line[0] in LEAVES and self._is_reason(line[1:])):
            self.due.pop()
            return True
        return False

    def _is_other_club(self, number: object) -> bool:
        """Whether it is the number of a club other than the question's."""
        clubs = self.sheet.clubs
        return (type(number) is int and 1 <= number <= len(clubs)
                and clubs[number - 1].name != self.rows[self.place][2])

    def _is_test(self, test: list) -> bool:
        """Whether a tree of the question may ask this."""
        kind = test[0] if test and isinstance(test[0], str) else ""
        if TEST_SIZES.get(kind) != len(test):
            return False
        if kind == "rival":
            return self._is_other_club(test[1])
        return (type(test[1]) is int and 1 <= test[1] <= len(self.sheet.fixtures)
                and (len(test) == 2
                     or (type(test[2]) is int and 0 <= test[2] <= MOST_GOALS_OF_TEST)))

    def _is_reason(self, reason: list) -> bool:
        """Whether a leaf of a tree of the question may have this reason."""
        if len(reason) == 1:
            return reason[0] in ("count", "window", "tie")
        if len(reason) != 2 or reason[0] not in ("low", "high") or type(reason[1]) is not list:
            return False
        clubs = reason[1]
        return (bool(clubs) and all(self._is_other_club(club) for club in clubs)
                and all(one < other for one, other in zip(clubs, clubs[1:])))


def first_bad_line(sheet: Sheet, data: bytes, proofs: int) -> int:
    """The first line after `proofs` that no saved text has there; 0 if the text is whole."""
    text = SavedLines(sheet)
    for number, raw in lines_of(data):
        if number <= proofs:
            continue
        if not text.takes(number, raw):
            return number
        if text.is_ended:
            return 0
    return count_lines(data) + 1
