"""Matches by names, as every reader of lists gives them, and what is said about a list."""

from __future__ import annotations

import re
from collections import Counter
from dataclasses import dataclass, field, replace

from .common import Trouble
from .name_words import plain_form
from .names import shown

GROUP_HEAD = re.compile(r"(?:group|gruppe|grupo|gruppo|groupe|girone|poule)\s+([^\s:|]+)",
                        re.IGNORECASE)
MATCHDAY = re.compile(r"(?:matchday|round|spieltag|jornada|giornata|journée|week|day)\s+\d",
                      re.IGNORECASE)
MOST_QUOTED = 1
MOST_WRONG = 10
MOST_SHOWN = 120
MOST_OF_PASSED = 60
PLURALS = {"heading": "headings", "line with a date": "lines with a date",
           "line of scorers": "lines of scorers", "row of heads": "rows of heads",
           "line outside the cross table": "lines outside the cross table",
           "match without a score": "matches without a score"}


@dataclass(frozen=True)
class Match:
    """A match by names, its score and date where they are known, and where it stands.

    `text` is the line as it stands in the file; `file` is empty if it was typed. `winner` is the
    side to which it was awarded without a score; `turn` says which of how many matches of the same
    two clubs in the list it is, from 0.
    """

    home: str
    away: str
    score: tuple[int, int] | None = None
    date: str = ""
    line: int = 0
    text: str = ""
    file: str = ""
    winner: str = ""
    turn: tuple[int, int] = (0, 0)

    @property
    def place(self) -> str:
        """The file and line, as messages begin."""
        return f"{self.file}, line {self.line}" if self.file else f"line {self.line}"


@dataclass(frozen=True)
class Passed:
    """A line that gave no match or no score: why, and the line itself."""

    why: str
    line: int
    text: str


@dataclass
class MatchList:
    """The matches of a list, its title where it has one, and what has to be said about it.

    `notes` are what looks odd, `passed` what was passed over and holds nothing that counts. Where
    it `is_cross`, each pair stands in it twice, however often they meet. `divisions` has the clubs
    of each value of a column like `Div`, by its head; `groups` the group of each club, where a
    column or headings name it. `days` is the order of its dates like 8/15/2024, where they tell it.
    """

    matches: list[Match] = field(default_factory=list)
    title: str = ""
    notes: list[str] = field(default_factory=list)
    passed: list[Passed] = field(default_factory=list)
    file: str = ""
    is_cross: bool = False
    days: str = ""
    divisions: dict[str, dict[str, set[str]]] = field(default_factory=dict)
    groups: dict[str, str] = field(default_factory=dict)

    def note_division(self, head: str, value: str, clubs: set[str]) -> None:
        """Notes that these clubs play in a division that a column with this head names."""
        self.divisions.setdefault(head, {}).setdefault(value, set()).update(clubs)

    def note_groups(self) -> None:
        """Notes the groups that headings like `Group A` name, of the matches below them."""
        heads = sorted((one.line, one.text) for one in self.passed if one.why == "heading")
        for match in self.matches:
            above = [text for line, text in heads if line < match.line
                     and not MATCHDAY.match(text.strip(" \t|=▪»"))]
            found = GROUP_HEAD.match(above[-1].strip(" \t|=▪»")) if above else None
            if found:
                for club in (match.home, match.away):
                    self.groups.setdefault(club, found.group(1))

    def test_divisions(self) -> None:
        """Raises `Trouble` if a column names several divisions that share no club."""
        for head, found in self.divisions.items():
            clubs = [club for names in found.values() for club in names]
            if len(found) > 1 and len(clubs) == len(set(clubs)):
                values = ", ".join(f"{shown(value)} ({len(names)} clubs)"
                                   for value, names in found.items())
                raise Trouble(f"the column {quoted(head)} has {len(found)} divisions that share no "
                              f"club: {values}. A sheet is one league: keep the rows of one of "
                              f"them under the heads, or give --as-is if they are one league")

    def note_turns(self) -> None:
        """Notes which of how many matches of the same two clubs each one is, in the order of the
        list; of none where their dates have another order.
        """
        places: dict[tuple[str, str], list[int]] = {}
        for place, match in enumerate(self.matches):
            key = (plain_form(match.home), plain_form(match.away))
            places.setdefault(key, []).append(place)
        for held in places.values():
            dates = [self.matches[place].date for place in held]
            if len(held) > 1 and dates == sorted(dates):
                for turn, place in enumerate(held):
                    self.matches[place] = replace(self.matches[place], turn=(turn, len(held)))

    def add(self, match: Match) -> None:
        """Takes a match."""
        self.matches.append(match)

    def passed_text(self) -> str:
        """What was passed over, in a sentence; nothing if nothing was."""
        counts = Counter(one.why for one in self.passed)
        parts = []
        for why, number in counts.items():
            first = [one for one in self.passed if one.why == why][:MOST_QUOTED]
            lines = "; ".join(f"line {one.line} {quoted(one.text, MOST_OF_PASSED)}"
                              for one in first)
            more = ", .." if number > len(first) else ""
            parts.append(f"{number} {plural(why, number)} ({lines}{more})")
        return f"{self.file or 'the list'}: skipped: " + ", ".join(parts) if parts else ""


def plural(why: str, number: int) -> str:
    """What was passed over, for one line or several."""
    if number == 1:
        return why
    for one, many in PLURALS.items():
        if why.startswith(one):
            return many + why[len(one):]
    return why


def quoted(text: str, most: int = MOST_SHOWN) -> str:
    """A line as a message shows it, and no more than its front where it is long."""
    line = text.rstrip("\r\n").strip()
    return shown(line if len(line) <= most else line[:most] + "..")


class Wrong:
    """The lines of a list that cannot be read, each with its reason and as it stands."""

    def __init__(self, file: str) -> None:
        self.file = file
        self.messages: list[str] = []

    def add(self, line: int, why: str, text: str) -> None:
        """Notes a line."""
        front = f"{self.file}, " if self.file else ""
        self.messages.append(f"{front}line {line}: {why}: {quoted(text)}")

    def refuse(self, hint: str = "") -> None:
        """Raises `Trouble` with the first of them, if there are any."""
        if self.messages:
            raise Trouble(self.text(hint))

    def text(self, hint: str = "") -> str:
        """The first of the lines, and how many more there are."""
        number = len(self.messages) - MOST_WRONG
        more = [f"and {number} more line{'s' if number > 1 else ''}"] if number > 0 else []
        return "\n".join(self.messages[:MOST_WRONG] + more + ([hint] if hint else []))
