"""What changed between two answers, in words, and how an answer stands in few words."""

from __future__ import annotations

from dataclasses import dataclass
from typing import Dict, Iterable, Tuple

from .answers import Verdict
from .line_names import LineNames
from .wording import counted, listed, shown

ARROW = "→"
FEW = 6
SHORT = {"clinched": "in", "lost": "out", "possible": "open", "unsettled": "not settled"}

Words = Dict[Tuple[int, str], str]


@dataclass(frozen=True)
class Change:
    """A line and club of which two answers say different words."""

    places: int
    club: str
    before: str
    now: str

    @property
    def is_of_search(self) -> bool:
        """Whether only the search got further, or not so far: no result need be behind it."""
        return "unsettled" in (self.before, self.now)


def words_of(verdicts: Iterable[Verdict]) -> Words:
    """The word of each line and club."""
    return {(verdict.places, verdict.club): verdict.word for verdict in verdicts}


def changes_between(before: Words, now: Words) -> list[Change]:
    """The lines and clubs whose word is another one now, in the order of the later answer."""
    return [Change(places, club, before[(places, club)], word)
            for (places, club), word in now.items()
            if before.get((places, club), word) != word]


def change_text(change: Change, names: LineNames) -> str:
    """A change in words."""
    return (f"{shown(change.club)}, {names.place(change.places)}: "
            f"{SHORT[change.before]} {ARROW} {SHORT[change.now]}")


def summary(words: Words, names: LineNames) -> list[str]:
    """One sentence a line: who has it, who can have it, and who cannot any more."""
    texts = []
    for places in dict.fromkeys(places for places, _ in words):
        text = names.place(places)
        parts = [f"{SHORT[word]}: {_clubs(clubs)}"
                 for word, clubs in clubs_by_word(words, places).items()]
        texts.append(f"{text[0].upper()}{text[1:]} - " + "; ".join(parts))
    return texts


def clubs_by_word(words: Words, places: int) -> dict[str, list[str]]:
    """The clubs of a line by their word, in the order of the answer; words of nobody left out."""
    clubs: dict[str, list[str]] = {word: [] for word in ("clinched", "possible", "lost",
                                                         "unsettled")}
    for (line, club), word in words.items():
        if line == places:
            clubs[word].append(club)
    return {word: found for word, found in clubs.items() if found}


def _clubs(names: list[str]) -> str:
    """Clubs by their names, or their number where they are many."""
    if len(names) > FEW:
        return counted(len(names), "club")
    return listed([shown(name) for name in names])
