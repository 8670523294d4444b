"""A season with scores supposed, tried by the program: what becomes of a club then."""

from __future__ import annotations

from typing import Dict, Tuple

from .answer_end import AnswerEnd
from .answers import read_report
from .modes import DECIDE, known_mode, mode_words
from .records import fields_of
from .session import Session
from .texts import Season, Sheet

Scores = Dict[int, Tuple[int, int]]


class Trial:
    """A running futmax with one line, which is told scores of open matches and takes them back.

    `asks` counts the questions that were put.
    """

    def __init__(self, path: str, data: bytes, sheet: Sheet, season: Season, places: int) -> None:
        self.sheet = sheet
        self.season = season
        self.places = places
        self.asks = 0
        self.supposed: Scores = {}
        self.session = Session([path, *mode_words(known_mode(path, DECIDE))], data,
                               lambda: AnswerEnd(len(sheet.clubs), 1, DECIDE))
        self.session.start()

    def __enter__(self) -> Trial:
        return self

    def __exit__(self, *_: object) -> None:
        self.session.stop()

    def word(self, club: str, scores: Scores) -> str:
        """The verdict on a club where these open matches end so, and the others are open still."""
        for raw in self._answer(scores):
            if raw.startswith(b"verdict,"):
                fields = fields_of(raw.rstrip(b"\r\n"))
                if fields[2] == club:
                    return fields[3]
        return "unsettled"

    def example(self, club: str, scores: Scores, claim: str) -> Scores | None:
        """How the other matches can end so that the club is inside, or outside; none if unknown."""
        verdicts = read_report(b"".join(self._answer(scores))).answers[0].verdicts
        found = next((it for it in verdicts if it.club == club), None)
        if found is None or claim not in found.examples:
            return None
        return dict(found.examples[claim].scores)

    def _answer(self, scores: Scores) -> list[bytes]:
        """The lines of the answer where these open matches end so."""
        self._suppose(scores)
        self.asks += 1
        return self.session.ask()

    def _suppose(self, scores: Scores) -> None:
        """Tells the program what is new, and takes back what holds no longer."""
        for number in list(self.supposed):
            if number not in scores:
                self.session.send(f"void,{number}")
        for number, score in scores.items():
            if self.supposed.get(number) != score:
                kind = "fix" if number in self.supposed else "result"
                self.session.send(f"{kind},{number},{score[0]},{score[1]}")
        self.supposed = dict(scores)


def trial_data(data: bytes) -> bytes:
    """An input without its asks, as a trial begins with it."""
    return b"".join(raw + b"\n" for raw in data.split(b"\n")
                    if fields_of(raw.rstrip(b"\r"))[:1] != ["ask"])
