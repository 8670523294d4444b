"""What to say of a line that was likely typed by a slip: a match that has a result already, or a
mark after the score.
"""

from __future__ import annotations

from .names import shown
from .score_texts import Told
from .texts import Entry, Fixture, Season, Sheet


class Unclear(Exception):
    """A line that cannot be turned into a line of the feed, and why; whether `undo` is offered."""

    def __init__(self, message: str, offers_undo: bool = False) -> None:
        super().__init__(message)
        self.message = message
        self.offers_undo = offers_undo


class Known(Unclear):
    """A line that would change nothing, since what it says stands already."""


class Changed(Unclear):
    """A result of a match that has another one; `correction` is the record that would replace it,
    and `typed` how a person writes it.
    """

    def __init__(self, message: str, correction: str, typed: str) -> None:
        super().__init__(message)
        self.correction = correction
        self.typed = typed


def played_text(sheet: Sheet, season: Season, fixture: Fixture) -> str:
    """What to say of a match that has a result: first which match of the two clubs is open."""
    still = [one for one in season.open_fixtures(sheet)
             if {one.home, one.away} == {fixture.home, fixture.away}]
    home, away = season.scores[fixture.number]
    front = "".join(f"open is {one.home} - {one.away} (match {one.number}): did you mean that? "
                    for one in still[:1])
    return (f"{front}{fixture.home} - {fixture.away} (match {fixture.number}) has the result "
            f"{home}-{away} already")


def above_limit(sheet: Sheet, entry: Entry) -> list[str]:
    """What to say of a score above the goal limit; nothing if it is within."""
    if entry.kind not in ("result", "fix") or max(entry.score) <= sheet.goal_limit:
        return []
    fixture, (home, away) = sheet.fixture(entry.fixture), entry.score
    return [f"{fixture.home} {home}-{away} {fixture.away} is above the goal limit "
            f"{sheet.goal_limit} of the sheet: is this meant? It was taken all the same"]


def why_open(told: Told) -> str:
    """Why a match with such a mark gets no result."""
    remark = f": {told.remark}" if told.remark else ""
    until = "has ended" if told.in_play is not None else "is played"
    return (f"{shown(told.word.strip('()[]'))} marks the match as open{remark}. Leave the line out "
            f"until the match {until}")
