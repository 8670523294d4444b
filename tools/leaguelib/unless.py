"""When a draw in the last match is not enough: "A draw is enough too, unless City wins by nine".

It is told where one other match decides it, and the program has said `clinched` for each draw with
each score of that match but those that are named, whatever the remaining matches do.
"""

from __future__ import annotations

from .answers import Score
from .objects import range_of
from .texts import Fixture
from .trial import Scores, Trial
from .ways import dropped
from .wording import counted, shown

MOST_ASKS = 1_200


def can_draw_be_enough(score: Score, now: int) -> bool:
    """Whether a win is enough for sure, and a draw is neither that nor too little."""
    possible, guaranteed = range_of(score.possible), range_of(score.guaranteed)
    return (possible is not None and 1 < guaranteed["least"] - now
            and guaranteed["most"] - now <= 3 and possible["most"] - now <= 1)


def unless_text(trial: Trial, club: str, own: Fixture) -> str:
    """Unless which result of which match a draw is enough; nothing if no one match tells it."""
    decisive = _decisive(trial, club, own.number)
    if decisive is None:
        return ""
    other, score = decisive
    margin = abs(score[0] - score[1])
    goals = range(trial.sheet.goal_limit + 1)
    draws = [(count, count) for count in goals]
    for least in range(margin, 0, -1) if margin else [0]:
        kept = [it for it in ((home, away) for home in goals for away in goals)
                if not _is_named(it, score, least)]
        if len(kept) * len(draws) + trial.asks > MOST_ASKS:
            return ""
        if all(trial.word(club, {own.number: draw, other.number: it}) == "clinched"
               for it in kept for draw in draws):
            return f"A draw is enough too, unless {_result_text(other, score, least)}."
    return ""


def _decisive(trial: Trial, club: str, own: int) -> tuple[Fixture, tuple[int, int]] | None:
    """The one match whose score puts the club out after a draw; none if it takes more."""
    for draw in ((0, 0), (trial.sheet.goal_limit,) * 2):
        found = trial.example(club, {own: draw}, "outside")
        if found is None or trial.word(club, {own: draw, **found}) != "lost":
            continue
        kept = dropped(trial, club, {**found, own: draw}, "lost", keeps=(own,))
        others: Scores = {number: it for number, it in kept.items() if number != own}
        if len(others) == 1:
            number, score = next(iter(others.items()))
            return trial.sheet.fixture(number), score
    return None


def _is_named(score: tuple[int, int], like: tuple[int, int], least: int) -> bool:
    """Whether a score is a win of the same side by so many goals, or a draw as the other is."""
    lead, sign = score[0] - score[1], like[0] - like[1]
    if sign == 0:
        return lead == 0
    return lead * sign > 0 and abs(lead) >= least


def _result_text(fixture: Fixture, score: tuple[int, int], least: int) -> str:
    """A result of a match in words."""
    home, away = shown(fixture.home), shown(fixture.away)
    if score[0] == score[1]:
        return f"{home} and {away} draw"
    winner, loser = (home, away) if score[0] > score[1] else (away, home)
    if least == 1:
        return f"{winner} beats {loser}"
    return f"{winner} beats {loser} by {counted(least, 'goal')} or more"
