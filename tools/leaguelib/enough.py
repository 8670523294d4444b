"""Qualification scores in words and results: how many points are enough, how many too few."""

from __future__ import annotations

from .answers import Score
from .objects import range_of
from .wording import counted


def score_words(score: Score, now: int, left: int, own_goals: bool = False) -> str:
    """What the two scores say of a club with so many points now, and so many matches to play.

    With `own_goals` it is known that wins by enough goals bring it in, however the others end.
    """
    possible, guaranteed = range_of(score.possible), range_of(score.guaranteed)
    if possible is None:
        return "out, with any number of points."
    if guaranteed["most"] <= max(0, now):
        return "in, with any number of points."
    if left == 1:
        parts = [_enough_in_one(guaranteed, now, own_goals), _too_little_in_one(possible, now)]
    else:
        parts = [_enough(guaranteed, now, left, own_goals), _too_few(possible, now, left)]
    return " ".join(part for part in parts if part)


def next_total(points: int, now: int, left: int) -> int:
    """The least total from so many points on that a club can end with; or one more than the most.

    All sums of 3, 1 and 0 can be reached but one: a point less than all matches won.
    """
    most = now + 3 * left
    if points > most:
        return most + 1
    return most if left and points == most - 1 else max(points, now)


def _enough_in_one(found: dict, now: int, own_goals: bool) -> str:
    """Which result of the last match is enough."""
    least, most = found["least"] - now, found["most"] - now
    if most <= 1:
        return "a draw is enough, whatever else happens."
    if most <= 3:
        more = " Whether a draw is enough too is not settled." if least <= 1 else ""
        return "a win is enough, whatever else happens." + more
    if least > 3:
        return ("a win is not enough by itself: the goals count." if own_goals else
                "even a win is not enough by itself.")
    return "whether a win is enough by itself is not settled."


def _too_little_in_one(found: dict, now: int) -> str:
    """Which results of the last match are too little."""
    least, most = found["least"] - now, found["most"] - now
    sure = "With a draw or a defeat it is out." if least > 1 else (
        "With a defeat it is out." if least > 0 else "")
    if most <= 0:
        return "Even with a defeat it can be in."
    return sure if sure or least == most else "Whether a defeat is too little is not settled."


def _enough(found: dict, now: int, left: int, own_goals: bool) -> str:
    """With how many points the club is in for sure."""
    least, most = (next_total(found[end], now, left) for end in ("least", "most"))
    all_won = now + 3 * left
    if not left:
        return "it hangs on the others alone." if least > now else (
            "whether it hangs on the others is not settled.")
    if least > all_won:
        why = ", and the goals count" if own_goals else ""
        return (f"no number of points is enough by itself: with all {3 * left} to come it has "
                f"{all_won}{why}.")
    if most > all_won:
        return (f"whether all {3 * left} points to come, {all_won} in all, are enough by "
                "themselves is not settled.")
    if least != most:
        down = f", down to {least}," if least > now else ""
        return (f"{most} points are enough, whatever else happens; whether fewer are{down} is not "
                "settled.")
    return f"{most} points are enough, whatever else happens: {results_text(most - now, left)}."


def _too_few(found: dict, now: int, left: int) -> str:
    """With how few points the club is out for sure."""
    least, most = (next_total(found[end], now, left) for end in ("least", "most"))
    if most <= now:
        return "Even without another point it can be in." if left else ""
    if least <= now:
        return (f"Whether the {counted(now, 'point')} it has can do is not settled."
                if now > 0 else "Whether they can be in without another point is not settled.")
    needed = needed_text(least - now, left)
    if least != most:
        return (f"With fewer than {least} it is out: {needed}; whether {least} can do is not "
                "settled.")
    return f"With fewer than {least} it is out: {needed}."


def results_text(need: int, left: int) -> str:
    """So many points in results, at the least, out of the matches that are left."""
    if need <= 0:
        return "it has them"
    return f"{counted(need, 'point')} from {left} matches, {least_results(need, left)}"


def needed_text(need: int, left: int) -> str:
    """So many points that are needed at least."""
    verb = "is" if need == 1 else "are"
    return (f"{counted(need, 'point')} from {left} matches {verb} needed at least, "
            f"{least_results(need, left)}")


def least_results(need: int, left: int) -> str:
    """The fewest results that bring so many points: wins, and draws for what is left over."""
    wins, rest = divmod(need, 3)
    if rest and wins + rest > left:
        wins, rest = wins + 1, 0
    parts = []
    if wins:
        parts.append("a win" if wins == 1 else f"{wins} wins")
    if rest:
        parts.append("a draw" if rest == 1 else f"{rest} draws")
    return " and ".join(parts)
