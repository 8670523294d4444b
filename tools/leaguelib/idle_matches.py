"""Matches of an example that points show not to matter: each of their clubs ends with fewer points
than the club that is asked about, or each of them with more, or one so and one so.

Who is ahead of whom is decided by points first, and matches of clubs that are not level with the
club count for no criterion between those that are.
"""

from __future__ import annotations

from typing import Iterable

from .trial import Scores, Trial
from .zones import Zone, match_points


def idle_matches(trial: Trial, club: str, scores: Scores, candidates: Iterable[int]) -> list[int]:
    """Those of the candidates that can end as they like, with the other scores told.

    Matches without a told score may end as they like already. None if one of them is the
    club's own, as its points are not known then.
    """
    sheet = trial.sheet
    zone = Zone(sheet, trial.season, 1)
    least = {one.name: zone.points_now(one.number) for one in sheet.clubs}
    most = dict(least)
    for it in trial.season.open_fixtures(sheet):
        if it.number not in scores and club in (it.home, it.away):
            return []
        told = match_points(scores[it.number]) if it.number in scores else (0, 0)
        for side, points in zip((it.home, it.away), told):
            least[side] += points
            most[side] += points if it.number in scores else 3
    found = []
    for number in candidates:
        it = sheet.fixture(number)
        sides = list(zip((it.home, it.away), match_points(scores[number])))
        if all(most[side] + 3 - points < least[club] or least[side] - points > least[club]
               for side, points in sides):
            found.append(number)
            for side, points in sides:
                least[side] -= points
                most[side] += 3 - points
    return found
