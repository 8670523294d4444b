"""The runners-up of a cup's groups, with the sums by which they are compared, and a key in words.

A key has seven parts, of which each counts before the next: points, goal difference, goals, away
goals, wins and away wins over the matches of the group, and 1,000 less the club's fixed rank.
"""

from __future__ import annotations

from dataclasses import dataclass
from typing import Tuple

from .answers import Place
from .cups import Cup, Group
from .texts import Club, Season
from .wording import counted, listed
from .zones import match_points

Key = Tuple[int, ...]
NOUNS = ("goal", "away goal", "win", "away win")
RANK_BASE = 1_000
BEYOND = 100_000
# more points than 60 matches give
MOST_POINTS = 180


@dataclass(frozen=True)
class Runner:
    """A club in the second place of its group, and the places from 1 that lots leave it among the
    runners-up.
    """

    club: str
    group: Group
    key: Key
    best: int
    worst: int


def key_of(season: Season, group: Group, club: Club) -> Key:
    """The key of a club from the matches played."""
    sums = [-season.deductions.get(club.name, 0), 0, 0, 0, 0, 0]
    for fixture in group.fixtures:
        score = season.scores.get(fixture.number)
        if score is None or club.name not in (fixture.home, fixture.away):
            continue
        is_away = fixture.away == club.name
        own, its = score[::-1] if is_away else score
        won = int(own > its)
        parts = (match_points(score)[is_away], own - its, own, own * is_away, won, won * is_away)
        sums = [total + part for total, part in zip(sums, parts)]
    return (*sums, RANK_BASE - club.rank)


def of_group(table: list[Place], group: Group) -> list[Place]:
    """The rows of a group in the tables of all groups."""
    return [place for place in table if group.club_named(place.club)]


def runners_up(cup: Cup, season: Season, table: list[Place]) -> list[Runner]:
    """The club in the second row of each group's table, the best first."""
    found = []
    for group in cup.groups:
        name = of_group(table, group)[1].club
        found.append((name, group, key_of(season, group, group.club_named(name))))
    found.sort(key=lambda one: one[2], reverse=True)
    keys = [key for _, _, key in found]
    return [Runner(name, group, key, 1 + keys.index(key), keys.index(key) + keys.count(key))
            for name, group, key in found]


def key_words(key: Key) -> str:
    """A key in words; what is beyond any sum at its end says nothing, and is left out."""
    parts = list(key)
    while len(parts) > 1 and abs(parts[-1]) >= BEYOND:
        parts.pop()
    words = [counted(parts[0], "point")]
    if len(parts) > 1:
        words.append(f"goal difference {parts[1]:+d}" if parts[1] else "goal difference 0")
    words += [counted(part, noun) for part, noun in zip(parts[2:], NOUNS)]
    if len(parts) == len(key):
        words.append(f"rank {RANK_BASE - parts[-1]}")
    return listed(words)
