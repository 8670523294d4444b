"""The groups of a cup: as a file tells them, as a list of matches names them, or by who plays whom;
and the matches of a group in which each pair meets equally often.
"""

from __future__ import annotations

import re
from dataclasses import dataclass, field

from . import common
from .cups import LEAST_CLUBS, MOST_CLUBS
from .match_list import Match, MatchList
from .names import nearest_name
from .wording import listed, shown

LETTERS = "ABCDEFGHIJKLMNOPQRSTUVWXYZ"


@dataclass
class Drawn:
    """A group: its name, its clubs in their order, and its matches in theirs.

    `days` are the matchdays of matches that no list has.
    """

    name: str
    clubs: list[str]
    matches: list[Match] = field(default_factory=list)
    days: list[list[tuple[str, str]]] = field(default_factory=list)


def groups_in_file(path: str) -> list[Drawn]:
    """The groups of a file with lines `A: Germany, Scotland, Hungary, Switzerland`."""
    found: list[Drawn] = []
    text = common.test_list(common.read_bytes(path), path).decode("utf-8-sig", "replace")
    for number, line in enumerate(text.splitlines(), 1):
        if not line.strip() or line.startswith("#"):
            continue
        name, sign, rest = line.partition(":")
        clubs = [part.strip() for part in re.split(r"[,;\t]", rest) if part.strip()]
        name = re.sub(r"^(?:group|gruppe|grupo|gruppo|groupe)\s+(?=\S)", "", name.strip(),
                      flags=re.IGNORECASE)
        if not sign or not name or not clubs:
            raise common.Trouble(f"{path}, line {number}: a group is written like `A: Germany, "
                                 "Scotland, Hungary, Switzerland`")
        found.append(Drawn(name, clubs))
    if not found:
        raise common.Trouble(f"{path}: there is no group")
    return found


def with_matches(groups: list[Drawn], matches: list[Match]) -> list[Drawn]:
    """The groups with the matches of a list; raises `Trouble` if one belongs to none of them."""
    of_club = {club: group for group in groups for club in group.clubs}
    for match in matches:
        for name in (match.home, match.away):
            if name not in of_club:
                near = nearest_name(name, of_club)
                hint = f"; the nearest name there is {shown(near)}" if near else ""
                raise common.Trouble(f"{match.place}: no group has {shown(name)}{hint}")
        if of_club[match.home] is not of_club[match.away]:
            raise common.Trouble(f"{match.place}: {_between(match)} play in two groups. {LATER}")
        of_club[match.home].matches.append(match)
    return groups


LATER = "Leave out matches between groups, as those of later rounds are"


def groups_in_list(found: MatchList) -> list[Drawn]:
    """The groups of a list: those that it names, and of clubs without one those that play each
    other, with letters for names.
    """
    label = {name: name for match in found.matches for name in (match.home, match.away)}
    heads = {name: f"\n{group}" for name, group in found.groups.items()}
    parents: dict[str, str] = {**label, **{head: head for head in heads.values()}}
    for match in found.matches:
        _test_heads(match, heads)
        _join(parents, match.home, match.away)
    for name, head in heads.items():
        _join(parents, name, head)
    clubs: dict[str, list[str]] = {}
    for name in label:
        clubs.setdefault(_root(parents, name), []).append(name)
    named = {_root(parents, head): head[1:] for head in heads.values()}
    free = (letter for letter in LETTERS if letter not in named.values())
    groups = [Drawn(named[root] if root in named else next(free, "Z"), names)
              for root, names in clubs.items()]
    if len(named) == len(groups):
        groups.sort(key=lambda group: group.name)
    return with_matches(groups, found.matches)


def _test_heads(match: Match, heads: dict[str, str]) -> None:
    """Raises `Trouble` at a match of clubs that the list has in two groups."""
    first, second = heads.get(match.home), heads.get(match.away)
    if first and second and first != second:
        raise common.Trouble(f"{match.place}: {_between(match)} play in two groups, {first[1:]} "
                             f"and {second[1:]}. {LATER}")


def _between(match: Match) -> str:
    return f"{shown(match.home)} and {shown(match.away)}"


def _root(parents: dict[str, str], name: str) -> str:
    """The name that stands for all that are joined with this one."""
    while parents[name] != name:
        name = parents[name]
    return name


def _join(parents: dict[str, str], first: str, second: str) -> None:
    """Joins two names and all that are joined with them."""
    parents[_root(parents, second)] = _root(parents, first)


def test_sizes(groups: list[Drawn]) -> None:
    """Raises `Trouble` at a group with too few or too many clubs."""
    for group in groups:
        if not LEAST_CLUBS <= len(group.clubs) <= MOST_CLUBS:
            clubs = listed([shown(club) for club in group.clubs[:12]])
            raise common.Trouble(f"the group {shown(group.name)} has {len(group.clubs)} clubs, "
                                 f"and a group has {LEAST_CLUBS} to {MOST_CLUBS}: {clubs}. {LATER}")


def round_robin(clubs: list[str], rounds: int) -> list[list[tuple[str, str]]]:
    """Matchdays in which each pair meets so often, at home by turns."""
    ring: list[str | None] = [*clubs] + [None] * (len(clubs) % 2)
    half, days = len(ring) // 2, []
    for day in range(len(ring) - 1):
        pairs = list(zip(ring[:half], reversed(ring[half:])))
        # the first club stays where it is, and is at home every other day
        pairs[0] = pairs[0][::-1] if day % 2 else pairs[0]
        days.append([pair for pair in pairs if None not in pair])
        ring = [ring[0], ring[-1], *ring[1:-1]]
    turned = [[pair[::-1] for pair in day] for day in days]
    return [day for number in range(rounds) for day in (turned if number % 2 else days)]
