"""How often each pair of clubs meets in a list, and which matches full rounds still need."""

from __future__ import annotations

from collections import Counter
from dataclasses import dataclass, field
from itertools import combinations

from .doubts import some, some_pairs, times
from .match_list import Match, MatchList
from .names import are_alike, shown
from .wording import counted


@dataclass
class Gaps:
    """What a list has too little and too much of, for so many meetings of each pair.

    `missing` are matches with home and away, `unsure` those whose home side nothing tells.
    """

    rounds: int
    missing: list[tuple[str, str]] = field(default_factory=list)
    extra: list[tuple[str, str]] = field(default_factory=list)
    unsure: list[tuple[str, str]] = field(default_factory=list)

    def extra_text(self) -> str:
        """What to say where pairs meet too often."""
        return (f"if each pair meets {times(self.rounds)}, these stand too often in the list "
                f"(home - "
                f"away): {some_pairs(self.extra)}. Leave out duplicates, or exchange home and "
                f"away if they are wrong, or give --rounds N for how often each pair meets, or "
                "--as-is if the list is meant so")

    def missing_text(self, are_played: bool) -> str:
        """What to say where pairs meet too seldom, or where every match was played."""
        if are_played and not self.missing:
            return ("all matches of this list have a score: are there matches to come? Each pair "
                    f"meets {times(self.rounds)} in it. Give --rounds N for how often each pair "
                    f"meets in the season, and what is missing is added as open matches; or give "
                    f"--as-is if the list is the whole season")
        number = len(self.missing)
        front = f"the list is not complete: each pair meets {times(self.rounds)}, but for "
        if are_played:
            front = ("all matches of this list have a score, and it is not complete: it seems to "
                     "be a list of results, without the matches to come. Missing "
                     f"{'is' if number == 1 else 'are'} ")
        names = some([f"{home} - {away}" for home, away in self.missing])
        return (f"{front}{number} match{'' if number == 1 else 'es'}: {names}. Add them; or give "
                f"--rounds N for how often each pair meets, and they are added as open matches; "
                f"or give --as-is if the list is meant so")

    def notes(self) -> list[str]:
        """What to say about matches that were added."""
        notes = []
        if self.missing:
            notes.append(f"{counted(len(self.missing), 'match was', 'matches were')} added that "
                         f"the list does not have: {some_pairs(self.missing)}")
        if self.unsure:
            notes.append("nothing says who is at home in these; look at them: "
                         f"{some_pairs(self.unsure)}")
        return notes


def usual_rounds(matches: list[Match]) -> int:
    """How often each pair meets, as far as the list tells: the number of most pairs that meet.

    Where many pairs meet in both orders, or some do in a list of results, each pair meets twice.
    """
    pairs = Counter(frozenset((match.home, match.away)) for match in matches)
    directed = {(match.home, match.away) for match in matches}
    numbers = Counter(pairs.values())
    usual = max(numbers, key=lambda number: (numbers[number], number))
    both_ways = sum((away, home) in directed for home, away in directed) // 2
    are_played = all(match.score is not None for match in matches)
    is_double = both_ways * 3 >= len(pairs) or (are_played and both_ways > 0)
    return max(usual, 2) if is_double else usual


def look_at_cross(found: MatchList, rounds: int | None) -> None:
    """Takes one cell of each pair where each meets once, or says that it may be meant so."""
    if rounds == 1:
        found.matches = of_one_round(found.matches)
    elif rounds is None and is_half_empty(found.matches):
        found.notes.append("all scores of this cross table are on one side of its diagonal; if "
                           "each pair meets once, give --rounds 1")


def of_one_round(matches: list[Match]) -> list[Match]:
    """The matches of a cross table in which each pair meets once: of its two cells the one with a
    score, or the first where both are open.
    """
    kept: dict[frozenset[str], Match] = {}
    again: list[Match] = []
    for match in matches:
        pair = frozenset((match.home, match.away))
        other = kept.get(pair)
        if other is None or (other.score is None and match.score is not None):
            kept[pair] = match
        elif match.score is not None:
            again.append(match)
    return list(kept.values()) + again


def is_half_empty(matches: list[Match]) -> bool:
    """Whether all scores of a cross table stand on one side of its diagonal."""
    names = list(dict.fromkeys(match.home for match in matches))
    sides = {names.index(match.home) < names.index(match.away)
             for match in matches if match.score is not None}
    return len(sides) == 1 and len(names) > 2


def lone_names(matches: list[Match]) -> list[str]:
    """Questions on names that stand seldom and look like another: is it one club?"""
    played = Counter(name for match in matches for name in (match.home, match.away))
    most = max(played.values())
    questions = []
    for first, second in combinations(played, 2):
        rarer, other = sorted((first, second), key=lambda name: played[name])
        if played[rarer] < most and are_alike(first, second):
            questions.append(f"{shown(rarer)} appears {times(played[rarer])}: is it {shown(other)}?")
    return questions


def gaps_in(matches: list[Match], names: list[str], rounds: int) -> Gaps:
    """What the list has too little and too much of, if each pair meets so many times."""
    gaps = Gaps(rounds)
    directed = Counter((match.home, match.away) for match in matches)
    half = rounds // 2
    most = half + rounds % 2
    for first, second in combinations(names, 2):
        ways = [(first, second), (second, first)]
        total = sum(directed[way] for way in ways)
        gaps.extra.extend(way for way in ways if directed[way] > most)
        if total > rounds and all(directed[way] <= most for way in ways):
            gaps.extra.append(ways[0])
        for way in ways:
            gaps.missing.extend([way] * max(0, half - directed[way]))
        if rounds % 2 and all(directed[way] <= half for way in ways):
            gaps.missing.append(ways[0])
            gaps.unsure.append(ways[0])
    gaps.extra.extend((name, name) for name in names if directed[(name, name)])
    return gaps
