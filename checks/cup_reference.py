#!/usr/bin/env python3
"""Works out the words of a cup's clubs without futmax: it tries every finish of each group.

Reads a cup's sheet and a feed on standard input and prints the rows of the mode `groups` without
what shows them. The table of a group is that of `reference.py`; the rest shares no line with the
program or its tools. It is slow and trusts its input. With the word `joint` it tries every joint
finish with every drawing of lots of all clubs, which only the smallest cups allow: by this the
usual way is tested, which puts the words together from what each group can do.
"""

import csv
import io
import itertools
import sys
from dataclasses import dataclass, field
from pathlib import Path

sys.dont_write_bytecode = True
sys.path.insert(0, str(Path(__file__).resolve().parent))
import reference  # noqa: E402
from reference import League, Sums, blocks_of, every_table, points_in  # noqa: E402

Key = tuple[int, ...]
EVENTS = ("result", "fix", "void", "deduct")


@dataclass
class Cup:
    """A cup's sheet with its groups, each with its season as far as the feed was read."""

    goal_limit: int = 9
    budget: int = 2000
    quota: int = 1
    groups: list[League] = field(default_factory=list)
    events: int = 0

    def clubs(self) -> list[tuple[int, int]]:
        """Each club as its group and its number there, in the order of the sheet."""
        return [(at, club) for at, group in enumerate(self.groups)
                for club in range(len(group.clubs))]

    def group_with(self, fixture: int) -> tuple[League, int]:
        """The group of a fixture of the cup, and the fixture's number there; both from 1 on."""
        for group in self.groups:
            if fixture <= len(group.fixtures):
                return group, fixture
            fixture -= len(group.fixtures)
        raise ValueError("there is no such fixture")


@dataclass
class Ends:
    """How the clubs of one group can end: who can be first, third or worse, and second with
    which keys."""

    first: set[int] = field(default_factory=set)
    below: set[int] = field(default_factory=set)
    second: dict[int, set[Key]] = field(default_factory=dict)

    def keys(self) -> set[Key]:
        """The keys that the runner-up can have."""
        return set().union(*self.second.values())


def take(cup: Cup, record: list[str]) -> bool:
    """Adds a record to the cup, and says whether it is an ask."""
    kind, fields = record[0], record[1:]
    if kind == "cup":
        cup.goal_limit, cup.budget, cup.quota = (int(it) for it in fields[1:])
    elif kind == "group":
        cup.groups.append(League(cup.goal_limit))
    elif kind in ("club", "match"):
        reference.take(cup.groups[-1], record)
    elif kind == "deduct":
        reference.take(next(it for it in cup.groups if fields[0] in it.clubs), record)
    elif kind in EVENTS:
        group, own = cup.group_with(int(fields[0]))
        reference.take(group, [kind, str(own), *fields[1:]])
    cup.events += kind in EVENTS
    return kind == "ask"


def key_of(group: League, sums: Sums, club: int) -> Key:
    """What runners-up are compared by, the greater first."""
    return (points_in(group, sums, club), sums.difference[club], sums.goals[club],
            sums.away_goals[club], sums.wins[club], sums.away_wins[club],
            1000 - group.ranks[club])


# ---- group by group


def ends_of(group: League) -> Ends:
    """How a group can end, over every finish and every drawing of lots."""
    ends = Ends()
    for sums, blocks in every_table(group, blocks_of):
        above = 0
        for block in blocks:
            best, above = above + 1, above + len(block)
            if best == 1:
                ends.first.update(block)
            if above >= 3:
                ends.below.update(block)
            if best <= 2 <= above:
                for club in block:
                    ends.second.setdefault(club, set()).add(key_of(group, sums, club))
    return ends


def can_qualify(quota: int, ends: Ends, others: list[set[Key]], club: int) -> bool:
    """Whether the club can be first, or second with fewer groups than the quota whose runner-up is
    before it whatever happens; at equal keys the lots may put it before."""
    return club in ends.first or any(
        sum(min(keys) > key for keys in others) < quota for key in ends.second.get(club, ()))


def can_miss(quota: int, ends: Ends, others: list[set[Key]], club: int) -> bool:
    """Whether the club can be third or worse, or second with as many groups as the quota whose
    runner-up can be before it; at equal keys the lots may put it behind."""
    return club in ends.below or any(
        sum(max(keys) >= key for keys in others) >= quota for key in ends.second.get(club, ()))


def word_of(can_be_inside: bool, can_be_outside: bool) -> str:
    """The word of a club."""
    if can_be_inside and can_be_outside:
        return "possible"
    return "clinched" if can_be_inside else "lost"


def words_of(cup: Cup, every_end: list[Ends]) -> list[str]:
    """The word of each club, in the order of the sheet, from how each group can end."""
    keys, words = [it.keys() for it in every_end], []
    for at, club in cup.clubs():
        others = keys[:at] + keys[at + 1:]
        words.append(word_of(can_qualify(cup.quota, every_end[at], others, club),
                             can_miss(cup.quota, every_end[at], others, club)))
    return words


def words(cup: Cup) -> list[str]:
    """The word of each club, in the order of the sheet."""
    return words_of(cup, [ends_of(group) for group in cup.groups])


# ---- all groups at once


def qualified(cup: Cup, tables: tuple, lots: dict[tuple[int, int], int]) -> set[tuple[int, int]]:
    """The clubs that qualify at a joint finish: the sums and the blocks of each group."""
    inside, seconds = set(), []
    for at, (sums, blocks) in enumerate(tables):
        first, second = [club for block in blocks
                         for club in sorted(block, key=lambda club: lots[at, club])][:2]
        inside.add((at, first))
        key = key_of(cup.groups[at], sums, second)
        seconds.append(([-part for part in key], lots[at, second], (at, second)))
    return inside.union(club for _, _, club in sorted(seconds)[:cup.quota])


def joint_words(cup: Cup) -> list[str]:
    """The same words, by every joint finish with every drawing of lots."""
    clubs = cup.clubs()
    can_be_inside, can_be_outside = set(), set()
    for tables in itertools.product(*(list(every_table(it, blocks_of)) for it in cup.groups)):
        for order in itertools.permutations(clubs):
            inside = qualified(cup, tables, {club: lot for lot, club in enumerate(order)})
            can_be_inside |= inside
            can_be_outside |= set(clubs) - inside
    return [word_of(club in can_be_inside, club in can_be_outside) for club in clubs]


# ---- input and output


def rows_at(cup: Cup, told: list[str]) -> list[list]:
    """The rows of an ask with these words."""
    return [["ask", cup.events]] + [
        ["verdict", cup.quota, cup.groups[at].clubs[club], word]
        for (at, club), word in zip(cup.clubs(), told)]


def record_of(line: str) -> list[str]:
    """The fields of a line, without the empty ones at its end; none of one that is skipped."""
    line = line.rstrip("\r")
    record = next(csv.reader([line])) if line and not line.startswith("#") else []
    while record and not record[-1]:
        record.pop()
    return record


def rows_of(text: str, tell=words) -> list[str]:
    """The rows that an input comes to."""
    cup, out = Cup(), io.StringIO()
    writer = csv.writer(out, lineterminator="\n")
    for line in text.split("\n"):
        record = record_of(line)
        if record and take(cup, record):
            writer.writerows(rows_at(cup, tell(cup)))
    return out.getvalue().split("\n")[:-1]


def main() -> None:
    """Reads standard input and prints what was asked."""
    tell = {(): words, ("joint",): joint_words}[tuple(sys.argv[1:])]
    for row in rows_of(sys.stdin.read(), tell):
        print(row)


if __name__ == "__main__":
    main()
