"""What the refusals of a cup's sheet mean, where they are not those of a league, and what a refused
record was meant to be.
"""

from __future__ import annotations

from typing import Iterator

from .cups import CUP_WIDTHS, LEAST_CLUBS, MOST_CLUBS, MOST_FIXTURES, MOST_GROUPS, Cup
from .names import nearest_name, shown
from .records import number_of
from .repairs import Candidate, line_text, name_with_comma
from .texts import USUAL_BUDGET

CUP_RECORD = "`cup,NAME,GOAL_LIMIT,BUDGET,RUNNERS_UP`, with the number of runners-up that qualify"
EXAMPLE = "cup,My cup,9,2000,1"


def cup_words(code: str, fields: list[str], cup: Cup | None) -> str | None:
    """A sentence on a refused record of a cup's sheet; none where it is as in a league's."""
    group = cup.groups[-1] if cup is not None and cup.groups else None
    groups = len(cup.groups) if cup is not None else 0
    if code == "no_cup":
        return f"the first record must be {CUP_RECORD}, like `{EXAMPLE}`"
    if code == "too_few_clubs" and group is not None:
        return (f"a group has at least {LEAST_CLUBS} clubs, and {shown(group.name)} has "
                f"{len(group.clubs)} before this line: write `club,NAME,RANK` lines above it")
    if code == "club_twice" and cup is not None:
        where = shown(cup.group_of(fields[1]).name)
        return f"this club is in the group {where} already, and a club plays in one group alone"
    if code == "unknown_club" and cup is not None:
        return _club_of_other_group(fields, cup)
    if code == "too_many":
        return (f"this is one more than futmax takes: at most {MOST_GROUPS} groups, each of at "
                f"most {MOST_CLUBS} clubs and {MOST_FIXTURES} matches")
    if code == "too_few_groups":
        return (f"a cup has at least two groups, and {'none' if groups == 0 else 'one'} is there: "
                "write `group,NAME`, its clubs and its matches above this line")
    if code == "quota_range" and cup is not None:
        return (f"of {groups} runners-up {cup.quota} would qualify: the last field of `cup` is a "
                f"number from 1 to {groups - 1}, one less than the number of groups")
    return None


def misplaced_words(kind: str, cup: Cup) -> str:
    """A first word that does not fit here in a cup's sheet."""
    if kind in ("club", "match") and not cup.groups:
        return f"a `{kind}` belongs to a group: write `group,NAME` above it"
    if kind == "club":
        return "the clubs of a group come before its first match: move this line up"
    if kind == "cup":
        return "`cup` comes once, as the first record: leave this line out"
    if kind == "league":
        return "a cup begins with `cup` and has no `league`: leave this line out"
    if kind == "line":
        return ("a cup has no `line`: the winner of each group qualifies, and as many of the "
                "runners-up as the last field of `cup` says")
    fitting = list(CUP_WIDTHS)
    near = nearest_name(kind, fitting)
    hint = f"; the nearest is `{near}`" if near else ""
    return (f"{shown(kind)} is no word that begins a record here: {', '.join(fitting)} do{hint}. "
            "A comment begins with `#`")


def _club_of_other_group(fields: list[str], cup: Cup) -> str | None:
    """A match between clubs of two groups."""
    group = cup.groups[-1] if cup.groups else None
    for name in fields[1:3]:
        if group is not None and not group.club_named(name) and cup.club_named(name):
            return (f"{shown(name)} plays in the group {shown(cup.group_of(name).name)}, and this "
                    f"line belongs to {shown(group.name)}: a match is of two clubs of one group, "
                    "and stands under its `group` line")
    return None


def cup_repairs(fields: list[str]) -> Iterator[Candidate]:
    """What a refused `cup` record was meant to be."""
    if len(fields) in (2, 3, 4):
        yield Candidate(f"it is written {CUP_RECORD}",
                        [line_text(*fields, *[9, USUAL_BUDGET, 1][len(fields) - 2:])])
    if len(fields) > 5 and number_of(fields[2]) is None:
        yield from name_with_comma(fields)
    if len(fields) == 5:
        yield Candidate("the goal limit is 1 to 20, and 9 fits most cups",
                        [line_text(*fields[:2], 9, *fields[3:])])
        yield Candidate("the budget (field 4) is 1 to 50,000",
                        [line_text(*fields[:3], USUAL_BUDGET, fields[4])])


def group_repairs(fields: list[str]) -> Iterator[Candidate]:
    """What a refused `group` record was meant to be."""
    if len(fields) > 2:
        name = ", ".join(part.strip().strip('"') for part in fields[1:])
        yield Candidate("a name with a comma needs double quotes", [line_text("group", name)])


def group_missing(fields: list[str], cup: Cup) -> Iterator[Candidate]:
    """A club in front of the first group."""
    if fields[0] == "club" and not cup.groups:
        yield Candidate("a group has to begin before its first club",
                        ["group,A", line_text(*fields)])


def cup_doubts(cup: Cup) -> Iterator[str]:
    """What looks wrong in a cup as a whole."""
    names = [group.name for group in cup.groups]
    for name in dict.fromkeys(names):
        if names.count(name) > 1:
            yield f"{names.count(name)} groups are called {shown(name)}"
    sizes = dict.fromkeys(len(group.clubs) for group in cup.groups)
    if len(sizes) > 1:
        numbers = ", ".join(f"{shown(group.name)} {len(group.clubs)}" for group in cup.groups)
        yield (f"the groups have different numbers of clubs: {numbers}. Runners-up are compared "
               "by all matches of their groups, so those of a larger group have more to add up")
    for group in cup.groups:
        if not group.fixtures:
            yield f"the group {shown(group.name)} has no `match`: there is nothing to play for"
