"""Which questions are on the way to a word of a cup, by every finish of each group, and which of
their trees are fair, by a plain reading.

A club can miss if it can be below second, or second with a key that is not enough; what is asked
for this is on the way to missing, and what is asked for the other side on the way to qualifying.
The turning key is the least key with which the club can be second, or the greatest.
"""

import json

from cup_reader import MOST, OF_PLACE, CupReport, GroupQuestion, in_group, is_key_refuted, key_ends
from cup_reference import Cup, ends_of, key_of
from reference import League, Sums, blocks_of
from report_reader import Question, from_zero, holds, options
from tree_reader import TURNS, has_cut, is_due, proposed

Asked = tuple[str, tuple[int, int], tuple[int, ...]]


def ranges_of(group: League, club: int) -> list[tuple[int, int]]:
    """The least and the greatest of each part of a club's key, over all that is left."""
    choices = [options(group, [], at) for at in range(len(group.fixtures))]
    return list(zip(*key_ends(group, choices, club)))


def middles(low: int, high: int, goal: int, is_up: bool) -> list[int]:
    """The middles that are met where a range is halved toward a number, rounded up or down."""
    met = []
    while low < high:
        middle = (low + high + is_up) // 2
        met.append(middle)
        if is_up:
            low, high = (middle, high) if goal >= middle else (low, middle - 1)
        else:
            low, high = (low, middle) if goal <= middle else (middle + 1, high)
    return met


def on_the_way(cup: Cup, at: int, club: int, claim: str) -> set[Asked]:
    """The questions on the way to a side of a club: the kind, the club, and the key if it has
    one."""
    is_up = claim == "inside"
    place, reach, outer, others = (
        ("top", "second_at_least", "second_more", "second_at_most") if is_up
        else ("below", "second_at_most", "second_less", "second_at_least"))
    end = (-MOST if is_up else MOST,)
    own = ends_of(cup.groups[at]).second.get(club)
    key = (max if is_up else min)(own) if own else end * 7
    asked = {(place, (at, club), ()), (reach, (at, club), end * 7), (outer, (at, club), key)}
    for part, (low, high) in enumerate(ranges_of(cup.groups[at], club)):
        for middle in middles(low, high, key[part], is_up):
            asked.add((reach, (at, club), (*key[:part], middle, *end * (6 - part))))
    return asked | {(others, it, key) for it in cup.clubs() if it[0] != at}


# ---- the trees themselves


def has_reason(asked: Question, zone: list) -> bool:
    """Whether some reason holds of a question about a place."""
    return any(has_cut(asked, zone, kind) if kind in ("low", "high")
               else holds(asked, zone, [kind]) for kind in TURNS)


def is_shown(question: GroupQuestion, finish: dict) -> bool:
    """Whether the question holds at a finish with some lots."""
    sums, above = Sums(question.group, finish), 0
    for block in blocks_of(question.group, finish, sums):
        best, above = above + 1, above + len(block)
        if question.club in block:
            key = list(key_of(question.group, sums, question.club))
            second = best <= 2 <= above
            return {"top": best == 1, "below": above >= 3,
                    "second_less": second and key < question.key,
                    "second_at_least": second and key >= question.key,
                    "second_more": second and key > question.key,
                    "second_at_most": second and key <= question.key}[question.kind]
    raise ValueError("there is no such club")


def proposed_in(question: GroupQuestion, zone: list) -> dict:
    """The finish that is tried in the zone."""
    return proposed(question.of_table(*OF_PLACE.get(question.kind, ("inside", 2))), zone)


def is_unit(question: GroupQuestion, zone: list, test: list) -> bool:
    """Whether a new split is one unit of work: nothing else was to be found, and it is due."""
    base = question.of_table(*OF_PLACE.get(question.kind, ("inside", 2)))
    is_found = has_reason(base, zone)
    if question.kind not in OF_PLACE:
        is_found |= has_reason(question.of_table("outside", 1), zone)
        is_found |= is_key_refuted(question, zone)
    return not is_found and is_due(base, zone, test) \
        and not is_shown(question, proposed_in(question, zone))


def unfair_lines(question: GroupQuestion, lines: list[str]) -> list[str]:
    """The nodes of a tree that are old, or splits that are no unit of work; the lines may go on
    after the tree."""
    due, found = [[]], []
    for line in lines:
        if not due:
            break
        word, *rest = in_group(question, json.loads(line))
        zone = due.pop()
        if word == "new_split":
            test = from_zero(rest)
            due += [[*zone, (test, False)], [*zone, (test, True)]]
            if not is_unit(question, zone, test):
                found.append(line)
        elif word not in ("new_leaf", "open"):
            return [*found, line]
    return found


def stray_lines(cup: Cup, report: list[str]) -> list[str]:
    """What is not as it should be of the trees of unsettled clubs, in a report on one ask: a
    question that is not on the way to its side, or a node that is not fair."""
    clubs, found, number, sides = cup.clubs(), [], -1, []
    for at, line in enumerate(report):
        if line.startswith("verdict,"):
            number, sides = number + 1, ["outside", "inside"]
        it = json.loads(line) if line.startswith("[") else [""]
        if it[0] in ("finish", "group_spent", "group_tree"):
            claim = (sides or [""]).pop()
        if it[0] == "group_spent":
            of_club = clubs[it[2] - 1]
            if (it[1], of_club, tuple(*it[3:])) not in on_the_way(cup, *clubs[number], claim):
                found.append(line)
            question = CupReport([], 0).question(cup, it[1], *of_club, *(it[3:] or [[]]))
            found += unfair_lines(question, report[at + 1:])
    return found
