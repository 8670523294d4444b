"""Writes a report on a small cup without futmax: words by `cup_reference.py`, and what shows them.

Trees are split plainly: outcomes, then goals, and at times a rival that they need not ask for.
Which key, which groups and which examples stand there is drawn where several will do.
"""

import itertools
import json
import random

from cup_reference import Cup, Ends, key_of, ends_of, words_of
from cup_reader import MOST, OF_PLACE, CupReport, GroupQuestion, holds_in_group
from cup_way import is_shown, on_the_way, proposed_in
from reference import League, Sums, blocks_of, points_of
from report_reader import options

# up to this budget a tree on which it was spent is written out
SMALL = 5
# a finish of a group: its scores, its blocks, and the key of each club
Finish = tuple[dict, list[list[int]], dict[int, tuple]]


def text_of(line: list) -> str:
    """A line of a report."""
    return json.dumps(line, separators=(",", ":"))


def finishes_of(group: League) -> list[Finish]:
    """Each finish of a group: its scores, its blocks, and the key of each club."""
    opened, goals = group.open_fixtures(), range(group.goal_limit + 1)
    found = []
    for chosen in itertools.product(itertools.product(goals, goals), repeat=len(opened)):
        scores = {**group.scores, **dict(zip(opened, chosen))}
        sums = Sums(group, scores)
        found.append((scores, blocks_of(group, scores, sums),
                      {club: key_of(group, sums, club) for club in range(len(group.clubs))}))
    return found


def span_of(finish: Finish, club: int) -> tuple[int, int]:
    """The best and the worst place of a club at a finish."""
    above = 0
    for block in finish[1]:
        if club in block:
            return above + 1, above + len(block)
        above += len(block)
    raise ValueError("there is no such club")


def second_key(finish: Finish) -> tuple:
    """The key of the runner-up at a finish; clubs that share that place share the key."""
    second = [club for block in finish[1] for club in block][1]
    return finish[2][second]


# ---- trees


def halves(group: League, zone: list) -> list | None:
    """A test that tells two scores of some match apart, those of the outcome first."""
    for at in group.open_fixtures():
        left = options(group, zone, at)
        if len({points_of(score) for score in left}) > 1:
            is_home = any(one > two for one, two in left)
            return ["home" if is_home else "draw", at]
    for at in group.open_fixtures():
        left = options(group, zone, at)
        for side, word in enumerate(("hg", "ag")):
            goals = {score[side] for score in left}
            if len(goals) > 1:
                return [word, at, min(goals)]
    return None


def reasons_of(question: GroupQuestion, zone: list) -> list[list]:
    """Some reasons that a leaf of the kind may have, as the group's numbers have them."""
    marked = sorted({test[1] for test, _ in zone if test[0] == "rival"})
    sets = [list(it) for size in (1, 2, 3) for it in itertools.combinations(marked, size)]
    plain = [["tie"], ["count"]] + [[kind, [club + 1 for club in it]]
                                    for it in sets for kind in ("low", "high")]
    if question.kind in OF_PLACE:
        return plain
    return [["key"]] + [[side, *reason] for reason in plain for side in ("in", "out")]


def written(question: GroupQuestion, line: list) -> str:
    """A line with the numbers of the cup, from a test or a reason with those of the group."""
    if line[0] in ("split", "new_split"):
        before = question.clubs_before if line[1] == "rival" else question.fixtures_before
        return text_of([*line[:2], line[2] + 1 + before, *line[3:]])
    return text_of([[club + question.clubs_before for club in it] if isinstance(it, list) else it
                    for it in line])


def refutation(question: GroupQuestion, zone: list, chance: random.Random) -> list[str]:
    """The nodes of a tree that refutes a question which holds nowhere in the zone."""
    for reason in chance.sample(found := reasons_of(question, zone), len(found)):
        if holds_in_group(question, zone, reason):
            return [written(question, ["leaf", *reason])]
    rivals = [club for club in range(len(question.group.clubs))
              if club != question.club and ["rival", club] not in [test for test, _ in zone]]
    test = halves(question.group, zone)
    if test is None or rivals and chance.random() < 0.1:
        test = ["rival", chance.choice(rivals)]
    return [written(question, ["split", *test])] + [
        line for is_true in (True, False)
        for line in refutation(question, [*zone, (test, is_true)], chance)]


def due_test(question: GroupQuestion, zone: list, chance: random.Random) -> list:
    """A test that a fair tree may split by in this zone."""
    marked = [test[1] for test, _ in zone if test[0] == "rival"]
    rivals = [club for club in range(len(question.group.clubs))
              if club != question.club and club not in marked]
    return ["rival", chance.choice(rivals)] if rivals else halves(question.group, zone)


def spent_tree(question: GroupQuestion, budget: int, chance: random.Random) -> list[str]:
    """A fair tree on which the budget was spent; no line if it suffices for an answer."""
    lines, due = [], [[]]
    while due and len(lines) < budget:
        zone = due.pop()
        reasons = [it for it in reasons_of(question, zone) if holds_in_group(question, zone, it)]
        if reasons:
            lines.append(written(question, ["new_leaf", *chance.choice(reasons)]))
            continue
        if is_shown(question, proposed_in(question, zone)):
            return []
        test = due_test(question, zone, chance)
        lines.append(written(question, ["new_split", *test]))
        due += [[*zone, (test, False)], [*zone, (test, True)]]
    return lines + ['["open"]'] * len(due) if due else []


# ---- examples


def way_of(cup: Cup, every: list[list[Finish]], at: int, club: int, is_inside: bool):
    """A joint finish and lots at which the club is on this side; nothing if there is none."""
    mates = [it for it in range(len(cup.groups[at].clubs)) if it != club]
    for finish in every[at]:
        best, worst = span_of(finish, club)
        if best == 1 if is_inside else worst >= 3:
            joint = [finish if one == at else those[0] for one, those in enumerate(every)]
            return joint, lots_of(cup, at, club, [] if is_inside else mates, is_inside)
        if not best <= 2 <= worst:
            continue
        pick = min if is_inside else max
        joint = [finish if one == at else pick(those, key=second_key)
                 for one, those in enumerate(every)]
        keys = [second_key(it) for one, it in enumerate(joint) if one != at]
        key = finish[2][club]
        before = sum(it > key if is_inside else it >= key for it in keys)
        if (before < cup.quota) == is_inside:
            level = [it for it in mates if span_of(finish, it) == (best, worst)]
            return joint, lots_of(cup, at, club, level if best == 1 else [], is_inside)
    return None


def lots_of(cup: Cup, at: int, club: int, front: list[int], is_first: bool) -> list[int]:
    """Lots with the club before the clubs of all other groups, or behind them; of its own group
    those in front are before it and the others behind."""
    clubs = cup.clubs()
    before = [(at, it) for it in front]
    others = [it for it in clubs if it[0] != at]
    behind = [it for it in clubs if it[0] == at and it[1] not in [club, *front]]
    middle = [(at, club), *others] if is_first else [*others, (at, club)]
    return [clubs.index(it) + 1 for it in [*before, *middle, *behind]]


def example_lines(cup: Cup, claim: str, way: tuple) -> list[str]:
    """An example with its head."""
    joint, lots = way
    lines, number = [["finish", claim]], 0
    for group, finish in zip(cup.groups, joint):
        for fixture in range(len(group.fixtures)):
            number += 1
            if fixture not in group.scores:
                lines.append(["score", number, *finish[0][fixture]])
    return [text_of(it) for it in [*lines, ["lots", lots]]]


# ---- items


def question_of(cup: Cup, kind: str, at: int, club: int, key: list) -> GroupQuestion:
    """A question about a club of one of the groups."""
    return CupReport([], 0).question(cup, kind, at, club, key)


def refuted_lines(cup: Cup, ends: list[Ends], at: int, club: int, word: str,
                  chance: random.Random) -> list[str]:
    """What shows that a club has clinched or lost."""
    is_clinched = word == "clinched"
    pick, none = (min, [MOST] * 7) if is_clinched else (max, [-MOST] * 7)
    own = ends[at].second.get(club)
    key = list(pick(own)) if own else none
    far = [group for group, it in enumerate(ends) if group != at
           and (max(it.keys()) < tuple(key) if is_clinched else min(it.keys()) > tuple(key))]
    count = len(cup.groups) - cup.quota if is_clinched else cup.quota
    listed = sorted(chance.sample(far, count))
    kinds = (("below", "second_less", "second_at_least") if is_clinched
             else ("top", "second_more", "second_at_most"))
    due = [(kinds[0], at, club), (kinds[1], at, club)]
    due += [(kinds[2], group, other) for group in listed
            for other in range(len(cup.groups[group].clubs))]
    lines = [text_of(["key", key]), text_of(["groups", [group + 1 for group in listed]])]
    for kind, group, other in due:
        question = question_of(cup, kind, group, other, key)
        lines.append(text_of(["group_tree", kind, question.clubs_before + other + 1]))
        lines += refutation(question, [], chance)
    return lines


def spent_of(cup: Cup, at: int, club: int, claim: str, chance: random.Random) -> list[str]:
    """A tree on which the budget for a side was spent, with its head; no line if there is none."""
    asked = sorted(on_the_way(cup, at, club, claim))
    for kind, of_club, key in chance.sample(asked, len(asked)):
        question = question_of(cup, kind, *of_club, list(key))
        lines = spent_tree(question, cup.budget, chance)
        if lines:
            head = ["group_spent", kind, cup.clubs().index(of_club) + 1]
            return [text_of(head + ([question.key] if key else [])), *lines]
    return []


def report_of(cup: Cup, chance: random.Random) -> list[str]:
    """The rows of an ask, each with what shows it; with a small budget a club
    that is possible may be told as unsettled."""
    every = [finishes_of(group) for group in cup.groups]
    ends = [ends_of(group) for group in cup.groups]
    lines = [f"ask,{cup.events}"]
    for (at, club), word in zip(cup.clubs(), words_of(cup, ends)):
        row = f"verdict,{cup.quota},{cup.groups[at].clubs[club]},"
        if word != "possible":
            lines += [row + word, *refuted_lines(cup, ends, at, club, word, chance)]
            continue
        sides, spent = [], False
        for claim in ("inside", "outside"):
            shown = example_lines(cup, claim, way_of(cup, every, at, club, claim == "inside"))
            is_small = cup.budget <= SMALL and chance.random() < 0.6
            tree = spent_of(cup, at, club, claim, chance) if is_small else []
            spent |= bool(tree)
            sides += tree or shown
        lines += [row + ("unsettled" if spent else word), *sides]
    return lines
