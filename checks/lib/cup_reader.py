"""A plain reading of a cup's report, written from docs/formats.md and the meaning of its lines.

It shares no line with the program or its tools; places and reasons are those of `reference.py` and
`report_reader.py`, who qualifies is that of `cup_reference.py`. Sheet and feed are trusted.
"""

import copy
from dataclasses import dataclass

from cup_reference import Cup, qualified, record_of, take
from reference import League, Sums, blocks_of, points_of
from report_reader import CLAIMS, Question, Report, Stop, from_zero, holds, is_reason, is_test, \
    is_within, options, row_of

WORDS = ("clinched", "lost", "possible", "unsettled")
# the claim and the line of a question about a place alone
OF_PLACE = {"top": ("inside", 1), "below": ("outside", 2)}
OF_KEY = ("second_less", "second_at_least", "second_more", "second_at_most")
MOST = 100_000


@dataclass
class GroupQuestion:
    """A question about a club of a group by its number there, and where the group's clubs and
    fixtures begin in the numbers of the cup."""

    group: League
    kind: str
    club: int
    key: list[int]
    clubs_before: int
    fixtures_before: int

    def of_table(self, claim: str, line: int) -> Question:
        """A question about the club's place."""
        return Question(self.group, line, self.club, claim)


def key_ends(group: League, choices: list, club: int) -> tuple[list[int], list[int]]:
    """The least and the greatest of each part of a club's key, by what is left of each match."""
    low, high = [0] * 6, [0] * 6
    for (home, away), scores in zip(group.fixtures, choices):
        if club not in (home, away):
            continue
        worths = [worth(score if club == home else score[::-1], club == away) for score in scores]
        low = [part + min(those) for part, those in zip(low, zip(*worths))]
        high = [part + max(those) for part, those in zip(high, zip(*worths))]
    taken = group.deducted.get(club, 0)
    rank = 1000 - group.ranks[club]
    return [low[0] - taken, *low[1:], rank], [high[0] - taken, *high[1:], rank]


def worth(score: tuple[int, int], is_away: bool) -> tuple[int, ...]:
    """What a match gives a club to each part of its key, the club's own goals first."""
    own, other = score
    is_win = own > other
    return (points_of(score)[0], own - other, own, own * is_away, int(is_win),
            int(is_win and is_away))


def is_key_refuted(question: GroupQuestion, zone: list) -> bool:
    """Whether no key that the matches leave is on the side that the kind asks for."""
    choices = [options(question.group, zone, at) for at in range(len(question.group.fixtures))]
    if not all(choices):
        return False
    low, high = key_ends(question.group, choices, question.club)
    return {"second_less": low >= question.key, "second_at_least": high < question.key,
            "second_more": high <= question.key, "second_at_most": low > question.key
            }[question.kind]


def holds_in_group(question: GroupQuestion, zone: list, reason: list) -> bool:
    """Whether the reason of a leaf holds in a zone."""
    if question.kind in OF_PLACE:
        return holds(question.of_table(*OF_PLACE[question.kind]), zone, reason)
    if reason[0] == "key":
        return is_key_refuted(question, zone)
    asked = ("inside", 2) if reason[0] == "in" else ("outside", 1)
    return holds(question.of_table(*asked), zone, reason[1:])


def is_leaf(question: GroupQuestion, reason: list) -> bool:
    """Whether a refuted leaf may have it, by the numbers of the group."""
    plain = question.of_table("inside", 1)
    if question.kind in OF_PLACE:
        return is_reason(plain, reason)
    return reason == ["key"] or reason[:1] in (["in"], ["out"]) and is_reason(plain, reason[1:])


def moved(value, before: int):
    """A number or a list of them, with as many taken off; anything else as it is."""
    if isinstance(value, list):
        return [moved(it, before) for it in value]
    return value - before if type(value) is int else value


def in_group(question: GroupQuestion, line: list) -> list:
    """A line with the numbers of the group in place of those of the cup."""
    if line[:1] and line[0] in ("split", "new_split") and len(line) > 2:
        before = question.clubs_before if line[1] == "rival" else question.fixtures_before
        return [*line[:2], moved(line[2], before), *line[3:]]
    return [moved(it, question.clubs_before) if isinstance(it, list) else it for it in line]


def is_key(key) -> bool:
    """Whether it has the form of a key."""
    return type(key) is list and len(key) == 7 and all(is_within(it, -MOST, MOST) for it in key)


class CupReport(Report):
    """The lines of a report that are left. What was found of leaves is kept in `known`, which may
    be given on to other reports on the same input."""

    def __init__(self, lines: list[tuple[int, str]], end: int, known: dict | None = None) -> None:
        super().__init__(lines, end)
        self.ask, self.known = 0, {} if known is None else known

    def is_refuted(self, question: GroupQuestion, zone: list, reason: list) -> bool:
        """Whether the reason of a leaf holds."""
        asked = repr((self.ask, question.kind, question.club, question.clubs_before, question.key,
                      zone, reason))
        if asked not in self.known:
            self.known[asked] = holds_in_group(question, zone, reason)
        return self.known[asked]

    def question(self, cup: Cup, kind: str, at: int, club: int, key: list) -> GroupQuestion:
        """A question about a club of one of the groups."""
        before = cup.groups[:at]
        return GroupQuestion(cup.groups[at], kind, club, key, sum(len(it.clubs) for it in before),
                             sum(len(it.fixtures) for it in before))

    def group_tree(self, question: GroupQuestion, is_spent: bool, budget: int) -> None:
        """A tree after its head."""
        splits, leaves = ("split",), ("leaf",)
        if is_spent:
            splits, leaves = ("split", "new_split"), ("leaf", "new_leaf")
        plain = question.of_table("inside", 1)

        def is_node(line: list) -> bool:
            own = in_group(question, line)
            return (own[0] in splits and is_test(plain, own[1:])
                    or own[0] in leaves and is_leaf(question, own[1:])
                    or is_spent and own == ["open"])

        due, news, is_open, number = [[]], 0, False, 0
        while due:
            zone = due.pop()
            number, line = self.expect("proof", is_node)
            word, *rest = in_group(question, line)
            news += word.startswith("new_")
            is_open |= word == "open"
            if word in splits:
                test = from_zero(rest)
                due += [[*zone, (test, False)], [*zone, (test, True)]]
            elif word != "open" and not self.is_refuted(question, zone, rest):
                raise Stop(number, "no_proof")
        if is_spent and (news != budget or not is_open):
            raise Stop(number, "no_proof")

    def joint_finish(self, cup: Cup, at: int, club: int, claim: str) -> None:
        """An example after its head."""
        numbers = [(one, fixture) for one, group in enumerate(cup.groups)
                   for fixture in range(len(group.fixtures))]
        scores = [dict(group.scores) for group in cup.groups]
        for number, (one, fixture) in enumerate(numbers, 1):
            if fixture in cup.groups[one].scores:
                continue
            _, line = self.expect("proof", lambda it, number=number: it[:2] == ["score", number]
                                  and type(it[1]) is int and len(it) == 4
                                  and all(is_within(goals, 0, cup.goal_limit)
                                          for goals in it[2:]))
            scores[one][fixture] = (line[2], line[3])
        clubs = cup.clubs()
        number, line = self.expect("proof", lambda it: it[0] == "lots" and len(it) == 2
                                   and type(it[1]) is list
                                   and all(type(club) is int for club in it[1])
                                   and sorted(it[1]) == list(range(1, len(clubs) + 1)))
        lots = {clubs[number - 1]: lot for lot, number in enumerate(line[1])}
        tables = []
        for group, own in zip(cup.groups, scores):
            sums = Sums(group, own)
            tables.append((sums, blocks_of(group, own, sums)))
        if ((at, club) in qualified(cup, tuple(tables), lots)) != (claim == "inside"):
            raise Stop(number, "no_proof")

    def refuted(self, cup: Cup, at: int, club: int, word: str) -> None:
        """What stands after a row that says clinched or lost."""
        _, (_, key) = self.expect("proof", lambda it: it[0] == "key" and len(it) == 2
                                  and is_key(it[1]))
        wanted = len(cup.groups) - cup.quota if word == "clinched" else cup.quota
        _, (_, listed) = self.expect(
            "proof", lambda it: it[0] == "groups" and len(it) == 2 and type(it[1]) is list
            and len(it[1]) == wanted and at + 1 not in it[1]
            and all(is_within(group, 1, len(cup.groups)) for group in it[1])
            and all(one < two for one, two in zip(it[1], it[1][1:])))
        place, outer, others = (("below", "second_less", "second_at_least") if word == "clinched"
                                else ("top", "second_more", "second_at_most"))
        due = [(place, at, club), (outer, at, club)]
        due += [(others, group - 1, other) for group in listed
                for other in range(len(cup.groups[group - 1].clubs))]
        for kind, of_group, own in due:
            question = self.question(cup, kind, of_group, own, key)
            head = ["group_tree", kind, question.clubs_before + own + 1]
            self.expect("proof", lambda it, head=head: it == head and type(it[2]) is int)
            self.group_tree(question, False, cup.budget)

    def side(self, cup: Cup, at: int, club: int, claim: str, can_show: bool) -> bool:
        """What stands for one side of an unsettled club; whether it was an example."""
        clubs = cup.clubs()

        def is_head(it: list) -> bool:
            if it[0] == "finish":
                return can_show and it[1:] == [claim]
            return (it[0] == "group_spent" and len(it) in (3, 4)
                    and it[1] in (OF_PLACE if len(it) == 3 else OF_KEY)
                    and is_within(it[2], 1, len(clubs)) and all(is_key(key) for key in it[3:]))

        _, head = self.expect("proof", is_head)
        if head[0] == "finish":
            self.joint_finish(cup, at, club, claim)
        else:
            of_group, own = clubs[head[2] - 1]
            self.group_tree(self.question(cup, head[1], of_group, own, *(head[3:] or [[]])), True,
                            cup.budget)
        return head[0] == "finish"

    def cup_item(self, cup: Cup, at: int, club: int) -> None:
        """A row, and what stands after it."""
        name = cup.groups[at].clubs[club]
        _, row = self.expect("row", lambda it: len(it) == 4 and it[3] in WORDS
                             and it[:3] == ["verdict", str(cup.quota), name])
        self.rows += 1
        self.unsettled += row[3] == "unsettled"
        if row[3] in ("clinched", "lost"):
            self.refuted(cup, at, club, row[3])
        elif row[3] == "possible":
            for claim in CLAIMS:
                self.expect("proof", lambda it, claim=claim: it == ["finish", claim])
                self.joint_finish(cup, at, club, claim)
        else:
            is_shown = self.side(cup, at, club, "inside", True)
            self.side(cup, at, club, "outside", not is_shown)

    def cup_answer(self, cup: Cup) -> None:
        """The part of one ask."""
        self.ask += 1
        self.expect("row", lambda it: it == ["ask", str(cup.events)])
        for at, club in cup.clubs():
            self.cup_item(cup, at, club)


def parts_of(text: str) -> tuple[list[Cup], list | None, int]:
    """The cup at each ask, the lines of the report if there is one, and how many there are."""
    cup, asks, report, number = Cup(), [], None, 0
    for number, raw in enumerate(text.removesuffix("\n").split("\n"), 1):
        if not raw or raw.startswith("#"):
            continue
        if report is not None:
            report.append((number, raw))
            continue
        record = record_of(raw)
        if record == ["proofs"]:
            report = []
        elif record and take(cup, record):
            asks.append(copy.deepcopy(cup))
    return asks, report, number


def judged(text: str, known: dict | None = None) -> str:
    """The row that a whole input comes to, whose sheet and feed are taken as they stand."""
    asks, report, number = parts_of(text)
    found = CupReport(report or [], number + 1, known)
    return ",".join(row_of(found, found.cup_answer, None if report is None else asks, number + 1))
