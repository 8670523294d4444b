"""A plain reading of saved texts, written from docs/formats.md.

It shares no line with the program or its tools; ranges of numbers, zones and reasons are those of
`report_reader.py`. Sheet and feed are trusted.
"""

import csv
import itertools
import json
from dataclasses import dataclass, field

from reference import League
from report_reader import CLAIMS, Question, Stop, from_zero, holds, is_reason, is_test, marked

SPLITS, LEAVES = ("split", "new_split"), ("leaf", "new_leaf")


def questions_of(league: League) -> list[Question]:
    """The questions of a sheet in their order: by line, club and claim."""
    return [Question(league, line, club, claim) for line in league.lines
            for club in range(len(league.clubs)) for claim in CLAIMS]


def row_of(question: Question) -> list[str]:
    """The fields of the row of a question's item."""
    name = question.league.clubs[question.club]
    return ["saved", str(question.line), name, question.claim]


@dataclass
class Saved:
    """Trees by the places of their questions, each a list of proof lines; and how many lines of
    those that were given are its text."""

    trees: dict[int, list[list]] = field(default_factory=dict)
    taken: int = 0


def token_of(text: str):
    """A line as a proof line, a row, nothing that counts (""), or nothing of these (None)."""
    if not text or text.startswith("#"):
        return ""
    if text.startswith("["):
        try:
            return ("proof", json.loads(text))
        except (ValueError, RecursionError):
            return None
    if "\r" in text:
        return None
    row = next(csv.reader([text]), [])
    while row and not row[-1]:
        row.pop()
    return ("row", row) if row else ""


def may_come(question: Question, zone: list, line: list) -> bool:
    """Whether a tree of the question may have this proof line in this zone."""
    if not isinstance(line, list) or not line:
        return False
    if line == ["open"]:
        return True
    if line[0] in LEAVES:
        return is_reason(question, line[1:])
    if line[0] not in SPLITS or not is_test(question, line[1:]):
        return False
    asked = marked(zone, True) | marked(zone, False)
    return line[1] != "rival" or line[2] - 1 not in asked


def read_saved(league: League, lines: list[tuple[int, str]], end: int) -> Saved:
    """Reads numbered lines up to `saved_end`; stops at the first that no saved text has there, or
    at `end`, the number of the line after the last."""
    questions, found, place, due = questions_of(league), Saved(), -1, []
    for number, text in lines:
        found.taken += 1
        token = token_of(text)
        if token == "":
            continue
        if due and token is not None and token[0] == "proof":
            zone, line = due.pop(), token[1]
            if not may_come(questions[place], zone, line):
                raise Stop(number, "bad_save")
            found.trees[place].append(line)
            if line[0] in SPLITS:
                test = from_zero(line[1:])
                due += [[*zone, (test, False)], [*zone, (test, True)]]
            continue
        if due or token is None or token[0] == "proof":
            raise Stop(number, "bad_save")
        if token[1] == ["saved_end"]:
            return found
        rows = [row_of(it) for it in questions[place + 1:]]
        if token[1] not in rows:
            raise Stop(number, "bad_save")
        place += 1 + rows.index(token[1])
        found.trees[place], due = [], [[]]
    raise Stop(end, "bad_save")


def nodes_of(tree: list[list]):
    """Each node of a tree with its zone."""
    due = [[]]
    for line in tree:
        zone = due.pop()
        yield zone, line
        if line[0] in SPLITS:
            test = from_zero(line[1:])
            due += [[*zone, (test, False)], [*zone, (test, True)]]


def reasons_hold(question: Question, tree: list[list]) -> bool:
    """Whether the reason of each refuted leaf holds in the question's season."""
    return all(holds(question, zone, line[1:]) for zone, line in nodes_of(tree)
               if line[0] in LEAVES)


def is_refutation(question: Question, tree: list[list]) -> bool:
    """Whether the tree shows that the question holds nowhere."""
    return ["open"] not in tree and reasons_hold(question, tree)


def is_spent(question: Question, tree: list[list]) -> bool:
    """Whether the budget was spent on the tree: all of it is new, and a case is left open."""
    is_new = [line[0] in ("new_split", "new_leaf") for line in tree if line != ["open"]]
    return (["open"] in tree and all(is_new) and len(is_new) == question.league.budget
            and reasons_hold(question, tree))


def reasons_of(question: Question):
    """Every reason that a leaf of the question may have but `window`."""
    rivals = [club + 1 for club in range(len(question.league.clubs)) if club != question.club]
    yield from (["count"], ["tie"])
    for size in range(1, len(rivals) + 1):
        for clubs in itertools.combinations(rivals, size):
            yield from (["low", list(clubs)], ["high", list(clubs)])


def is_nearly_refuted(question: Question, tree: list[list]) -> bool:
    """Whether each case that is left open, or whose reason does not hold, has a reason, and there
    are no more of them than the budget. A case without a finish counts as one without a reason."""
    left = [zone for zone, line in nodes_of(tree) if line[0] not in SPLITS
            and not (line[0] in LEAVES and holds(question, zone, line[1:]))]
    return len(left) <= question.league.budget and all(
        any(holds(question, zone, reason) for reason in reasons_of(question)) for zone in left)
