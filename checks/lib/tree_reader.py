"""What one piece of the search has to find in a zone, by a plain reading of docs/definitions.md
and, for which cut is chosen, of the page of flow_bound.

It shares no line with the program: reasons are those of `report_reader.py`, the ranking is that of
`reference.py`. Fixtures and clubs count from 0, a zone is a list of tests with whether they hold.
"""

from reference import Sums, blocks_of, points_in, points_of
from report_reader import Question, holds, marked, options, together

TURNS = ("count", "window", "low", "high", "tie")


def all_options(question: Question, zone: list) -> list[list]:
    """The scores that the zone leaves each match."""
    league = question.league
    return [options(league, zone, fixture) for fixture in range(len(league.fixtures))]


def wished_in_front(question: Question, zone: list) -> set[int]:
    """The clubs that the question and the marks wish in front."""
    if question.claim == "inside":
        return {question.club} | marked(zone, True)
    behind = {question.club} | marked(zone, False)
    return set(range(len(question.league.clubs))) - behind


def proposed(question: Question, zone: list) -> dict[int, tuple[int, int]]:
    """The finish that is tried in the zone."""
    front = wished_in_front(question, zone)

    def rate(sides: tuple[int, int], score: tuple[int, int]) -> tuple:
        home, away = (1 if club in front else -1 for club in sides)
        goals, let_in = score
        won, lost = points_of(score)
        return (home * won + away * lost, (home - away) * (goals - let_in), -goals - let_in, goals)

    matches = zip(question.league.fixtures, all_options(question, zone))
    return {number: max(scores, key=lambda score, sides=sides: rate(sides, score))
            for number, (sides, scores) in enumerate(matches)}


def is_example(question: Question, finish: dict) -> bool:
    """Whether the club ends on the side that is asked for, with the lots that are best for that."""
    sums = Sums(question.league, finish)
    if not question.low <= points_in(question.league, sums, question.club) <= question.high:
        return False
    above = 0
    for block in blocks_of(question.league, finish, sums):
        if question.club in block:
            if question.claim == "inside":
                return above + 1 <= question.line
            return above + len(block) > question.line
        above += len(block)
    raise ValueError("no such club")


def has_cut(question: Question, zone: list, kind: str) -> bool:
    """Whether some set of marked rivals makes the reason, of all sets of them."""
    league, choices = question.league, all_options(question, zone)
    pick, sign = (min, 1) if kind == "low" else (max, -1)
    own = together(league, choices, {question.club}, max if kind == "low" else min)
    own = min(question.high, own) if kind == "low" else max(question.low, own)
    left = sorted(marked(zone, kind == "high"))
    one = {club: sign * (together(league, choices, {club}, pick) - own) for club in left}
    two = {}
    for club in left:
        for other in left:
            if other < club:
                pair = sign * together(league, choices, {club, other}, pick) - 2 * sign * own
                two[club, other] = two[other, club] = pair - one[club] - one[other]
    # No pair takes away, so a club that adds nothing to all that is left adds nothing to less.
    while idle := [club for club in left if one[club] + sum(
            two[club, other] for other in left if other != club) <= 0]:
        left = [club for club in left if club not in idle]
    worth = [0]
    for place, club in enumerate(left):
        for members in range(2 ** place):
            among = [left[k] for k in range(place) if members >> k & 1]
            worth.append(worth[members] + one[club] + sum(two[club, other] for other in among))
    return max(worth) > 0


def finding(question: Question, zone: list) -> str:
    """What a piece of work comes to: an example, the first reason that holds, or a split."""
    if is_example(question, proposed(question, zone)):
        return "won"
    for kind in TURNS:
        if has_cut(question, zone, kind) if kind in ("low", "high") else holds(
                question, zone, [kind]):
            return kind
    return "split"


def is_due(question: Question, zone: list, test: list) -> bool:
    """Whether a split is proper, and of the kind that comes next."""
    choices = all_options(question, zone)
    unmarked = set(range(len(question.league.clubs))) - {question.club}
    unmarked -= marked(zone, True) | marked(zone, False)
    if unmarked:
        return test[0] == "rival" and test[1] in unmarked
    several = any(len({points_of(score) for score in scores}) > 1 for scores in choices)
    if test[0] not in (("home", "draw") if several else ("hg", "ag")):
        return False
    halves = [options(question.league, [*zone, (test, yes)], test[1]) for yes in (True, False)]
    return all(halves)
