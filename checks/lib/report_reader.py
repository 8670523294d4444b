"""A plain reading of a report, written from docs/certificates.md and docs/formats.md.

It shares no line with the program or its tools; the ranking of a finish is that of `reference.py`.
Sheet and feed are trusted. It is slow: each zone is looked at score by score.
"""

import copy
import csv
import itertools
import json
from dataclasses import dataclass

from reference import League, Sums, blocks_of, points_in, points_of, take

CLAIMS = ("inside", "outside")
LOW, HIGH = -99, 1800


class Stop(Exception):
    """The first line at which a report is no proof."""

    def __init__(self, number: int, code: str) -> None:
        super().__init__(number, code)
        self.number, self.code = number, code


@dataclass
class Question:
    """Whether a club can end so, with points from the one to the other."""

    league: League
    line: int
    club: int
    claim: str
    low: int = LOW
    high: int = HIGH


# ---- zones: lists of tests, each with whether it holds


def is_true(test: list, score: tuple[int, int]) -> bool:
    """Whether a score meets a test."""
    home, away = score
    kind = test[0]
    if kind == "home":
        return home > away
    if kind == "draw":
        return home == away
    return (home if kind == "hg" else away) <= test[2]


def options(league: League, zone: list, fixture: int) -> list[tuple[int, int]]:
    """The scores that the zone leaves a match."""
    goals = range(league.goal_limit + 1)
    scores = itertools.product(goals, goals)
    if fixture in league.scores:
        scores = [league.scores[fixture]]
    tests = [(test, yes) for test, yes in zone if test[0] != "rival" and test[1] == fixture]
    return [score for score in scores if all(is_true(test, score) == yes for test, yes in tests)]


def marked(zone: list, is_before: bool) -> set[int]:
    """The rivals of which the zone says so."""
    return {test[1] for test, yes in zone if test[0] == "rival" and yes == is_before}


def together(league: League, choices: list, clubs: set[int], pick) -> int:
    """The least or the most points of a set of clubs together."""
    total = -sum(league.deducted.get(club, 0) for club in clubs)
    for (home, away), scores in zip(league.fixtures, choices):
        total += pick(points_of(score)[0] * (home in clubs) + points_of(score)[1] * (away in clubs)
                      for score in scores)
    return total


def holds(question: Question, zone: list, reason: list) -> bool:
    """Whether a reason holds in a zone."""
    league, club = question.league, question.club
    choices = [options(league, zone, fixture) for fixture in range(len(league.fixtures))]
    if not all(choices):
        return False
    before, after = marked(zone, True), marked(zone, False)
    room = question.line if question.claim == "inside" else len(league.clubs) - question.line
    own_most = together(league, choices, {club}, max)
    own_least = together(league, choices, {club}, min)
    kind = reason[0]
    if kind == "count":
        return len(before if question.claim == "inside" else after) >= room
    if kind == "window":
        return own_most < question.low or own_least > question.high
    if kind in ("low", "high"):
        clubs = {number - 1 for number in reason[1]}
        if kind == "low":
            return clubs <= after and (
                together(league, choices, clubs, min) > len(clubs) * min(question.high, own_most))
        return clubs <= before and (
            together(league, choices, clubs, max) < len(clubs) * max(question.low, own_least))
    if any(len({points_of(score) for score in scores}) > 1 for scores in choices):
        return False
    sure = {rival: stand(league, choices, club, rival)
            for rival in range(len(league.clubs)) if rival != club}
    above = {rival for rival, word in sure.items() if word == "above"}
    below = {rival for rival, word in sure.items() if word == "below"}
    ahead = before | above if question.claim == "inside" else after | below
    return len(ahead) >= room or bool(after & above) or bool(before & below)


# ---- what is sure of a rival, where each match has one outcome


def spread(league: League, choices: list, club: int, among, value) -> tuple[int, int]:
    """The least and the most that the matches among some clubs give to a club."""
    least = most = 0
    for (home, away), scores in zip(league.fixtures, choices):
        if club in (home, away) and home in among and away in among:
            worths = [value(score if club == home else score[::-1], club == away)
                      for score in scores]
            least, most = least + min(worths), most + max(worths)
    return least, most


POINTS = (lambda score, _: points_of(score)[0])
DIFFERENCE = (lambda score, _: score[0] - score[1])
GOALS = (lambda score, _: score[0])
AWAY_GOALS = (lambda score, is_away: score[0] * is_away)
WINS = (lambda score, _: score[0] > score[1])
AWAY_WINS = (lambda score, is_away: (score[0] > score[1]) * is_away)


def compared(league: League, choices: list, club: int, rival: int, among, values) -> str:
    """The first of some sums that tells rival and club apart: above, below, level or unknown."""
    for value in values:
        least, most = spread(league, choices, rival, among, value)
        own_least, own_most = spread(league, choices, club, among, value)
        if least > own_most:
            return "above"
        if most < own_least:
            return "below"
        if not least == most == own_least == own_most:
            return "unknown"
    return "level"


def surely_level(league: League, choices: list, club: int, group: set, among, values):
    """The clubs of a group that are surely level with the club; none if one is neither."""
    level = set()
    own = [spread(league, choices, club, among, value) for value in values]
    for other in group:
        its = [spread(league, choices, other, among, value) for value in values]
        if all(least == most == first == last
               for (least, most), (first, last) in zip(its, own)):
            level.add(other)
        elif all(least <= first <= most for (least, most), (first, _) in zip(its, own)):
            return None
    return level


def narrowed(league: League, choices: list, club: int, rival: int, group: set, among, values):
    """What some sums say of rival and club, and the group that is level with both after them."""
    found = compared(league, choices, club, rival, among, values)
    if found != "level":
        return found, group
    level = surely_level(league, choices, club, group, among, values)
    return ("unknown", group) if level is None else ("level", level)


def stand(league: League, choices: list, club: int, rival: int) -> str:
    """What is sure of a rival against the club."""
    every = set(range(len(league.clubs)))

    def points(it: int) -> int:
        return spread(league, choices, it, every, POINTS)[0] - league.deducted.get(it, 0)

    if points(rival) != points(club):
        return "above" if points(rival) > points(club) else "below"
    group = {it for it in every if points(it) == points(club)}
    if league.overall_first:
        found, group = narrowed(league, choices, club, rival, group, every, (DIFFERENCE, GOALS))
        if found != "level":
            return found
    before = None
    while group != before:
        before = group
        found, group = narrowed(league, choices, club, rival, group, group,
                                (POINTS, DIFFERENCE, GOALS))
        if found != "level":
            return found
    found = compared(league, choices, club, rival, every,
                     (DIFFERENCE, GOALS, AWAY_GOALS, WINS, AWAY_WINS))
    if found == "level" and league.ranks[rival] != league.ranks[club]:
        return "above" if league.ranks[rival] < league.ranks[club] else "below"
    return found


# ---- lines


def is_within(number, least: int, most: int) -> bool:
    """Whether it is a whole number in a range."""
    return type(number) is int and least <= number <= most


def is_test(question: Question, test: list) -> bool:
    """Whether a tree for the question may split by it."""
    league = question.league
    sizes = {"home": 2, "draw": 2, "hg": 3, "ag": 3, "rival": 2}
    if not test or sizes.get(test[0]) != len(test):
        return False
    if test[0] == "rival":
        return is_within(test[1], 1, len(league.clubs)) and test[1] - 1 != question.club
    return is_within(test[1], 1, len(league.fixtures)) and (
        len(test) == 2 or is_within(test[2], 0, 98))


def is_reason(question: Question, reason: list) -> bool:
    """Whether a leaf of a tree for the question may have it."""
    if not reason or reason[0] not in ("count", "window", "low", "high", "tie"):
        return False
    if reason[0] not in ("low", "high"):
        return len(reason) == 1
    if len(reason) != 2 or type(reason[1]) is not list or not reason[1]:
        return False
    clubs = reason[1]
    return all(is_within(club, 1, len(question.league.clubs)) and club - 1 != question.club
               for club in clubs) and all(one < two for one, two in zip(clubs, clubs[1:]))


def from_zero(test: list) -> list:
    """A test with its match or its club counted from 0."""
    return [test[0], test[1] - 1, *test[2:]]


class Report:
    """The lines of a report that are left.

    `base` is the zone that all trees and examples are in; where it has a literal, every node is new.
    """

    def __init__(self, lines: list[tuple[int, str]], end: int) -> None:
        self.lines, self.end, self.at = lines, end, 0
        self.rows = self.unsettled = 0
        self.base: list = []

    def next(self) -> tuple[int, object]:
        """The next line that counts, as a proof line, a row, or nothing of these."""
        while self.at < len(self.lines):
            number, text = self.lines[self.at]
            self.at += 1
            if text.startswith("["):
                try:
                    return number, ("proof", json.loads(text))
                except ValueError:
                    return number, None
            if "\r" in text:
                return number, None
            row = next(csv.reader([text]))
            while row and not row[-1]:
                row.pop()
            if row:
                return number, ("row", row)
        raise Stop(self.end, "short")

    def expect(self, kind: str, is_allowed) -> tuple[int, list]:
        """The next line, which has to be of a kind and such."""
        number, found = self.next()
        if not found or found[0] != kind or not found[1] or not is_allowed(found[1]):
            raise Stop(number, "bad_line")
        return number, found[1]

    def head(self, question: Question, *words: str) -> str:
        """One of some heads of the question's claim."""
        return self.expect("proof", lambda it: it[0] in words and it[1:] == [question.claim])[1][0]

    def node(self, question: Question, splits: tuple, leaves: tuple, can_open: bool):
        """A node of a tree: its first word, and its test or reason."""
        def is_node(it: list) -> bool:
            return (it[0] in splits and is_test(question, it[1:])
                    or it[0] in leaves and is_reason(question, it[1:])
                    or can_open and it == ["open"])
        number, line = self.expect("proof", is_node)
        return number, line[0], line[1:]

    def tree(self, question: Question, is_spent: bool) -> None:
        """A tree after its head."""
        splits, leaves = ("split",), ("leaf",)
        if is_spent:
            splits, leaves = ("split", "new_split"), ("leaf", "new_leaf")
        if self.base:
            splits, leaves = ("new_split",), ("new_leaf",)
        due, news, is_open = [self.base], 0, False
        while due:
            zone = due.pop()
            number, word, rest = self.node(question, splits, leaves, is_spent)
            news += word.startswith("new_")
            is_open |= word == "open"
            if word in splits:
                test = from_zero(rest)
                due += [[*zone, (test, False)], [*zone, (test, True)]]
            elif word != "open" and not holds(question, zone, rest):
                raise Stop(number, "no_proof")
        if is_spent and (news != question.league.budget or not is_open):
            raise Stop(number, "no_proof")

    def example(self, question: Question) -> None:
        """An example after its head."""
        league = question.league
        scores = dict(league.scores)
        for fixture in league.open_fixtures():
            _, line = self.expect("proof", lambda it: it[:2] == ["score", fixture + 1]
                                  and type(it[1]) is int and len(it) == 4
                                  and all(is_within(goals, 0, league.goal_limit)
                                          for goals in it[2:]))
            scores[fixture] = (line[2], line[3])
        is_member = all(is_true(test, scores[test[1]]) == yes for test, yes in self.base)
        number, line = self.expect("proof", lambda it: it[0] == "lots" and len(it) == 2
                                   and type(it[1]) is list
                                   and all(type(club) is int for club in it[1])
                                   and sorted(it[1]) == list(range(1, len(league.clubs) + 1)))
        lots = [club - 1 for club in line[1]]
        table = [club for block in blocks_of(league, scores, Sums(league, scores))
                 for club in sorted(block, key=lots.index)]
        is_inside = table.index(question.club) < question.line
        points = points_in(league, Sums(league, scores), question.club)
        if is_inside != (question.claim == "inside") or not question.low <= points <= question.high:
            raise Stop(number, "no_proof")
        if not is_member:
            raise Stop(number, "no_member")

    def item(self, league: League, line: int, club: int) -> None:
        """A row, and what stands after it."""
        inside, outside = (Question(league, line, club, claim) for claim in CLAIMS)
        words = ("clinched", "lost", "possible", "unsettled")
        _, row = self.expect("row", lambda it: len(it) == 4 and it[3] in words
                             and it[:3] == ["verdict", str(line), league.clubs[club]])
        self.rows += 1
        word = row[3]
        if word in ("clinched", "lost"):
            question = outside if word == "clinched" else inside
            self.head(question, "tree")
            self.tree(question, False)
        elif word == "possible":
            for question in (inside, outside):
                self.head(question, "finish")
                self.example(question)
        else:
            self.unsettled += 1
            found = self.part(inside, "spent", "finish")
            self.part(outside, *(("spent",) if found == "finish" else ("spent", "finish")))

    def part(self, question: Question, *words: str) -> str:
        """What stands for one question of an unsettled club."""
        found = self.head(question, *words)
        if found == "spent":
            self.tree(question, True)
        else:
            self.example(question)
        return found

    def answer(self, league: League) -> None:
        """The part of one ask."""
        self.expect("row", lambda it: it == ["ask", str(league.events)])
        for line in league.lines:
            for club in range(len(league.clubs)):
                self.item(league, line, club)


def judged(text: str) -> list[str]:
    """The row that a whole input comes to, whose sheet and feed are taken as they stand."""
    league, asks, report, is_report, number = League(), [], [], False, 0
    for number, raw in enumerate(text.split("\n")[:-1], 1):
        if not raw or raw.startswith("#"):
            continue
        if is_report:
            report.append((number, raw))
            continue
        record = next(csv.reader([raw]))
        if record == ["proofs"]:
            is_report = True
        elif record[0] == "league":
            league.budget = int(record[3]) if len(record) > 3 else 2000
            take(league, record)
        elif record[0] != "season" and take(league, record):
            asks.append(copy.deepcopy(league))
    found = Report(report, number + 1)
    return row_of(found, found.answer, asks if is_report else None, number + 1)


def row_of(found: Report, answer, asks: list | None, end: int) -> list[str]:
    """The row that a report comes to: an answer to each ask, and nothing that counts behind the
    last; short at the input's end if no record `proofs` came."""
    try:
        if asks is None:
            raise Stop(end, "short")
        for ask in asks:
            answer(ask)
        try:
            raise Stop(found.next()[0], "bad_line")
        except Stop as stop:
            if stop.code != "short":
                raise
    except Stop as stop:
        return ["refused", str(stop.number), stop.code]
    return ["accepted", str(found.rows), str(found.unsettled)]
