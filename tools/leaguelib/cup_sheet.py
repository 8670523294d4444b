"""Makes the sheet of a cup: its groups with their clubs and matches."""

from __future__ import annotations

import argparse

from . import common
from .aliases import read_aliases
from .cup_lists import (Drawn, groups_in_file, groups_in_list, round_robin, test_sizes,
                        with_matches)
from .list_settings import ListSettings, comments_for
from .match_list import MatchList
from .pairs import Gaps, lone_names, usual_rounds
from .records import row_text
from .several import read_lists
from .texts import ORDERS, USUAL_BUDGET
from .wording import counted, shown

LEAGUES_ALONE = {"lines": "--lines", "line_name": "--line-name", "relegated": "--relegated"}


def add_cup_arguments(parser: argparse.ArgumentParser) -> None:
    """The words of a cup's sheet."""
    parser.add_argument("--runners-up", type=int, metavar="Q",
                        help="make the sheet of a cup: the winner of each group qualifies, and so "
                             "do the Q best of the runners-up")
    parser.add_argument("--groups", metavar="FILE",
                        help="of a cup: lines like `A: Germany, Scotland, Hungary, Switzerland`; "
                             "without a LIST each pair meets --rounds times (1)")


def cup_groups(arguments: argparse.Namespace) -> tuple[MatchList, list[Drawn]]:
    """The list, which may be empty, and the groups with their matches."""
    _test_words(arguments)
    groups = groups_in_file(arguments.groups) if arguments.groups else []
    if not arguments.lists:
        test_sizes(groups)
        for group in groups:
            group.days = round_robin(group.clubs, arguments.rounds or 1)
        return MatchList(), groups
    found = read_lists(arguments.lists, read_aliases(arguments.aliases), arguments.days or "")
    if not found.matches:
        raise common.Trouble("the list has no matches")
    groups = with_matches(groups, found.matches) if groups else groups_in_list(found)
    test_sizes(groups)
    return found, groups


def _test_words(arguments: argparse.Namespace) -> None:
    """Raises `Trouble` at words that no cup has."""
    for name, word in LEAGUES_ALONE.items():
        if getattr(arguments, name):
            raise common.Trouble(f"{word} is for leagues: in a cup the winners of the groups "
                                 "qualify, and the best of the runners-up", common.BAD_WORDS)
    if arguments.order not in (None, ORDERS[0]):
        raise common.Trouble(f"the order of a cup's groups is {ORDERS[0]}", common.BAD_WORDS)
    if not arguments.lists and not arguments.groups:
        raise common.Trouble("name a LIST of matches, or give --groups FILE", common.BAD_WORDS)


def group_gaps(groups: list[Drawn], complete) -> list[Gaps]:
    """What is missing in each group, by a function of its matches, clubs and rounds."""
    rounds = usual_rounds([match for group in groups for match in group.matches])
    gaps = []
    for group in groups:
        if not group.matches:
            raise common.Trouble(f"the list has no match of the group {shown(group.name)}")
        try:
            gaps.append(complete(group.matches, group.clubs, rounds))
        except common.Trouble as trouble:
            raise common.Trouble(f"group {shown(group.name)}: {trouble.message}",
                                 trouble.status) from trouble
    return gaps


def cup_text(name: str, groups: list[Drawn], gaps: list[Gaps], ranks: dict[str, int],
             arguments: argparse.Namespace) -> str:
    """The sheet as text."""
    has_comments = not arguments.no_comments
    budget = USUAL_BUDGET if arguments.budget is None else arguments.budget
    number = sum(len(group.matches) + sum(map(len, group.days)) for group in groups)
    number += sum(len(one.missing) for one in gaps)
    parts = _comments(groups, number, arguments) if has_comments else []
    parts.append(row_text("cup", name, arguments.goal_limit, budget, arguments.runners_up))
    for group, missing in zip(groups, gaps or [Gaps(0)] * len(groups)):
        parts.append(row_text("group", group.name))
        parts += [row_text("club", club, ranks.get(club, 1)) for club in group.clubs]
        parts += [part for part in _match_rows(group, missing)
                  if has_comments or not part.startswith("#")]
    return "".join(parts) + row_text("season")


def _match_rows(group: Drawn, gaps: Gaps) -> list[str]:
    """The matches of a group under their dates or matchdays, and those that were added."""
    rows: list[str] = []
    date = ""
    for match in group.matches:
        if match.date != date:
            rows.append(f"# {match.date or 'no date'}\n")
        date = match.date
        rows.append(row_text("match", match.home, match.away))
    for number, day in enumerate(group.days, 1):
        rows.append(f"# matchday {number}\n")
        rows += [row_text("match", *pair) for pair in day]
    if gaps.missing:
        rows.append(f"# added, to make {gaps.rounds} rounds of all pairs: no date\n")
    return rows + [row_text("match", home, away) for home, away in gaps.missing]


def _comments(groups: list[Drawn], number: int, arguments: argparse.Namespace) -> list[str]:
    """What was chosen, as comments at the head of the sheet."""
    clubs = sum(len(group.clubs) for group in groups)
    limit, quota = arguments.goal_limit, arguments.runners_up
    best = "the best runner-up" if quota == 1 else f"the {quota} best runners-up"
    lines = [f"Made by `league sheet`: {counted(len(groups), 'group')}, {clubs} clubs, "
             f"{counted(number, 'match', 'matches')}.",
             f"The winner of each group and {best} qualify.",
             f"Goal limit {limit}: it is taken that no side scores more than {limit} goals in an "
             "open match.",
             "Level on points: head-to-head record first (head_first).",
             "Rank 1 for all: clubs that are level on every other criterion are decided by lots."
             if arguments.ranks is None else
             "The ranks are those that were given; they decide before lots."]
    return [f"# {line}\n" for line in lines] + comments_for(
        ListSettings(arguments.days or "", arguments.walkover))


def cup_notes(found: MatchList, gaps: list[Gaps]) -> list[str]:
    """What looks odd in the list, and what was added."""
    notes = [note for one in gaps for note in one.notes()]
    return notes + (lone_names(found.matches) if any(one.missing for one in gaps) else [])
