"""What `league ask`, `table` and `scores` share: their words, and how an answer is written."""

from __future__ import annotations

import argparse
from typing import Callable

from . import common
from .answers import Answer
from .asking import (Asked, Outcome, ask_mode, budget_note, futmax_statuses, league_of,
                     position_of)
from .given import Given, add_file_arguments, gather
from .modes import DECIDE
from .objects import comments_in, line_of, objects_of
from .progress import Progress, add_progress_argument
from .records import row_text
from .texts import MOST_BUDGET, Sheet

Tell = Callable[[Given, Outcome, str], str]


def add_front_arguments(parser: argparse.ArgumentParser) -> None:
    """The words of a part that asks the program."""
    add_file_arguments(parser)
    forms = parser.add_mutually_exclusive_group()
    forms.add_argument("--json", action="store_true",
                       help="one JSON object a line, and one that closes each ask; "
                            "docs/answer.schema.json says which")
    forms.add_argument("--rows", action="store_true",
                       help="the rows as futmax writes them, without finishes and trees")
    parser.add_argument("--ask", type=int, metavar="N",
                        help="the Nth ask of the feed alone, from 1; otherwise sentences answer "
                             "the last one, and --json and --rows all of them")
    add_progress_argument(parser)


def add_budget_argument(parser: argparse.ArgumentParser) -> None:
    """The budget in place of that of the sheet."""
    parser.add_argument("--budget", type=_budget, metavar="N",
                        help=f"the budget in place of that of the sheet, 1 to {MOST_BUDGET:,}; "
                             "otherwise an ask with unsettled rows is asked again with a "
                             "greater one")


def add_one_budget(parser: argparse.ArgumentParser) -> None:
    """The budget in place of that of the sheet, of a part that asks once."""
    parser.add_argument("--budget", type=_budget, metavar="N",
                        help=f"the budget in place of that of the sheet, 1 to {MOST_BUDGET:,}")


def _budget(text: str) -> int:
    """A budget as the sheet takes it."""
    budget = int(text)
    if not 1 <= budget <= MOST_BUDGET:
        raise argparse.ArgumentTypeError(f"{text} is not from 1 to {MOST_BUDGET}")
    return budget


def answered(arguments: argparse.Namespace, mode: str, tell: Tell) -> int:
    """Asks the program in this mode, writes its answer as it is wanted, and gives the status."""
    given = gather(arguments.files, takes_cup=mode != "scores")
    is_for_people = not (arguments.json or arguments.rows)
    with Progress(f"futmax {mode}", 0, arguments.progress), futmax_statuses():
        path = common.program_path(arguments.program)
        wanted = wanted_asks(given, mode, arguments.ask, is_for_people)
        outcome = ask_mode(path, mode, given, wanted, getattr(arguments, "budget", None))
        text = "" if is_for_people and outcome.stop else (
            tell(given, outcome, path) if is_for_people
            else for_programs(given, outcome, arguments))
    write_outcome(arguments, outcome, text)
    return common.DONE


def write_outcome(arguments: argparse.Namespace, outcome: Outcome, text: str) -> None:
    """Writes an answer, says of which asks rows are unsettled, and raises why futmax stopped."""
    common.write_text(text)
    if (arguments.json or arguments.rows) and outcome.league is not None:
        for ask in outcome.asked:
            if budget_note(ask):
                common.say(f"league: ask {ask.position + 1}: {budget_note(ask)}")
    if outcome.stop is not None:
        raise common.Trouble(outcome.stop.message, outcome.stop.status)


def wanted_asks(given: Given, mode: str, wanted: int | None,
                is_for_people: bool) -> list[int] | None:
    """The asks to answer, from 0: all, or the one that is wanted; for people the last one, and of
    verdicts also the one before it, for what changed.
    """
    league = league_of(given.data)
    if league is None or (wanted is None and not is_for_people):
        return None
    position = position_of(league, wanted)
    has_earlier = is_for_people and mode == DECIDE and position > 0
    return [position - 1, position] if has_earlier else [position]


def for_programs(given: Given, outcome: Outcome, arguments: argparse.Namespace) -> str:
    """The answer as rows, or as objects with the fault after them."""
    if arguments.rows:
        return "".join(rows_of(ask.answer) for ask in outcome.asked)
    sheet = outcome.league.sheet if outcome.league else None
    comments = comments_in(given.data, sheet) if sheet else None
    objects = [line_of(value) for ask in outcome.asked if sheet
               for value in objects_of(sheet, ask, getattr(arguments, "examples", False), comments)]
    if outcome.stop is not None:
        objects.append(line_of(outcome.stop.object_for(given)))
    return "".join(objects)


def rows_of(answer: Answer) -> str:
    """The rows of an answer as futmax writes them."""
    rows = [row_text("ask", answer.epoch)]
    rows += [row_text("verdict", it.places, it.club, it.word) for it in answer.verdicts]
    rows += [row_text("place", it.best, it.worst, it.club, it.played, it.points, it.difference,
                      it.scored) for it in answer.table]
    rows += [row_text("score", it.places, it.club, it.possible, it.guaranteed)
             for it in answer.scores]
    return "".join(rows)


def place_of_ask(given: Given, line: int) -> str:
    """Where an ask stands: its file and line, or the end of the feed."""
    if not given.has_own_ask:
        return f"at the end of {given.paths[-1]}"
    return f"at the ask in {given.origin(line)}"


def season_sheet(outcome: Outcome) -> tuple[Asked, Sheet]:
    """The one ask that sentences tell, and the sheet."""
    return outcome.asked[0], outcome.league.sheet
