"""Who is in, out and open at an ask, by files or from standard input.

Files are a sheet and one feed or several, in any order; the end of a feed without an `ask` counts
as one. If a row is unsettled it is asked again with a greater budget. The same input has the same
words.
"""

from __future__ import annotations

import argparse

from .asking import Outcome
from .explain import first_screen, viewed
from .front import add_budget_argument, add_front_arguments, answered
from .given import Given
from .modes import DECIDE


def add_arguments(parser: argparse.ArgumentParser) -> None:
    """The words of this part."""
    add_front_arguments(parser)
    add_budget_argument(parser)
    parser.add_argument("--examples", action="store_true",
                        help="with --json: the finishes that show each possible row")


def run(arguments: argparse.Namespace) -> int:
    """Writes the answer, and gives the exit status."""
    return answered(arguments, DECIDE, _told)


def _told(given: Given, outcome: Outcome, path: str) -> str:
    """The last ask on one screen."""
    return first_screen(viewed(given, outcome, path))
