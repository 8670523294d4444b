"""The table of the matches played, by files or from standard input.

Files are a sheet and one feed or several; the end of a feed without an `ask` counts as one.
"""

from __future__ import annotations

import argparse

from .asking import Outcome
from .front import add_front_arguments, answered, place_of_ask, season_sheet
from .given import Given
from .screen import state_text, table_text


def add_arguments(parser: argparse.ArgumentParser) -> None:
    """The words of this part."""
    add_front_arguments(parser)


def run(arguments: argparse.Namespace) -> int:
    """Prints the table, and gives the exit status."""
    return answered(arguments, "table", _told)


def _told(given: Given, outcome: Outcome, _path: str) -> str:
    """The table for people."""
    ask, sheet = season_sheet(outcome)
    opening = state_text(sheet, ask.season, place_of_ask(given, ask.line))
    rows = table_text(sheet, ask.season, ask.answer.table, {})
    return "\n".join([opening, "", *rows]) + "\n"
