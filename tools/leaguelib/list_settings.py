"""What a sheet remembers of the lists of its league, in comments that futmax passes over:

    # days: day-first                       03/04/2026 is 3 April; or month-first
    # walkover: 3-0                         the score of a match that a list has as `+:-` or `X:0`
    # name: QPR = Queens Park Rangers       another name of a club
"""

from __future__ import annotations

import argparse
import re
from dataclasses import dataclass, field
from typing import Dict, Optional, Tuple

from .name_words import plain_form
from .records import lines_of

DAY_FIRST, MONTH_FIRST = "day-first", "month-first"
DAYS = re.compile(r"^#\s*days:\s*(day-first|month-first)\s*$")
WALKOVER = re.compile(r"^#\s*walkover:\s*(\d{1,2})-(\d{1,2})\s*$")
NAME = re.compile(r"^#\s*name:\s*(.+?)\s+=\s+(.+?)\s*$")


@dataclass
class ListSettings:
    """How the lists of a league are read; `names` has the clubs by the plain form of other names.
    """

    days: str = ""
    walkover: Optional[Tuple[int, int]] = None
    names: Dict[str, str] = field(default_factory=dict)

    def told(self, arguments: argparse.Namespace) -> "ListSettings":
        """The same with what the command line says instead."""
        return ListSettings(arguments.days or self.days, arguments.walkover or self.walkover,
                            self.names)


def settings_in(sheet: bytes) -> ListSettings:
    """What the comments of a sheet say of its lists."""
    found = ListSettings()
    for _, raw in lines_of(sheet):
        if not raw.startswith(b"#"):
            continue
        line = raw.decode("utf-8", "surrogateescape")
        days, walkover, name = DAYS.match(line), WALKOVER.match(line), NAME.match(line)
        if days:
            found.days = days.group(1)
        elif walkover:
            found.walkover = (int(walkover.group(1)), int(walkover.group(2)))
        elif name:
            found.names[plain_form(name.group(1))] = name.group(2)
    return found


def comments_for(settings: ListSettings) -> list[str]:
    """The comments of a sheet for these settings."""
    return ([f"# days: {settings.days}\n"] if settings.days else []) + (
        ["# walkover: {}-{}\n".format(*settings.walkover)] if settings.walkover else [])


def add_list_arguments(parser: argparse.ArgumentParser) -> None:
    """The options on how lists are read."""
    parser.add_argument("--days", choices=(DAY_FIRST, MONTH_FIRST),
                        help="what comes first in dates like 03/04/2026; the sheet remembers it")
    parser.add_argument("--walkover", metavar="H-A", type=_score,
                        help="the score, like 3-0, of matches that a list has as awarded without "
                             "one, like `+:-` or `X:0`; the sheet remembers it")


def _score(text: str) -> Tuple[int, int]:
    """A score of the side that wins."""
    found = re.match(r"^(\d{1,2})[-:](\d{1,2})$", text)
    if not found or int(found.group(1)) <= int(found.group(2)):
        raise argparse.ArgumentTypeError(f"`{text}` is no score of the side that wins, like 3-0")
    return int(found.group(1)), int(found.group(2))
