"""Turns results, corrections and the rulings of a season by names into lines of the feed. Each line
is tested before it is written; if one is not clear, nothing at all is written, and nothing is
guessed. Lines are written like these, with or without a date before them:

    Germany 5-1 Scotland                    a result
    correct Germany 4-1 Scotland            another score for a match that has one
    annul Germany - Scotland                the match counts as not played
    postpone Germany - Scotland 2026-05-13  a new date, or none yet; `tonight` passes the match over
    award Germany 3-0 Scotland: REASON      a score by ruling, with its reason as a comment
    withdraw Scotland 0-3                   its open matches are lost so; the played ones stand
    deduct Scotland 3                       three points are taken off
    deduct Scotland 3 more                  on top of others; or `deduct Scotland 9 in all`
    undo deduct Scotland                    takes a ruling back: also postpone, award, withdraw
    ask                                     answer here

Lines of the feed itself (`result,1,5,1`) are taken too, and so is every list that `league sheet`
takes, one or several: a table, a cross table, a text of openfootball, lines copied from a page.
What is skipped, like headings and matches without a score, is reported. A part of a club's name is
enough if no other club has it.
"""

from __future__ import annotations

import argparse
import os
from contextlib import nullcontext

from . import common, writing
from .aliases import add_alias_argument, read_aliases
from .bookkeeper import Bookkeeper
from .feed_lines import Made, all_made
from .feed_report import report_of
from .list_settings import add_list_arguments
from .match_lines import HINT
from .match_list import MOST_WRONG
from .names import ALL_CLUBS
from .records import records_of
from .sheet_marks import missing_mark, unmarked_text
from .several import file_name


def add_arguments(parser: argparse.ArgumentParser) -> None:
    """The words of `league feed`."""
    parser.add_argument("sheet", metavar="SHEET", help="the sheet")
    parser.add_argument("lines", nargs="*", default=["-"], metavar="LINES",
                        help="the lines by names, in one file or several; standard input if left "
                             "out")
    add_alias_argument(parser)
    add_list_arguments(parser)
    parser.add_argument("--log", metavar="FEED", help="the feed so far; new lines go after it")
    parser.add_argument("--append", action="store_true",
                        help="write the new lines to the end of the feed so far")
    parser.add_argument("--ask", action="store_true", help="write an `ask` after the last line")
    parser.add_argument("--correct", action="store_true",
                        help="take other scores than those of the feed as corrections; without it "
                             "they are said, and the rest is taken")


def run(arguments: argparse.Namespace) -> int:
    """Writes the lines of the feed, or says what is not clear and writes none."""
    if arguments.append and not arguments.log:
        raise common.Trouble("--append needs --log FEED", common.BAD_WORDS)
    paths = arguments.lines or ["-"]
    if [arguments.sheet, *paths].count("-") > 1:
        raise common.Trouble("standard input can be read once: give `-` once", common.BAD_WORDS)
    sheet, aliases = common.read_bytes(arguments.sheet), read_aliases(arguments.aliases)
    files = [(file_name(path), common.read_bytes(path)) for path in paths]
    # nobody else adds to the feed between reading it and adding to it
    with writing.alone(arguments.log) if arguments.append else nullcontext():
        return _enter(arguments, sheet, aliases, files)


def _enter(arguments: argparse.Namespace, sheet: bytes, aliases: dict[str, str],
           files: list[tuple[str, bytes]]) -> int:
    """Makes the lines, and adds them to the feed or prints them; gives the status."""
    log = _log_so_far(arguments)
    book = Bookkeeper(sheet, log or b"", file_name(arguments.sheet), arguments.log or "the feed",
                      aliases)
    book.settings = book.settings.told(arguments)
    if log is None:
        common.say(f"league: {arguments.log} is not there: a new feed is begun")
    made = all_made(book, files, arguments.correct)
    for note in report_of(made):
        common.say(f"league: {note}")
    if made.wrong or made.refused:
        _tell_wrong(made)
        return common.TO_MEND
    if arguments.ask and (made.lines or not _ends_with_ask(log or b"")):
        made.lines.append("ask")
    elif arguments.ask:
        common.say(f"league: nothing is new, and {arguments.log} ends with an `ask` already")
    # a new feed has its mark even if nothing was played so far
    mark = missing_mark(book.sheet, log or b"") if made.lines or log is None else []
    if mark and unmarked_text([(arguments.log or "", log or b"")]):
        common.say(f"league: {arguments.log} had no mark of its sheet, and gets one now. Whether "
                   "its earlier results are of these matches, look at by `league table`")
    text = "".join(line + "\n" for line in mark + made.lines)
    if arguments.append and text:
        gap = "\n" if log and not log.endswith(b"\n") else ""
        writing.append(arguments.log, (gap + text).encode("utf-8", "surrogateescape"))
    elif not arguments.append:
        common.write_text(text)
    return common.DOUBTFUL if made.changed and not arguments.correct else common.DONE


def _log_so_far(arguments: argparse.Namespace) -> bytes | None:
    """The feed so far; none if --append begins it."""
    if not arguments.log:
        return b""
    if arguments.append and not os.path.exists(arguments.log):
        return None
    return common.read_bytes(arguments.log)


def _ends_with_ask(log: bytes) -> bool:
    """Whether the last record of a feed that was read already is an ask."""
    kinds = [record.kind for record in records_of(log)]
    return kinds[-1:] == ["ask"]


def _tell_wrong(made: Made) -> None:
    """Says what is not clear, and that nothing was written."""
    clubs = ""
    for message in made.refused + made.wrong[:MOST_WRONG]:
        front, sign, back = message.partition(ALL_CLUBS)
        clubs = back if sign else clubs
        common.say(f"league: {front}")
    if clubs:
        common.say(f"league: the clubs are {clubs}")
    number = len(made.wrong) - MOST_WRONG
    if number > 0:
        common.say(f"league: and {number} more line{'' if number == 1 else 's'}")
    if any("cannot be read as a match" in message for message in made.wrong):
        common.say(f"league: {HINT}")
    common.say("league: nothing was written")

