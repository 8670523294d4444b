"""Works on every question of a sheet and a feed, and writes what was found as a text from which
`league resume` goes on: tomorrow, with new results, or on another machine.

Nobody has to believe the file: whoever goes on from it tests each of its reasons again. It pays if
the budget is long, as in a sheet with `league,NAME,9,50000`, or by --budget. Its search is that of
the mode `verdicts`: it may leave rows unsettled that `league ask` settles in the mode `decide`.
"""

from __future__ import annotations

import argparse
import os

from . import common, writing
from .asking import futmax_statuses, league_of, run_mode, with_budget
from .front import add_one_budget
from .given import Given, ended, gather, test_output
from .line_names import asked_lines
from .names import shown
from .progress import Progress, add_progress_argument
from .records import MOST_INPUT_BYTES
from .saved import holds_text
from .stopped import stop_of
from .wording import counted, paragraph


def add_arguments(parser: argparse.ArgumentParser) -> None:
    """The words of this part."""
    parser.add_argument("files", nargs="*", default=["-"], metavar="FILE",
                        help="sheet and feed, in one file or several; `-` is standard input (the "
                             "default). No `ask` is answered")
    parser.add_argument("-o", "--output", metavar="FILE", default="-",
                        help="where the saved text goes; otherwise to standard output. A file that "
                             "is there is replaced at once, or left as it is")
    add_one_budget(parser)
    add_progress_argument(parser)
    parser.add_argument("--program", metavar="PATH",
                        help="the program futmax, if it is not found by itself")


def run(arguments: argparse.Namespace) -> int:
    """Writes the saved text, and gives the exit status."""
    _test_names(arguments)
    given = gather(arguments.files, adds_ask=False)
    data = given.data if arguments.budget is None else with_budget(given.data, arguments.budget)
    with Progress("futmax save", 0, arguments.progress), futmax_statuses():
        done = run_mode(common.program_path(arguments.program), "save", data)
    stop = stop_of(done, given)
    if stop is not None:
        raise common.Trouble(stop.message, stop.status)
    _test_text(given, done.output)
    if arguments.output == "-":
        common.write_text(done.output.decode("utf-8", "surrogateescape"))
    else:
        writing.replace(arguments.output, done.output)
        common.write_text(_told(arguments, given, done.output))
    return common.DONE


def _test_names(arguments: argparse.Namespace) -> None:
    """Ends the command where a file is not there, as one that is to be written, or where the text
    would replace one of the files that it is made of."""
    for path in arguments.files:
        if path != "-" and not os.path.exists(path):
            raise common.Trouble(f"{path}: there is no such file. If the saved text is to go "
                                 f"there, write `-o {path}`.", common.CANNOT_READ)
    test_output(arguments.files, arguments.output)


def _test_text(given: Given, text: bytes) -> None:
    """Ends the command where what came is no saved text, or more than futmax would take again."""
    if not text.endswith(b"saved_end\n"):
        raise common.Trouble("futmax save ended with status 0 and wrote no `saved_end`: it may be "
                             "of another version. Build it again.", common.OWN_FAULT)
    size = len(ended(given.data)) + len(b"proofs\n") + len(text)
    if size > MOST_INPUT_BYTES:
        raise common.Trouble(f"the saved text has {len(text):,} bytes, and futmax takes "
                             f"{MOST_INPUT_BYTES:,} with sheet and feed, so nothing was written. "
                             "Save with a smaller budget, or with fewer `line` records.", 8)


def _told(arguments: argparse.Namespace, given: Given, text: bytes) -> str:
    """What was saved, and how to go on."""
    league = league_of(given.data)
    if league is None:
        raise AssertionError("futmax took the input")
    questions, refuted = holds_text(text)
    events = sum(entry.is_event for entry in league.entries)
    told = (f"{arguments.output} has the work on {counted(questions, 'question')} of "
            f"{shown(league.sheet.name)} after {counted(events, 'event')}: "
            f"{counted(refuted, 'question')} {'is' if refuted == 1 else 'are'} ruled out, the "
            "others can happen or have used up their budget.")
    beyond = set(asked_lines(given.data, league.sheet)) - set(league.sheet.lines)
    if beyond:
        told += " Places that only a comment of the sheet asks for are not in it."
    named = [path for path in arguments.files if path != "-"]
    words = " ".join([*named, arguments.output])
    return (paragraph(told) + "\n"
            + (f"Go on with: league resume {words} [NEW RESULTS]\n" if named else ""))
