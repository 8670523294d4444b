"""The words of the command `league`: which part is called, and with which status it ends.

A part is a module with `add_arguments(parser)` and `run(arguments) -> int`. It raises `Trouble` if
it cannot go on. Parts whose module is not there are left out.
"""

from __future__ import annotations

import argparse
import importlib
import importlib.util
import os
import sys
import traceback
from typing import Callable

from . import common

PARTS = {
    "ask": "who is in, out and open: sentences, rows or JSON",
    "table": "the table of the matches played",
    "scores": "how many points are enough, and how many are too few",
    "check": "whether a report proves what it says",
    "explain": "the same as ask, what changed since a day, and why",
    "places": "the best and the worst place still possible for each club",
    "board": "write an answer as a page for the browser",
    "tonight": "what each open match of the evening would decide",
    "live": "keep a log and have each line answered at once",
    "save": "keep the work on a league in a file",
    "resume": "go on from such a file: who is in, out and open now",
    "many": "ask many leagues, and write what changed when, for a database",
    "sheet": "make a sheet from a list of fixtures",
    "feed": "turn results by names into a feed",
    "lint": "look for mistakes in a sheet and a feed",
    "names": "other names of the clubs, and which club a name means",
}
# parts whose module has another name
MODULES = {"names": "other_names"}


EXAMPLES = """\
examples:
  league ask sheet.csv feed.csv
  league explain sheet.csv feed.csv --why "My club"
  league sheet fixtures.csv --name "My league" --lines 1,4 --order overall_first -o sheet.csv
  league feed sheet.csv results.txt --ask > feed.csv
  league lint sheet.csv feed.csv
  league tonight sheet.csv feed.csv
  league live sheet.csv feed.csv
  league save sheet.csv feed.csv -o night.save
  league resume sheet.csv feed.csv night.save today.csv

"""


class Parser(argparse.ArgumentParser):
    """A parser that tells its version, and ends with status 1 where words do not fit."""

    def __init__(self, **words: object) -> None:
        super().__init__(formatter_class=argparse.RawDescriptionHelpFormatter, **words)
        self.add_argument("--version", action="version", version=f"league {common.version()}",
                          help="print the version and exit")

    def error(self, message: str) -> None:
        """Ends with the usage, the reason, and the status for words that do not fit."""
        self.print_usage(sys.stderr)
        common.say(f"{self.prog}: {message}\n`{self.prog} --help` lists the options.")
        self.exit(common.BAD_WORDS)


def parts() -> dict[str, str]:
    """The parts whose module is there, and what they do."""
    return {name: summary for name, summary in PARTS.items()
            if importlib.util.find_spec(module_of(name)) is not None}


def module_of(part: str) -> str:
    """The module of a part."""
    return f"{__package__}.{MODULES.get(part, part)}"


def make_parser() -> Parser:
    """The parser of the command itself: it knows the parts by their names alone."""
    parser = Parser(prog="league", epilog=EXAMPLES + common.STATUS_TABLE,
                    description="Asks the program futmax, explains its answers, and prepares and "
                                "checks its input.")
    words = parser.add_subparsers(dest="part", metavar="PART", required=True,
                                  parser_class=argparse.ArgumentParser)
    for name, summary in parts().items():
        words.add_parser(name, help=summary, add_help=False)
    return parser


def read_words(given: list[str]) -> argparse.Namespace:
    """What the words ask for; ends where they ask for help, or do not fit."""
    if given[:1] == ["help"]:
        given = given[1:2] + ["--help"]
    chosen = given[0] if given else ""
    if chosen not in parts():
        return make_parser().parse_args(given)
    part = importlib.import_module(module_of(chosen))
    parser = Parser(prog=f"league {chosen}", description=(part.__doc__ or "").strip(),
                    epilog=common.STATUS_TABLE)
    part.add_arguments(parser)
    parser.set_defaults(run=part.run, part=chosen)
    rest = given[1:]
    # files may stand before and after the options; what follows `--` is taken as it stands
    return parser.parse_args(rest) if "--" in rest else parser.parse_intermixed_args(rest)


def main(words: list[str] | None = None) -> int:
    """Runs the command with these words, or with those of the process, and gives its status."""
    def run() -> int:
        arguments = read_words(sys.argv[1:] if words is None else words)
        return arguments.run(arguments)

    return status_of(run)


def status_of(run: Callable[[], int]) -> int:
    """The status of what is run; if it ends with a fault, that is said, and has its own status."""
    try:
        status = run()
        if sys.stdout is not None:
            sys.stdout.flush()
        return status
    except common.Trouble as trouble:
        common.say(f"league: {trouble.message}")
        return trouble.status
    except KeyboardInterrupt:
        return common.INTERRUPTED
    except BrokenPipeError:
        common.say("league: the reader of the output went away before its end.")
        _drop_output()
        return common.CANNOT_WRITE
    except OSError as fault:
        common.say(f"league: the output cannot be written: {fault.strerror or fault}. Make room, "
                   "or write elsewhere, and run it again.")
        _drop_output()
        return common.CANNOT_WRITE
    except Exception as fault:  # pylint: disable=broad-except
        common.say(_own_fault(fault))
        return common.OWN_FAULT


def _own_fault(fault: Exception) -> str:
    """What to say where this command itself is wrong: where, and what."""
    last = traceback.extract_tb(fault.__traceback__)[-1]
    place = f"{os.path.basename(last.filename)}, line {last.lineno}"
    return (f"league: a fault of this command itself ({place}: {type(fault).__name__}: {fault}). "
            "Please report it, with the input; the program futmax has no part in it")


def _drop_output() -> None:
    """Keeps the interpreter from trying the closed output once more when it ends."""
    try:
        os.dup2(os.open(os.devnull, os.O_WRONLY), sys.stdout.fileno())
    except OSError:
        pass
