"""Takes results as they come, and has each `ask` answered at once. Lines are as in `league feed`:
`Germany 5-1 Scotland`, `correct ..`, `annul ..`, `deduct ..`, `ask`, or lines of the feed. Each is
tested first: what futmax would refuse is not sent, and the session goes on. A score in play,
`Germany ~1-0 Scotland`, is no result. `help` lists the other words: undo, table, tonight, when
and rows.

Each line is echoed in words, and an ask says what changed since the one before. With --rows each
ask or `when` has the rows of futmax, and after them a line `# end of answer N, after E events`. The
log keeps events, asks with an answer, and scores in play as comments; it is a feed. Lines that another
program adds to it are taken as if they were typed here.
"""

from __future__ import annotations

import argparse

from . import common
from .aliases import add_alias_argument, read_aliases
from .bookkeeper import Bookkeeper
from .evening import Evening
from .livelog import LiveLog
from .modes import DECIDE
from .onair import Live
from .sheet_marks import test_marks


def add_arguments(parser: argparse.ArgumentParser) -> None:
    """The words of `league live`."""
    parser.add_argument("sheet", metavar="SHEET", help="the sheet")
    parser.add_argument("log", metavar="LOG", help="the feed so far, kept; made if it is missing")
    parser.add_argument("--rows", action="store_true",
                        help="for programs: answer with the rows of futmax, echo nothing")
    parser.add_argument("--mode", choices=("decide", "verdicts", "table", "scores"),
                        help="with --rows: what an ask answers (decide; verdicts with --workers)")
    parser.add_argument("--proofs", action="store_true", help="with --rows: ask for proofs")
    parser.add_argument("--workers", type=int, metavar="N",
                        help="verdicts by so many threads, 1 to 8; without it the same lines have "
                             "the same words")
    add_alias_argument(parser)
    parser.add_argument("--program", metavar="PATH", help="the program futmax")


def run(arguments: argparse.Namespace) -> int:
    """Runs until the end of standard input, or until `quit`."""
    if not arguments.rows and (arguments.mode in ("table", "scores") or arguments.proofs):
        raise common.Trouble("--mode and --proofs need --rows: their answers are rows",
                             common.BAD_WORDS)
    arguments.mode = arguments.mode or ("verdicts" if arguments.workers else DECIDE)
    arguments.workers = arguments.workers or 1
    sheet = common.read_bytes(arguments.sheet)
    log = LiveLog(arguments.log)
    live = None
    try:
        aliases = read_aliases(arguments.aliases)
        evening = Evening(Bookkeeper(sheet, b"", arguments.sheet, aliases=aliases))
        test_marks([(arguments.sheet, sheet), (arguments.log, log.read())])
        log.mark(evening.book.sheet)
        live = Live(evening, log, sheet, arguments)
        live.begin()
        live.go_on()
    except KeyboardInterrupt:
        if live is not None:
            live.voice.tell(f"stopped by hand. {live.kept_text()}")
        raise
    finally:
        if live is not None:
            live.session.stop()
        log.close()
    return common.TO_MEND if live.refused and not live.prompt.is_shown else common.DONE
