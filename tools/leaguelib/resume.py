"""Goes on from a text that `league save` wrote: who is in, out and open after the further results.

Files are the sheet and the feed of the night before, the saved text, and further feeds, in this
order; the end of a further feed without an `ask` counts as one. Asks before the saved text are not
answered. Nothing in the saved text is believed: each of its reasons is tested again, so a wrong
file costs time and may leave rows unsettled, and makes none wrong. The search goes on as in the mode
`verdicts`; `league ask` settles more rows, by the mode `decide`.
"""

from __future__ import annotations

import argparse
from dataclasses import dataclass

from . import common
from .asking import (Asked, Outcome, futmax_statuses, position_of, run_mode, with_asks,
                     with_budget)
from .explain import first_screen
from .feeds import Input, read_input
from .files import Joined, examine
from .front import add_front_arguments, add_one_budget, for_programs, write_outcome
from .given import Given, ended, given_of, read_all
from .progress import Progress
from .records import Refused, fields_of
from .report_faults import kind_of
from .running import Run, ask_lines, report_of
from .sheet_marks import test_marks
from .saved import bad_save_text, parted, saved_part, without_saved
from .stopped import Stop, stop_of, whole_report
from .texts import Season
from .view import viewed

NAME_IT = ("Name the saved text after the sheet and the feed that it was made of, as in `league "
           "resume SHEET FEED SAVED NEW_FEED`")


def add_arguments(parser: argparse.ArgumentParser) -> None:
    """The words of this part."""
    add_front_arguments(parser)
    add_one_budget(parser)
    parser.add_argument("--examples", action="store_true",
                        help="with --json: the finishes that show each possible row")


@dataclass
class Resumed:
    """An input of the mode `resume`, and the same as sheet and feed alone, line by line.

    `last` is the last line of the saved text, and `name` its file.
    """

    given: Given
    plain: Given
    last: int
    name: str


def run(arguments: argparse.Namespace) -> int:
    """Writes the answer, and gives the exit status."""
    is_for_people = not (arguments.json or arguments.rows)
    files = read_all(arguments.files)
    whole = resumed_of(files)
    with Progress("futmax resume", 0, arguments.progress), futmax_statuses():
        path = common.program_path(arguments.program)
        league = _league(whole)
        wanted, since = None, ""
        if league is not None:
            position = position_of(league, arguments.ask)
            if is_for_people and position == 0:
                # the ask right after the saved text tells what changed since then
                whole = resumed_of(files, asks_first=True)
                league, position, since = _league(whole), 1, whole.name
            wanted = [position - 1, position] if is_for_people else (
                [position] if arguments.ask is not None else None)
        outcome = _outcome(path, whole, league, wanted, arguments.budget)
        text = ""
        if is_for_people and outcome.stop is None:
            text = first_screen(viewed(whole.plain, outcome, path, before_name=since))
        elif not is_for_people:
            text = for_programs(whole.given, outcome, arguments)
    write_outcome(arguments, outcome, text)
    return common.DONE


def resumed_of(files: list[tuple[str, bytes]], asks_first: bool = False) -> Resumed:
    """The files as one input of the mode `resume`."""
    places = [at for at, (_, data) in enumerate(files) if kind_of(data) == "saved text"]
    if not places and len(files) == 1:
        return _as_it_stands(files)
    if len(places) != 1:
        many = f"{len(places)} of these files are saved texts" if places else (
            "none of these files begins as a saved text does")
        raise common.Trouble(f"{many}. {NAME_IT}.", common.BAD_WORDS)
    at = places[0]
    if not any(kind_of(data) == "sheet" for _, data in files[:at]):
        raise common.Trouble(f"no sheet comes before {files[at][0]}, the saved text. {NAME_IT}.",
                             common.BAD_WORDS)
    for name, data in files[at + 1:]:
        for message in examine(data).messages:
            raise common.Trouble(f"{name}: {message}.")
    test_marks(files[:at] + files[at + 1:])
    return _put_together(given_of(files[:at], adds_ask=False), files[at], files[at + 1:],
                         asks_first)


def _put_together(front: Given, saved: tuple[str, bytes], more: list[tuple[str, bytes]],
                  asks_first: bool) -> Resumed:
    """Sheet and feed, the saved text, and the further feeds; what comes after the end of the saved
    text in its file is one of them."""
    name, text = saved
    text, rest = parted(ended(text))
    before = ended(front.data)
    own = b"proofs\n" + text
    first = before.count(b"\n") + 2
    last = first + text.count(b"\n") - 1
    after, has_ask = b"ask\n" if asks_first else b"", False
    starts = [*front.whole.starts, (name, first, 1)]
    for other, feed, number in [(name, rest, text.count(b"\n") + 1),
                                *((other, feed, 1) for other, feed in more)]:
        if feed:
            starts.append((other, last + after.count(b"\n") + 1, number))
        after += ended(feed)
        has_ask = has_ask or _has_ask(feed)
    lines = last + after.count(b"\n")
    after += b"" if has_ask else b"ask\n"
    data = before + own + after
    plain = before + b"\n" * own.count(b"\n") + after
    paths = front.paths + [other for other, _ in more]
    return _resumed(Given(Joined(data, starts, lines), data, paths, has_ask), plain, last, name)


def _as_it_stands(files: list[tuple[str, bytes]]) -> Resumed:
    """One input that has all of it."""
    given = given_of(files, adds_ask=False)
    part = saved_part(given.data)
    after = b"\n".join(given.data.split(b"\n")[part.end:]) if part.end else b""
    given.has_own_ask = _has_ask(after)
    given.report_line = 0
    if part.end and not given.has_own_ask:
        given.data = ended(given.data) + b"ask\n"
    last = part.end if part.end or not part.proofs else given.whole.lines
    return _resumed(given, without_saved(given.data), last, "the saved text")


def _resumed(given: Given, plain: bytes, last: int, name: str) -> Resumed:
    """The input, and the same without its saved text and the asks before it."""
    try:
        rows = plain.split(b"\n")
        for line in ask_lines(read_input(plain)):
            if line <= last:
                rows[line - 1] = b""
        plain = b"\n".join(rows)
    except Refused:
        pass
    return Resumed(given, Given(given.whole, plain, given.paths, given.has_own_ask), last, name)


def _has_ask(feed: bytes) -> bool:
    """Whether a feed has an `ask`."""
    return any(raw[:1] in b'a"\xef' and fields_of(raw.rstrip(b"\r"))[:1] == ["ask"]
               for raw in feed.split(b"\n") if raw)


def _league(whole: Resumed) -> Input | None:
    """Sheet and feeds, or none if futmax refuses them as well."""
    try:
        return read_input(whole.plain.data)
    except Refused:
        return None


def _outcome(path: str, whole: Resumed, league: Input | None, wanted: list[int] | None,
             budget: int | None) -> Outcome:
    """What the mode answers to the asks that are wanted, or to all."""
    data = whole.given.data
    if league is not None and wanted is not None:
        data = with_asks(data, league, wanted)
    data = data if budget is None else with_budget(data, budget)
    done = run_mode(path, "resume", data)
    stop = _stop(done, whole, league)
    if stop is not None or league is None:
        answers = whole_report(done).answers
        return Outcome(league, [Asked(at, 0, Season(), answer, 0)
                                for at, answer in enumerate(answers)] if league is None else
                       _asked(league, answers, wanted, budget), stop or _disagreement())
    return Outcome(league, _asked(league, report_of(done).answers, wanted, budget))


def _asked(league: Input, answers: list, wanted: list[int] | None,
           budget: int | None) -> list[Asked]:
    """The answers with the asks that they are of."""
    lines = ask_lines(league)
    positions = range(len(lines)) if wanted is None else wanted
    return [Asked(at, lines[at], league.season_at(at), answer, budget or league.sheet.budget)
            for at, answer in zip(positions, answers)]


def _stop(done: Run, whole: Resumed, league: Input | None) -> Stop | None:
    """Why a run ended before its time: a line of the saved text, or as in the other modes."""
    rows = done.output.splitlines()
    last = fields_of(rows[-1]) if rows and done.status == 3 else []
    if len(last) == 3 and last[2] == "bad_save" and last[1].isdigit():
        line = int(last[1])
        sheet = league.sheet if league is not None else None
        return Stop(done.status, last[2], line,
                    bad_save_text(whole.given, line, whole.last, sheet))
    return stop_of(done, whole.plain)


def _disagreement() -> Stop:
    """The program takes an input that these tools refuse."""
    return Stop(common.OWN_FAULT, "", 0, "futmax takes this input and these tools refuse it: it "
                                         "may be of another version. Build it again.")
