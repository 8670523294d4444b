"""Whether a report of `futmax decide --proofs`, or of `verdicts --proofs`, proves what it says:
`league check SHEET FEED REPORT`. The last file is the report; or one input has it after the record
`proofs`. The second checker is asked too, and if the two differ the command says so.
"""

from __future__ import annotations

import argparse
import subprocess
import sys
from pathlib import Path

from . import common
from .asking import futmax_statuses, run_mode
from .cups import begins_a_cup
from .files import Joined
from .given import Given, add_file_arguments, ended, given_of, read_all
from .modes import DECIDE_CHECK, known_mode
from .objects import line_of
from .records import fields_of
from .report_faults import fault_of, kind_of
from .running import Run
from .stopped import Stop, stop_of
from .wording import counted, paragraph

OLDER = "This futmax is older than the report, and has no mode `decide_check`: build it again. "


def add_arguments(parser: argparse.ArgumentParser) -> None:
    """The words of this part."""
    add_file_arguments(parser)
    forms = parser.add_mutually_exclusive_group()
    forms.add_argument("--json", action="store_true", help="one JSON object")
    forms.add_argument("--rows", action="store_true", help="the row as futmax writes it")


def run(arguments: argparse.Namespace) -> int:
    """Has the report checked, says how it went, and gives the exit status."""
    given = given_report(arguments.files)
    with futmax_statuses():
        path = common.program_path(arguments.program)
        done = run_mode(path, DECIDE_CHECK, given.data)
        takes_near = known_mode(path, DECIDE_CHECK) == DECIDE_CHECK
    stop = stop_of(done, given)
    if stop is not None and stop.status == 7:
        is_older = not takes_near and '"near"' in given.text_of(stop.line)
        stop.message = (OLDER if is_older else fault_of(given.data)) + stop.message
    row = fields_of(done.output.splitlines()[-1]) if done.output else []
    if stop is None and (len(row) != 3 or row[0] != "accepted"):
        raise common.Trouble("futmax check ended with status 0 and did not say that it accepts: "
                             "it may be of another version. Build it again.", common.OWN_FAULT)
    is_heard = is_second_agreed(given, done, takes_near)
    if arguments.rows:
        common.write_text(done.output.decode("utf-8", "surrogateescape"))
    elif arguments.json:
        common.write_text(line_of(_object(given, stop, row)))
    elif stop is None:
        common.write_text(_accepted_text(done, is_heard))
    if stop is not None:
        raise common.Trouble(stop.message, stop.status)
    return common.DONE


def is_second_agreed(given: Given, done: Run, takes_near: bool) -> bool:
    """Whether the second checker, which shares nothing with futmax, was asked and says the same;
    it takes no cups.

    It takes near leaves where the mode of futmax does.
    """
    path = Path(__file__).resolve().parents[1] / "second_checker"
    if not path.is_file() or done.status not in (0, 2, 3, 7, 8) or begins_a_cup(given.data):
        return False
    words = [sys.executable, str(path)] + ["--near"] * takes_near
    second = subprocess.run(words, input=given.data, stdout=subprocess.PIPE,
                            stderr=subprocess.DEVNULL, check=False)
    rows = [text.decode("utf-8", "replace").strip() for text in (done.output, second.stdout)]
    # of a faulty line of sheet or feed the second checker tells no code
    wanted = rows[0].rsplit(",", 1)[0] if rows[0].startswith("fault,") else rows[0]
    if wanted != rows[1] or done.status != second.returncode:
        raise common.Trouble(f"futmax says `{rows[0]}`, and the second checker says `{rows[1]}`. "
                             "One of them is wrong: believe neither, and report the input.",
                             common.OWN_FAULT)
    return True


def given_report(paths: list[str]) -> Given:
    """The input of a check: as it stands, or put together of the files before the report and it."""
    files = read_all(paths)
    whole = given_of(files, adds_ask=False, takes_cup=True)
    if whole.report_line:
        return whole
    if len(files) < 2:
        raise common.Trouble("there is no report: name it as the last file, as in `league check "
                             "SHEET FEED REPORT`.", common.BAD_WORDS)
    name, report = files[-1]
    if kind_of(report) in ("sheet", "feed", "saved text"):
        raise common.Trouble(f"there is no report: {name}, the last file, is a {kind_of(report)}. "
                             "Name the report after sheet and feed, as in `league check SHEET FEED "
                             "REPORT`.", common.BAD_WORDS)
    front = given_of(files[:-1], adds_ask=bool(report.strip()), takes_cup=True)
    data = ended(front.data)
    first = data.count(b"\n") + 2
    count = report.count(b"\n") + (bool(report) and not report.endswith(b"\n"))
    whole = Joined(data + b"proofs\n" + report, front.whole.starts + [(name, first, 1)],
                   first - 1 + count)
    return Given(whole, whole.data, front.paths, front.has_own_ask)


def _object(given: Given, stop: Stop | None, row: list[str]) -> dict:
    """How the check went, for programs."""
    if stop is None:
        return {"type": "check", "accepted": True, "rows": int(row[1]), "unsettled": int(row[2])}
    if stop.status == 7:
        return {**stop.object_for(given), "type": "check", "accepted": False}
    return stop.object_for(given)


def _accepted_text(done: Run, is_heard: bool) -> str:
    """What an accepted report has shown."""
    row = fields_of(done.output.splitlines()[-1])
    unsettled = int(row[2])
    text = (f"Accepted: the report proves its {counted(int(row[1]), 'row')} on this sheet and "
            "feed, for every end within the goal limit and every drawing of lots.")
    if unsettled:
        text += (f" {counted(unsettled, 'row')} of them {'is' if unsettled == 1 else 'are'} "
                 "unsettled and say nothing of the club.")
    if is_heard:
        text += " The second checker, which shares nothing with futmax, says the same."
    return paragraph(text) + "\n"
