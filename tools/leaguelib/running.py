"""Runs the program futmax, and reads what it wrote."""

from __future__ import annotations

import subprocess
from dataclasses import dataclass

from . import common
from .answers import BadAnswer, Report, read_report
from .feeds import Input, read_input
from .records import Refused

ENDINGS = {
    1: "it does not know these arguments; this program may be older than these tools",
    4: "its standard input failed",
    5: "its standard output failed",
    6: "its out of memory; run it with more memory",
    70: "it could not be built; see what the build says above",
}


@dataclass(frozen=True)
class Run:
    """What a run of the program ended with, and what it wrote."""

    status: int
    output: bytes


def add_input_arguments(parser) -> None:
    """The words that each part with an input and a program takes."""
    parser.add_argument("files", nargs="*", default=["-"], metavar="FILE",
                        help="sheet and feed, in one file or several that are read one after the "
                             "other; `-` is standard input (the default)")
    parser.add_argument("--ask", type=int, default=None, metavar="N",
                        help="look at the Nth ask of the feed, from 1; otherwise at the last")
    parser.add_argument("--program", metavar="PATH",
                        help="the program futmax, if it is not found by itself")


def read_files(paths: list[str]) -> bytes:
    """The files one after the other; a last line without an end gets one."""
    parts = [common.read_bytes(path) for path in paths]
    ended = [part if part.endswith(b"\n") or not part else part + b"\n" for part in parts[:-1]]
    return b"".join(ended) + (parts[-1] if parts else b"")


def read_league(data: bytes, takes_proofs: bool = False) -> Input:
    """The sheet and feed of an input; a refused line ends the command with a message."""
    try:
        return read_input(data, takes_proofs)
    except Refused as fault:
        raise common.Trouble(refusal_text(fault.line, fault.code)) from fault


def refusal_text(line: int, code: str) -> str:
    """What a `fault` row means, and where to look for help."""
    return f"line {line} is refused as `{code}`; `league lint` says what to write instead."


def run_program(path: str, words: list[str], data: bytes) -> Run:
    """Runs the program with these words on this input."""
    try:
        done = subprocess.run([path, *words], input=data, stdout=subprocess.PIPE, check=False)
    except (OSError, ValueError) as fault:
        reason = getattr(fault, "strerror", None) or str(fault)
        raise common.Trouble(f"{path} cannot be run: {reason}", common.NO_PROGRAM) from fault
    return Run(done.returncode, done.stdout)


def report_of(run: Run) -> Report:
    """The answers of a run that ended well; any other run ends the command with a message."""
    try:
        report = read_report(run.output)
    except BadAnswer as fault:
        raise common.Trouble(f"futmax wrote what these tools do not know: {fault}",
                             common.NO_PROGRAM) from fault
    if report.fault is not None:
        line, code = report.fault
        raise common.Trouble(f"futmax refuses line {line} as `{code}`, and these tools do not: it "
                             "may be an older program. Build it anew.", common.NO_PROGRAM)
    if run.status != 0:
        reason = ENDINGS.get(run.status, "nothing is known of this status")
        raise common.Trouble(f"futmax ended with status {run.status}: {reason}.",
                             common.NO_PROGRAM)
    return report


def ask_lines(league: Input) -> list[int]:
    """The line numbers of the asks."""
    return [entry.line for entry in league.entries if entry.kind == "ask"]


def position_of_ask(league: Input, wanted: int | None) -> int:
    """The position, from 0, of the ask that is looked at; without any ask the command ends."""
    asks = ask_lines(league)
    if not asks:
        raise common.Trouble("the feed has no `ask`: nothing was answered. Add a line `ask`.")
    if wanted is None:
        return len(asks) - 1
    if not 1 <= wanted <= len(asks):
        raise common.Trouble(f"the feed has {len(asks)} asks; --ask takes 1 to {len(asks)}.",
                             common.BAD_WORDS)
    return wanted - 1


def front_of(data: bytes, line: int) -> bytes:
    """The lines before this one."""
    return b"".join(part + b"\n" for part in data.split(b"\n")[:line - 1])
