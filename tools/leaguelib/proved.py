"""Reports with proofs, and whether the program's own check accepts them."""

from __future__ import annotations

from dataclasses import dataclass

from . import common
from .answers import Answer, Report, Verdict
from .asking import run_mode
from .feeds import Input
from .modes import DECIDE, DECIDE_CHECK
from .running import report_of


@dataclass
class Told:
    """A report with its input, whether its proofs may be told, and what to say of that."""

    league: Input
    report: Report
    is_checked: bool
    note: str = ""


def own_report(program: str | None, data: bytes, league: Input) -> Told:
    """The program's own answer, with proofs where it can write and check them."""
    path = common.program_path(program)
    written = run_mode(path, DECIDE, data, "--proofs")
    if written.status == 1:
        return Told(league, report_of(run_mode(path, DECIDE, data)), False)
    report = report_of(written)
    found = refusal_of_report(path, data, written.output)
    note = "" if found in ("accepted", "unknown") else (
        f"The program's own check refuses its proofs: {found}. They are left out.")
    return Told(league, report, found == "accepted", note)


def proved_row(answer: Answer, verdict: Verdict) -> Verdict | None:
    """The same row of an answer with its proof, if it has one."""
    wanted = (verdict.places, verdict.club, verdict.word)
    found = next((it for it in answer.verdicts if (it.places, it.club, it.word) == wanted), None)
    has_proof = found is not None and bool(found.proofs or found.refutations)
    return found if has_proof else None


def refusal_of_report(path: str, front: bytes, report: bytes) -> str:
    """`accepted`, `unknown` where there is no mode `check`, or why the report is refused."""
    ended = front if front.endswith(b"\n") or not front else front + b"\n"
    done = run_mode(path, DECIDE_CHECK, ended + b"proofs\n" + report)
    rows = [row.split(b",") for row in done.output.splitlines()]
    last = [field.decode("ascii", "replace") for field in rows[-1]] if rows else [""]
    if done.status == 0 and last[0] == "accepted":
        return "accepted"
    if done.status == 1 and last[0] == "usage":
        return "unknown"
    if last[0] == "refused" and len(last) == 3 and last[1].isdigit():
        line = int(last[1]) - (ended.count(b"\n") + 1)
        reasons = {"no_proof": "does not prove what it should", "bad_line": "does not belong there",
                   "short": "is missing, the report ends too early"}
        return f"line {line} of the report {reasons.get(last[2], last[2])}"
    raise common.Trouble(f"`futmax check` ended with status {done.status} and said "
                         f"`{','.join(last)}`", common.NO_PROGRAM)
