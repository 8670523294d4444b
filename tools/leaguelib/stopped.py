"""What it means where futmax did not end with status 0: a sentence with file, line and text, and
what to do. The statuses are those of the card in README.
"""

from __future__ import annotations

from dataclasses import dataclass

from . import common
from .answers import BadAnswer, read_report
from .feeds import Input, read_input
from .findings import Finding
from .given import Given
from .lint import look
from .names import shown
from .records import Refused, fields_of, lines_of
from .running import Run
from .words import words_for

SENTENCES = {
    1: "futmax does not know these arguments (status 1). It may be older than these tools: build "
       "it again, or name another one by --program",
    4: "futmax could not read its input (status 4). Run it again; rows so far are good",
    5: "futmax could not write its answer (status 5). Make room, and run it again",
    6: "out of memory (status 6). Run it with more memory, or with fewer matches open",
    70: "futmax could not be built (status 70). See what the build says above",
}
REPORT_WORDS = {
    "no_proof": "this line does not prove what it should",
    "bad_line": "this line may not come here: the lines before it begin a report, and this one "
                "does not go on with it",
    "short": "the report ends before it is whole",
}
REFUSED_REPORT = "Do not believe the report; let whoever made it make it again"


@dataclass
class Stop:
    """Why futmax ended: the status, the code, the line of the whole, and what to say of it."""

    status: int
    code: str
    line: int
    message: str

    def object_for(self, given: Given) -> dict:
        """The same for programs."""
        name, number = given.file_and_line(self.line) if self.line else ("", 0)
        return {"type": "fault", "status": self.status, "code": self.code, "file": name,
                "line": number, "text": given.text_of(self.line), "message": self.message}


def stop_of(run: Run, given: Given) -> Stop | None:
    """Why a run ended before its time, or none if it ended well."""
    if run.status == 0:
        return None
    rows = [row for row in run.output.splitlines() if not row.startswith(b"[")]
    last = fields_of(rows[-1]) if rows else []
    if len(last) == 3 and last[0] in ("fault", "refused") and last[1].isdigit():
        return _refusal(run.status, int(last[1]), last[2], given)
    reason = SENTENCES.get(run.status, f"futmax ended with status {run.status}, which is none of "
                                       "its own; it may have been stopped from outside")
    return Stop(run.status if 0 < run.status < 128 else common.OWN_FAULT, "", 0, reason + ".")


def _refusal(status: int, line: int, code: str, given: Given) -> Stop:
    """A line that is refused: where it stands, what it says, why, and what to write."""
    quoted = given.quoted(line)
    place = given.origin(line) + (f": {quoted}" if quoted else "")
    if status == 7:
        return Stop(status, code, line,
                    f"{place}: {REPORT_WORDS.get(code, code)} (`{code}`). {REFUSED_REPORT}.")
    finding = _finding(given, line, code)
    reason = finding.message if finding else f"{_words(given, line, code)}."
    text = f"{place}: {reason} (`{code}`)"
    if finding and finding.instead:
        text += " Write: " + " and then ".join(shown(row) for row in finding.instead)
    elif finding and finding.is_dropped:
        text += " Leave the line out."
    files = " ".join(name for name in given.paths if name != "standard input")
    more = f"`league lint {files}` looks at the rest." if files else ""
    return Stop(status, code, line, f"{text}\n{more}".rstrip())


def league_in(given: Given, takes_whens: bool = False) -> Input:
    """The sheet and feed of an input; a refused line ends the command with a message."""
    try:
        return read_input(given.data, True, takes_whens)
    except Refused as refused:
        stop = _refusal(refused.status, refused.line, refused.code, given)
        raise common.Trouble(stop.message) from refused


def _finding(given: Given, line: int, code: str) -> Finding | None:
    """What the look for mistakes says of this line, where it says the same as futmax."""
    outcome = look(given.data, is_sheet_only=True)
    found = outcome.refused
    if found is None or (found.line, found.code) != (line, code):
        return None
    return next((finding for finding in outcome.findings if finding.line == line), None)


def _words(given: Given, line: int, code: str) -> str:
    """What a code means, where nothing more is known."""
    fields: list[str] = []
    try:
        fields = next((fields_of(raw) for number, raw in lines_of(given.data) if number == line),
                      [])
    except Refused:
        pass
    text = words_for(Refused(line, code, 0, "feed"), fields, None)
    return text[:1].upper() + text[1:]


def answers_before(run: Run) -> bytes:
    """The rows of a run without a last row that is no answer."""
    rows = run.output.splitlines(keepends=True)
    kept = [row for row in rows if not row.startswith((b"fault,", b"refused,", b"usage,"))]
    return b"".join(kept)


def whole_report(run: Run):
    """The answers of a run, also those before a refused line."""
    try:
        return read_report(answers_before(run))
    except BadAnswer as fault:
        raise common.Trouble(f"futmax wrote what these tools do not know: {fault}. It may be of "
                             "another version", common.OWN_FAULT) from fault
