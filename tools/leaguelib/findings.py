"""What was found in an input, and how it is told: mistakes with the line to write, and doubts."""

from __future__ import annotations

from collections import Counter
from dataclasses import dataclass, field

from . import common
from .doubts import Doubt
from .files import Joined
from .names import shown
from .records import Refused

MOST_ALIKE = 3

@dataclass
class Finding:
    """A mistake: where it stands, what is wrong, what stands there, and what to write instead."""

    line: int
    message: str
    written: str = ""
    instead: list[str] = field(default_factory=list)
    is_dropped: bool = False
    field_number: int = 0


@dataclass
class Outcome:
    """All that was found in an input; `refused` is the line at which the program stops.

    `league_line` is the line of the first `league` record, wherever it stands; 0 if none does.
    """

    findings: list[Finding] = field(default_factory=list)
    doubts: list[Doubt] = field(default_factory=list)
    refused: Refused | None = None
    more: int = 0
    league_line: int = 0
    is_league_missed: bool = False

    @property
    def status(self) -> int:
        """The exit status that says this."""
        if self.findings or self.refused:
            return common.TO_MEND
        return common.DOUBTFUL if self.doubts else common.DONE


def outcome_text(outcome: Outcome, whole: Joined) -> str:
    """What was found, as text for people; nothing if nothing was found."""
    parts = _finding_texts(outcome.findings, whole)
    if outcome.more:
        lines = "1 more line" if outcome.more == 1 else f"{outcome.more} more lines"
        parts.append(f"And {lines} of that kind. Mend these first, and look again.\n")
    for doubt in outcome.doubts:
        if doubt.is_minor and outcome.findings:
            continue
        where = f"{whole.origin(doubt.line)}: " if doubt.line else ""
        parts.append(f"{where}Is this meant? {capital(doubt.message)}\n")
    refused = outcome.refused
    if refused is not None:
        parts.append(f"futmax stops at {whole.origin(refused.line)}, with the row "
                     f"`fault,{refused.line},{refused.code}` and status {refused.status}.\n")
    elif parts:
        parts.append("futmax takes this input.\n")
    return "".join(parts)


def _finding_texts(findings: list[Finding], whole: Joined) -> list[str]:
    """The mistakes in order; of those with one message the first few, and the lines of the rest."""
    seen: Counter = Counter(finding.message for finding in findings)
    told: Counter = Counter()
    parts = []
    for finding in findings:
        told[finding.message] += 1
        if told[finding.message] <= MOST_ALIKE or seen[finding.message] == MOST_ALIKE + 1:
            parts.append(_finding_text(finding, whole))
        elif told[finding.message] == MOST_ALIKE + 1:
            last = max(other.line for other in findings if other.message == finding.message)
            parts.append(f"The same in {seen[finding.message] - MOST_ALIKE} more lines, the last "
                         f"of "
                         f"them {whole.origin(last)}.\n")
    return parts


def _finding_text(finding: Finding, whole: Joined) -> str:
    """One mistake with what stands there and what to write."""
    place = f", field {finding.field_number}" if finding.field_number else ""
    lines = [f"{whole.origin(finding.line)}{place}: {finding.message}"]
    if finding.written:
        lines.append(f"    you wrote:  {shown(finding.written)[1:-1]}")
    for number, text in enumerate(finding.instead):
        lines.append(("    write:      " if number == 0 else "                ") + text)
    if finding.is_dropped:
        lines.append("    write:      nothing; leave the line out")
    return "\n".join(lines) + "\n"


def capital(text: str) -> str:
    """The text with a capital letter in front."""
    return text[:1].upper() + text[1:]
