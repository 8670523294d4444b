"""What the program wrote, read back: verdicts with examples and proofs, tables, faults."""

from __future__ import annotations

import json
from dataclasses import dataclass, field

from .records import Record, Refused, lines_of, number_of, record_of

WORDS = ("clinched", "lost", "possible", "unsettled")
OUTCOMES = ("home", "draw", "away")
PLACE_KINDS = ("top", "below")
WIDTHS = {"ask": 2, "when": 4, "verdict": 4, "place": 8, "score": 5, "fault": 3, "usage": 2,
          "accepted": 3, "refused": 3}


class BadAnswer(Exception):
    """A line that the program does not write: its number and what was expected."""

    def __init__(self, line: int, reason: str) -> None:
        super().__init__(f"line {line} of the answer: {reason}")
        self.line = line
        self.reason = reason


@dataclass
class Example:
    """A way in which the open matches can end, and lots; `claim` is `inside` or `outside`."""

    claim: str
    scores: dict[int, tuple[int, int]] = field(default_factory=dict)
    lots: list[int] = field(default_factory=list)


@dataclass(frozen=True)
class ProofLine:
    """One line of a proof: its number, and its parts as JSON has them, like `["leaf", "count"]`."""

    line: int
    parts: list


@dataclass(frozen=True)
class GroupQuestion:
    """What a tree in an answer for a cup is about: a kind, a club from 1, and a key where the head
    has one.
    """

    kind: str
    club: int
    key: tuple[int, ...] = ()


@dataclass
class Proof:
    """The tree after a row: `kind` is `tree` or `spent`, `lines` what follows the opening line; of
    a cup it is about a question.
    """

    kind: str
    claim: str
    window: tuple[int, int] | None = None
    lines: list[ProofLine] = field(default_factory=list)
    question: GroupQuestion | None = None


@dataclass
class Verdict:
    """A verdict row with what follows it; `examples` and `proofs` are by claim. In the proof of a
    cup's row `key` and `groups`, from 1, stand before its refutations.
    """

    places: int
    club: str
    word: str
    line: int = 0
    examples: dict[str, Example] = field(default_factory=dict)
    proofs: dict[str, Proof] = field(default_factory=dict)
    key: tuple[int, ...] = ()
    groups: list[int] = field(default_factory=list)
    refutations: list[Proof] = field(default_factory=list)


@dataclass(frozen=True)
class Place:
    """A row of the table: its places, from 1, are the best and the worst over all lots."""

    best: int
    worst: int
    club: str
    played: int
    points: int
    difference: int
    scored: int


@dataclass(frozen=True)
class Score:
    """The qualification scores of a club, as written: a number, `none` or `LOW..HIGH`."""

    places: int
    club: str
    possible: str
    guaranteed: str
    line: int = 0


@dataclass
class Answer:
    """What stands after one `ask` row; `epoch` is the number of events before it. After a `when`
    row it is given that its fixture, from 1, has this outcome: `home`, `draw` or `away`.
    """

    epoch: int
    line: int = 0
    fixture: int = 0
    outcome: str = ""
    verdicts: list[Verdict] = field(default_factory=list)
    table: list[Place] = field(default_factory=list)
    scores: list[Score] = field(default_factory=list)


@dataclass
class Report:
    """A whole output: its answers, and the last row where it is no answer.

    `fault` is the line and code of a refused input; `checked` the row of the mode `check`.
    """

    answers: list[Answer] = field(default_factory=list)
    fault: tuple[int, str] | None = None
    usage: str = ""
    checked: tuple[str, ...] = ()


def read_report(data: bytes, first_line: int = 1) -> Report:
    """Reads an output of the program, or raises `BadAnswer`; line numbers begin at `first_line`."""
    report = Report()
    reader = _ReportReader(report)
    try:
        for number, raw in lines_of(data):
            line = number + first_line - 1
            if raw.startswith(b"["):
                reader.take_proof_line(line, raw)
                continue
            record = record_of(line, raw)
            if record is not None:
                reader.take_row(record)
    except Refused as fault:
        raise BadAnswer(first_line + fault.line - 1, "this line is too long") from fault
    return report


class _ReportReader:
    """Takes the lines of an output in order."""

    def __init__(self, report: Report) -> None:
        self.report = report
        self.verdict: Verdict | None = None
        self.is_behind_score = False
        self.example: Example | None = None
        self.proof: Proof | None = None

    def take_row(self, record: Record) -> None:
        """Takes a row, which is no proof line."""
        fields = record.fields
        if WIDTHS.get(record.kind) != len(fields):
            raise BadAnswer(record.line, "this is no row that futmax writes")
        self.verdict = self.example = self.proof = None
        self.is_behind_score = record.kind == "score"
        if record.kind == "ask":
            self.report.answers.append(Answer(_natural(record, 2), record.line))
        elif record.kind == "when":
            if fields[3] not in OUTCOMES:
                raise BadAnswer(record.line, f"`{fields[3]}` is no outcome")
            self.report.answers.append(Answer(_natural(record, 2), record.line,
                                              _natural(record, 3), fields[3]))
        elif record.kind == "fault":
            self.report.fault = (_natural(record, 2), fields[2])
        elif record.kind == "usage":
            self.report.usage = fields[1]
        elif record.kind in ("accepted", "refused"):
            self.report.checked = tuple(fields)
        else:
            self._take_answer_row(record)

    def _take_answer_row(self, record: Record) -> None:
        """Takes a row that stands after an `ask`."""
        if not self.report.answers:
            raise BadAnswer(record.line, "there is a row before the first `ask` or `when` row")
        answer, fields = self.report.answers[-1], record.fields
        if record.kind == "verdict":
            if fields[3] not in WORDS:
                raise BadAnswer(record.line, f"`{fields[3]}` is no verdict")
            self.verdict = Verdict(_natural(record, 2), fields[2], fields[3], record.line)
            answer.verdicts.append(self.verdict)
        elif record.kind == "score":
            answer.scores.append(Score(_natural(record, 2), fields[2], fields[3], fields[4],
                                       record.line))
        else:
            numbers = [_integer(record, position) for position in (2, 3, 5, 6, 7, 8)]
            answer.table.append(Place(numbers[0], numbers[1], fields[3], *numbers[2:]))

    def take_proof_line(self, line: int, raw: bytes) -> None:
        """Takes a line that is a JSON array; the trees after a score are passed over."""
        if self.is_behind_score:
            return
        try:
            parts = json.loads(raw)
        except (ValueError, RecursionError) as fault:
            raise BadAnswer(line, "this is no JSON array") from fault
        if not isinstance(parts, list) or not parts or not isinstance(parts[0], str):
            raise BadAnswer(line, "a proof line is an array that begins with a word")
        try:
            self._take_parts(line, parts)
        except (IndexError, TypeError, ValueError, AttributeError) as fault:
            raise BadAnswer(line, "this proof line has not the parts of its kind") from fault

    def _take_parts(self, line: int, parts: list) -> None:
        word = parts[0]
        if self.verdict is None:
            raise BadAnswer(line, "a proof line does not follow a verdict row")
        if word == "finish":
            self.proof = None
            self.example = Example(str(parts[1]))
            self.verdict.examples[self.example.claim] = self.example
        elif word == "score":
            self.example.scores[int(parts[1])] = (int(parts[2]), int(parts[3]))
        elif word == "lots":
            self.example.lots = [int(club) for club in parts[1]]
            self.example = None
        elif word in ("tree", "spent"):
            window = (int(parts[2]), int(parts[3])) if len(parts) > 2 else None
            self.proof = Proof(word, str(parts[1]), window)
            self.verdict.proofs[self.proof.claim] = self.proof
        elif word in ("key", "groups", "group_tree", "group_spent"):
            self._take_group_parts(word, parts)
        else:
            self.proof.lines.append(ProofLine(line, parts))


    def _take_group_parts(self, word: str, parts: list) -> None:
        """Takes a line that stands in the proof of a cup's row alone."""
        verdict = self.verdict
        if word == "key":
            verdict.key = tuple(int(part) for part in parts[1])
        elif word == "groups":
            verdict.groups = [int(group) for group in parts[1]]
        else:
            key = tuple(int(part) for part in parts[3]) if len(parts) > 3 else ()
            if word == "group_spent" and (parts[1] in PLACE_KINDS) != (not key):
                raise ValueError("a key stands after some kinds alone")
            question = GroupQuestion(str(parts[1]), int(parts[2]), key)
            if word == "group_tree":
                self.proof = Proof("tree", "", question=question)
                verdict.refutations.append(self.proof)
                return
            is_second = "inside" in verdict.examples or "inside" in verdict.proofs
            claim = "outside" if is_second else "inside"
            self.proof = Proof("spent", claim, question=question)
            verdict.proofs[claim] = self.proof


def _natural(record: Record, position: int) -> int:
    number = number_of(record.fields[position - 1])
    if number is None:
        raise BadAnswer(record.line, f"field {position} is no number")
    return number


def _integer(record: Record, position: int) -> int:
    """A number that may be below zero, as points and goal difference may."""
    text = record.fields[position - 1]
    number = number_of(text[1:] if text.startswith("-") else text)
    if number is None:
        raise BadAnswer(record.line, f"field {position} is no number")
    return -number if text.startswith("-") else number
