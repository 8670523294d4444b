"""More lines than one run of the program takes: runs of four at most, and their answers in one.

    runs = line_runs(asked_lines(data, sheet))
    answers = [answer of the program to with_lines_of(data, run) for run in runs]
    whole = joined_answer(answers)
"""

from __future__ import annotations

from dataclasses import replace
from typing import TYPE_CHECKING

from .cups import begins_a_cup
from .line_names import comment_lines
from .records import lines_of, record_of
from .texts import MOST_LINES

if TYPE_CHECKING:
    from .answers import Answer, Report


def line_runs(lines: list[int], most: int = MOST_LINES) -> list[list[int]]:
    """The lines in runs of at most so many; one run without a line if there is none."""
    return [lines[at:at + most] for at in range(0, len(lines), most)] or [[]]


def with_lines_of(data: bytes, lines: list[int]) -> bytes:
    """The input with these lines in place of its own; that of a cup stays as it is.

    Each stands where a `line` record or a comment `# line K` stood, and what is left over becomes a
    comment, so that every other line keeps its number. Only what finds no place there is put in
    front of `season`.
    """
    if begins_a_cup(data):
        return data
    comments = {number for number, _ in comment_lines(data)}
    waiting = list(lines)
    written: list[bytes] = []
    is_sheet = True
    for number, raw in lines_of(data):
        record = record_of(number, raw) if is_sheet else None
        kind = record.kind if record else ""
        if kind == "season":
            is_sheet = False
            written += [b"line,%d" % places for places in waiting]
        elif is_sheet and (kind == "line" or number in comments):
            raw = b"line,%d" % waiting.pop(0) if waiting else b"#"
        written.append(raw)
    return b"".join(raw + b"\n" for raw in written)


def joined_answer(answers: list[Answer]) -> Answer:
    """One answer of the runs over one input: the rows of each line, from the first line on.

    Raises `ValueError` if the answers stand after different events.
    """
    if len({answer.epoch for answer in answers}) != 1:
        raise ValueError("these are answers to different asks")
    verdicts = [verdict for answer in answers for verdict in answer.verdicts]
    scores = [score for answer in answers for score in answer.scores]
    return replace(answers[0], verdicts=sorted(verdicts, key=lambda one: one.places),
                   scores=sorted(scores, key=lambda one: one.places))


def joined_report(reports: list[Report]) -> Report:
    """One report of the runs over one input, ask by ask."""
    if len({len(report.answers) for report in reports}) != 1:
        raise ValueError("these reports have different numbers of answers")
    answers = [joined_answer(list(of_ask))
               for of_ask in zip(*[report.answers for report in reports])]
    return replace(reports[0], answers=answers)
