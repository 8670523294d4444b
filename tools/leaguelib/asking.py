"""Questions to the program: with one worker, so that the same input has the same words, and once
more with a greater budget where a row is unsettled.
"""

from __future__ import annotations

from contextlib import contextmanager
from dataclasses import dataclass, field
from typing import Iterator

from . import common
from .answers import Answer
from .cups import begins_a_cup
from .feeds import Input, read_input
from .given import Given
from .group_tables import run_tables
from .line_names import asked_lines
from .lines import joined_answer, line_runs, with_lines_of
from .modes import DECIDE, known_mode, mode_words
from .records import Refused, record_of, row_text
from .running import Run, ask_lines, front_of, report_of, run_program
from .stopped import Stop, stop_of, whole_report
from .texts import MOST_BUDGET, USUAL_BUDGET, Season, Sheet

# with so many matches open at most, an ask for scores takes two or three seconds with the greatest
# budget; with more it is not asked again
MOST_OPEN_OF_SCORES = 80
# with so many matches open at most, an ask for verdicts takes a fifth of a second with the greatest
# budget; with more it may take a minute, and settles little beyond the usual one
MOST_OPEN_OF_VERDICTS = 12
# ten matches asked about one by one take about eight seconds with so many open at most; with more
# they are asked about again with a budget that takes five
FEW_OPEN = 60
MIDDLE_BUDGET = 10_000
ASK = b"ask\n"


@dataclass
class Asked:
    """An ask and its answer: its place among the asks from 0, and the budget it was asked with."""

    position: int
    line: int
    season: Season
    answer: Answer
    budget: int
    is_asked_again: bool = False

    @property
    def unsettled(self) -> int:
        """How many rows are unsettled still, or have a range in place of a score."""
        words = sum(verdict.word == "unsettled" for verdict in self.answer.verdicts)
        return words + sum(".." in score.possible + score.guaranteed
                           for score in self.answer.scores)


@dataclass
class Outcome:
    """What came of an input: its answers, and why the program stopped, if it did."""

    league: Input | None
    asked: list[Asked] = field(default_factory=list)
    stop: Stop | None = None


def run_mode(path: str, mode: str, data: bytes, *words: str) -> Run:
    """Runs a mode of the program by one thread, of a cup the mode that is its own; trees after
    scores are left out.
    """
    is_cup = begins_a_cup(data)
    if is_cup and mode == "table" and league_of(data) is not None:
        return run_tables(path, data)
    run = run_program(path, mode_words(known_mode(path, mode, is_cup), *words), data)
    if mode != "scores":
        return run
    rows = [row for row in run.output.split(b"\n") if not row.startswith(b"[")]
    return Run(run.status, b"\n".join(rows))


@contextmanager
def futmax_statuses() -> Iterator[None]:
    """Gives a program that is not there, or cannot be run, the status of a build that failed."""
    try:
        yield
    except common.Trouble as trouble:
        if trouble.status != common.NO_PROGRAM:
            raise
        advice = "" if "--program" in trouble.message else (
            " Build futmax, or name another one by --program.")
        raise common.Trouble(f"{trouble.message.rstrip('.')}.{advice}",
                             common.OWN_FAULT) from trouble


def ask_mode(path: str, mode: str, given: Given, wanted: list[int] | None = None,
             budget: int | None = None, asks_again: bool = True) -> Outcome:
    """The answers of a mode to the asks of an input: to all, or to the wanted ones, from 0."""
    league = league_of(given.data)
    if league is None:
        run = run_mode(path, mode, given.data)
        return Outcome(None, _bare(whole_report(run).answers),
                       stop_of(run, given) or _disagreement(given))
    positions = range(len(ask_lines(league))) if wanted is None else wanted
    data = with_asks(given.data, league, list(positions))
    data = data if budget is None else with_budget(data, budget)
    answers, stop = _over_lines(path, mode, data, given, league)
    asked = [Asked(position, ask_lines(league)[position], league.season_at(position), answer,
                   budget or league.sheet.budget)
             for position, answer in zip(positions, answers)]
    if budget is None and asks_again and stop is None:
        asked = [_again(path, mode, given, league, ask) for ask in asked]
    return Outcome(league, asked, stop)


def _over_lines(path: str, mode: str, data: bytes, given: Given,
                league: Input) -> tuple[list[Answer], Stop | None]:
    """The answers of a mode over all lines, also over those that no run has room for at once."""
    lines = asked_lines(data, league.sheet)
    runs = line_runs(lines) if lines != league.sheet.lines and mode != "table" else [None]
    of_runs: list[list[Answer]] = []
    for chosen in runs:
        run = run_mode(path, mode, data if chosen is None else with_lines_of(data, chosen))
        stop = stop_of(run, given)
        if stop is not None:
            return whole_report(run).answers if chosen is None else [], stop
        of_runs.append(report_of(run).answers)
    return of_runs[0] if len(of_runs) == 1 else [
        joined_answer(list(of_ask)) for of_ask in zip(*of_runs)], None


def _bare(answers: list[Answer]) -> list[Asked]:
    """Answers before a line that was refused."""
    return [Asked(position, 0, Season(), answer, 0) for position, answer in enumerate(answers)]


def _disagreement(given: Given) -> Stop:
    """The program takes an input that these tools refuse."""
    try:
        read_input(given.data, True)
    except Refused as refused:
        return Stop(common.OWN_FAULT, refused.code, refused.line,
                    f"{given.origin(refused.line)}: futmax takes this line and these tools refuse "
                    f"it as `{refused.code}`: it may be of another version. Build it again.")
    raise AssertionError("the input was read")


def league_of(data: bytes) -> Input | None:
    """The sheet and feed of an input, or none if the program refuses it as well."""
    try:
        return read_input(data, True)
    except Refused:
        return None


def position_of(league: Input, wanted: int | None) -> int:
    """The ask that is looked at, from 0: the one that is wanted, or the last."""
    count = len(ask_lines(league))
    if wanted is None:
        return count - 1
    if not 1 <= wanted <= count:
        asks = "1 ask" if count == 1 else f"{count} asks"
        raise common.Trouble(f"the feed has {asks}, and --ask {wanted} is none of them.",
                             common.BAD_WORDS)
    return wanted - 1


def with_asks(data: bytes, league: Input, positions: list[int]) -> bytes:
    """The input with these asks alone; the others become empty lines, so that numbers stay."""
    asks = ask_lines(league)
    dropped = {line for position, line in enumerate(asks) if position not in positions}
    if not dropped:
        return data
    lines = data.split(b"\n")
    return b"\n".join(b"" if number in dropped else raw for number, raw in enumerate(lines, 1))


def input_before(data: bytes, league: Input, position: int) -> bytes:
    """The input up to an ask, without any; every line keeps its number."""
    return front_of(with_asks(data, league, [position]), ask_lines(league)[position])


def with_budget(data: bytes, budget: int) -> bytes:
    """The input with this budget in its `league` or `cup` record."""
    lines = data.split(b"\n")
    for number, raw in enumerate(lines):
        record = record_of(number + 1, raw.rstrip(b"\r"))
        if record is None:
            continue
        if record.kind in ("league", "cup") and len(record.fields) in (3, 4, 5):
            fields = [*record.fields[:3], budget, *record.fields[4:]]
            row = row_text(*fields).rstrip("\n")
            lines[number] = row.encode("utf-8", "surrogateescape")
        break
    return b"\n".join(lines)


def greater_budget(sheet: Sheet, season: Season) -> int:
    """The budget to ask about a match again: the greatest one where few matches are open."""
    few = len(season.open_fixtures(sheet)) <= FEW_OPEN
    return max(sheet.budget, MOST_BUDGET if few else MIDDLE_BUDGET)


def _again(path: str, mode: str, given: Given, league: Input, ask: Asked) -> Asked:
    """The ask with a greater budget, where a row is unsettled and it does not take long."""
    budget = again_budget(path, mode, len(ask.season.open_fixtures(league.sheet)))
    if not ask.unsettled or ask.budget >= budget:
        return ask
    data = with_budget(with_asks(given.data, league, [ask.position]), budget)
    answers, _ = _over_lines(path, mode, data, given, league)
    return Asked(ask.position, ask.line, ask.season, answers[0], budget, True)


def again_budget(path: str, mode: str, still: int) -> int:
    """The budget with which a mode is asked again where so many matches are open; 0 if it is not.
    """
    if mode == "scores":
        return MOST_BUDGET if still <= MOST_OPEN_OF_SCORES else 0
    is_long = known_mode(path, mode) == DECIDE and still > MOST_OPEN_OF_VERDICTS
    return USUAL_BUDGET if is_long else MOST_BUDGET


def budget_note(ask: Asked) -> str:
    """What to say where a row was unsettled; nothing if none was."""
    if not ask.is_asked_again and not ask.unsettled:
        return ""
    again = f"asked again with the budget {ask.budget:,}" if ask.is_asked_again else (
        f"the budget was {ask.budget:,}")
    if not ask.unsettled:
        return f"Some rows were unsettled; {again}, all are settled."
    rows = "1 row is" if ask.unsettled == 1 else f"{ask.unsettled} rows are"
    advice = "wait for the next results" if ask.budget >= MOST_BUDGET else (
        f"--budget N takes up to {MOST_BUDGET:,}")
    says = "a range replaces the number" if ask.answer.scores else (
        "nothing is said for or against the club")
    return f"{rows} unsettled ({again}): {says}; {advice}."
