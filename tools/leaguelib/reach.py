"""The best and the worst place that each club can still reach, asked of futmax line by line."""

from __future__ import annotations

from concurrent.futures import ThreadPoolExecutor
from dataclasses import dataclass

from . import common
from .answers import Answer
from .asking import again_budget, run_mode, with_asks, with_budget
from .feeds import Input
from .given import Given
from .lines import line_runs, with_lines_of
from .modes import DECIDE
from .progress import Progress
from .running import report_of
from .texts import Sheet

RUNS_AT_ONCE = 4


@dataclass(frozen=True)
class Reach:
    """The places of a club; where a budget was spent, the ends are not sure."""

    club: str
    best: int
    worst: int
    is_best_sure: bool = True
    is_worst_sure: bool = True


def reach_of(path: str, given: Given, league: Input, position: int,
             shows_progress: bool = False) -> list[Reach]:
    """The best and worst place of each club, in the order of the sheet."""
    data = with_asks(given.data, league, [position])
    budget = again_budget(path, DECIDE, len(league.season_at(position).open_fixtures(league.sheet)))
    runs = line_runs(list(range(1, len(league.sheet.clubs))))
    with Progress("places", len(runs), shows_progress) as progress:

        def answer_to(lines: list[int]) -> Answer:
            asked = with_lines_of(data, lines)
            answer = report_of(run_mode(path, DECIDE, asked)).answers[-1]
            is_unsettled = any(it.word == "unsettled" for it in answer.verdicts)
            if is_unsettled and budget > league.sheet.budget:
                again = run_mode(path, DECIDE, with_budget(asked, budget))
                answer = report_of(again).answers[-1]
            progress.step()
            return answer

        with ThreadPoolExecutor(RUNS_AT_ONCE) as pool:
            answers = list(pool.map(answer_to, runs))
    return [_reach(league.sheet, club.name, answers) for club in league.sheet.clubs]


def _reach(sheet: Sheet, club: str, answers: list[Answer]) -> Reach:
    """The places of a club by its words on every line."""
    words = {verdict.places: verdict.word for answer in answers for verdict in answer.verdicts
             if verdict.club == club}
    size = len(sheet.clubs)
    if set(words) != set(range(1, size)):
        raise common.Trouble("futmax answered other rows than were asked for: it may be of "
                             "another version. Build it again.", common.NO_PROGRAM)
    best = next((place for place in range(1, size) if words[place] != "lost"), size)
    worst = next((place for place in range(1, size) if words[place] == "clinched"), size)
    unsettled = [place for place in range(1, size) if words[place] == "unsettled"]
    is_best_sure = best == size or words[best] != "unsettled"
    is_worst_sure = worst == 1 or words[worst - 1] != "unsettled"
    return Reach(club, best, worst, is_best_sure or not unsettled, is_worst_sure)
