"""Writes an answer as one page for the browser: the table with its zones and a letter where
something is decided, what is open and what it takes, what changed.

The page is self-contained: it loads nothing, has no script, and a league prints on one sheet. It
says what changed since the ask before, or, where there is none, since the last day of play. With
--tonight it also says what one result of the next matches decides.
"""

from __future__ import annotations

import argparse
import os
import time
from dataclasses import dataclass, field
from datetime import date
from typing import Tuple

from . import common
from .answers import Place, Score, Verdict
from .asking import (ASK, Asked, ask_mode, budget_note, input_before, position_of, run_mode,
                     with_budget)
from .changes import Change, changes_between, words_of
from .cup_why import CupWhy, own_proofs
from .feeds import Input
from .front import add_budget_argument
from .given import Given, add_file_arguments, gather, test_output
from .line_names import LineNames, asked_lines, names_in
from .lines import line_runs, with_lines_of
from .modes import DECIDE
from .news import later_lines
from .outlook import ISO_DATE, Outlook, next_matches, outlook
from .page import page_text
from .phrases import USUAL, Phrases, languages
from .progress import Progress, add_progress_argument
from .proved import own_report
from .reasons import Points, Reason, short_reason
from .running import report_of
from .season_days import Day, days_of_season
from .stopped import league_in
from .texts import Season, Sheet
from .view import table_at
from .wording import days_of

# with so many matches open at most, the page tells how many points are enough
FEW_OPEN = 20

Mark = Tuple[int, str]


@dataclass
class Board:
    """What a page shows of one ask; `changes` is none if no ask stands before it.

    `reasons` are short ones, `proved` the verdicts whose proofs were accepted, `scores` say of open
    places how many points are enough; of a cup `told` has all reasons. `since` is the day from
    which changes count, where it is known.
    """

    sheet: Sheet
    season: Season
    table: list[Place]
    lines: list[int] = field(default_factory=list)
    names: LineNames = field(default_factory=LineNames)
    verdicts: dict[Mark, Verdict] = field(default_factory=dict)
    changes: list[Change] | None = None
    since: str = ""
    outlook: list[Outlook] | None = None
    reasons: dict[Mark, Reason] = field(default_factory=dict)
    proved: dict[Mark, Verdict] = field(default_factory=dict)
    scores: dict[Mark, Score] = field(default_factory=dict)
    days: dict[int, str] = field(default_factory=dict)
    told: dict[Mark, list[str]] = field(default_factory=dict)
    made: str = ""
    note: str = ""
    budget: int = 0
    phrases: Phrases = field(default_factory=Phrases)
    matchdays: list[Day] = field(default_factory=list)

    def last_text(self) -> str:
        """The day of the last match played, where dates are known; how many are not, if some."""
        days = [self.days.get(number, "") for number in self.season.scores]
        known = [day for day in days if ISO_DATE.match(day)]
        unknown = len(days) - len(known)
        if not known:
            return ""
        if unknown:
            return self.phrases.text("state.unknown", count=unknown)
        return self.phrases.text("state.last", date=self.phrases.date(max(known)))


def add_arguments(parser: argparse.ArgumentParser) -> None:
    """The words of this part."""
    add_file_arguments(parser)
    parser.add_argument("--ask", type=int, metavar="N",
                        help="look at the Nth ask of the feed, from 1; otherwise at the last")
    parser.add_argument("-o", "--output", metavar="FILE", default="-",
                        help="file for the page; otherwise standard output")
    parser.add_argument("--tonight", action="store_true",
                        help="also say what each match of the next day can decide by itself")
    parser.add_argument("--charts", action="store_true",
                        help="also draw the season: the places still possible by matchday, and "
                             "when each line was decided; of twenty clubs half a minute")
    parser.add_argument("--language", choices=languages(), default=USUAL,
                        help="the language of the page; otherwise English")
    add_budget_argument(parser)
    add_progress_argument(parser)


def run(arguments: argparse.Namespace) -> int:
    """Writes the page, and gives the exit status."""
    test_output(arguments.files, arguments.output)
    given = gather(arguments.files, takes_cup=True)
    league = league_in(given)
    position = position_of(league, arguments.ask)
    path = common.program_path(arguments.program)
    with Progress("board", 0, arguments.progress):
        board = board_of(path, given, league, position, arguments.budget,
                         Phrases(arguments.language))
    if arguments.tonight and board.sheet.is_cup:
        common.say("league: --tonight is for leagues, and left out")
    elif arguments.tonight and board.lines:
        _add_outlook(board, path, input_before(given.data, league, position), arguments.progress)
    if arguments.charts and board.sheet.is_cup:
        common.say("league: --charts is for leagues, and left out")
    elif arguments.charts:
        board.matchdays = days_of_season(path, given, league, position, arguments.progress)
    common.write_text(page_text(board), arguments.output)
    return common.DONE


def board_of(path: str, given: Given, league: Input, position: int,
             budget: int | None = None, phrases: Phrases | None = None) -> Board:
    """Asks the program for what the page shows: the ask and the one before it in one run."""
    season = league.season_at(position)
    table = table_at(path, given, league, position)
    board = Board(league.sheet, season, table, asked_lines(given.data, league.sheet),
                  names_in(given.data), days=days_of(given.data, league.sheet), made=_today(),
                  phrases=phrases or Phrases())
    if not board.lines:
        return board
    outcome = ask_mode(path, DECIDE, given, list(range(max(0, position - 1), position + 1)), budget)
    if outcome.stop is not None:
        raise common.Trouble(outcome.stop.message, common.NO_PROGRAM)
    now = outcome.asked[-1]
    board.verdicts = {(it.places, it.club): it for it in now.answer.verdicts}
    _test_names(board)
    board.note, board.budget = budget_note(now), now.budget
    if len(outcome.asked) > 1:
        before = outcome.asked[0]
        board.changes = changes_between(words_of(before.answer.verdicts),
                                        words_of(now.answer.verdicts))
        played = [board.days.get(number, "") for number in before.season.scores]
        board.since = max(played) if played and all(map(ISO_DATE.match, played)) else ""
    else:
        _add_last_day(board, path, given, league, now)
    front = input_before(given.data, league, position) + ASK
    if league.sheet.is_cup:
        _add_told(board, path, given.data, league, now)
        return board
    _add_reasons(board, path, front, league, now)
    _add_scores(board, path, front)
    return board


def _add_last_day(board: Board, path: str, given: Given, league: Input, now: Asked) -> None:
    """Adds what changed on the last day of play, where all days are known."""
    days = [board.days.get(number, "") for number in board.season.scores]
    earlier = sorted(set(days))[:-1]
    if not earlier or not all(map(ISO_DATE.match, days)):
        return
    later = later_lines(league, board.days, date.fromisoformat(max(days)), now.line)
    lines = [b"" if number in later else raw
             for number, raw in enumerate(given.data.split(b"\n"), 1)]
    before = Given(given.whole, b"\n".join(lines), given.paths, given.has_own_ask)
    outcome = ask_mode(path, DECIDE, before, [now.position])
    board.changes = changes_between(words_of(outcome.asked[0].answer.verdicts),
                                    words_of(now.answer.verdicts))
    board.since = earlier[-1]


def _test_names(board: Board) -> None:
    """Ends the command if the program names clubs or lines that the sheet has not."""
    clubs = {club.name for club in board.sheet.clubs}
    wanted = {(places, club) for places in board.lines for club in clubs}
    if {place.club for place in board.table} != clubs or not set(board.verdicts) <= wanted:
        raise common.Trouble("the answer of futmax does not fit this sheet: it may be an older "
                             "program. Build it anew.", common.NO_PROGRAM)


def _add_told(board: Board, path: str, data: bytes, league: Input, now: Asked) -> None:
    """Adds the reasons of a cup's marks."""
    front = with_budget(input_before(data, league, now.position) + ASK, now.budget)
    proved = own_proofs(path, front, league)
    why = CupWhy(path, data, league, now.position, board.table, now.budget, proved)
    for mark, verdict in board.verdicts.items():
        board.told[mark] = why.sentences(verdict)


def _add_reasons(board: Board, path: str, front: bytes, league: Input, now: Asked) -> None:
    """Adds the short reasons, and for what has none the proofs, where they are accepted."""
    points = Points(board.sheet, board.season)
    missing: set[int] = set()
    for mark, verdict in board.verdicts.items():
        if verdict.word not in ("clinched", "lost"):
            continue
        reason = short_reason(points, board.table, verdict.club, verdict.places,
                              verdict.word == "clinched")
        if reason is not None:
            board.reasons[mark] = reason
        else:
            missing.add(verdict.places)
    for lines in line_runs(sorted(missing)) if missing else []:
        told = own_report(path, with_budget(with_lines_of(front, lines), now.budget), league)
        for verdict in told.report.answers[-1].verdicts if told.is_checked else []:
            mark = (verdict.places, verdict.club)
            if verdict.proofs and board.verdicts[mark].word == verdict.word:
                board.proved[mark] = verdict


def _add_scores(board: Board, path: str, front: bytes) -> None:
    """Adds how many points are enough for places that are open, where few matches are."""
    still = {mark for mark, it in board.verdicts.items() if it.word == "possible"}
    if not still or len(board.season.open_fixtures(board.sheet)) > FEW_OPEN:
        return
    for lines in line_runs(sorted({places for places, _ in still})):
        try:
            told = report_of(run_mode(path, "scores", with_lines_of(front, lines)))
        except common.Trouble:
            # a program that does not know this mode: the page is whole without it
            return
        for score in told.answers[-1].scores if told.answers else []:
            if (score.places, score.club) in still:
                board.scores[score.places, score.club] = score


def _add_outlook(board: Board, path: str, front: bytes, is_wanted: bool) -> None:
    """Adds what the next matches can decide, where it is known which they are."""
    fixtures = next_matches(board.sheet, board.season, board.days)
    if not fixtures:
        common.say("league: --tonight: no match is open, or so many that the next ones need dates "
                   "in the sheet, twelve a day at most; they are left out")
        return
    runs = [with_lines_of(front, run) for run in line_runs(board.lines)]
    board.outlook = outlook(path, board.sheet, board.season, runs, fixtures, is_wanted)


def _today() -> str:
    """The day on which the page is made; SOURCE_DATE_EPOCH may set another one."""
    seconds = os.environ.get("SOURCE_DATE_EPOCH", "")
    day = time.gmtime(int(seconds)) if seconds.isdigit() else time.localtime()
    return time.strftime("%Y-%m-%d", day)
