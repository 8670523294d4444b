"""What each open match of an evening would decide: who is in or out if the home side wins, if it is
a draw and if the away side wins, whatever the other matches bring.

Files are a sheet and one feed or several; the end of a feed without an `ask` counts as one. The
evening is the next day with an open match, as the comments of the sheet tell days, or all open
matches where no day is known and they are twelve at most; --round and --matches name others.
"""

from __future__ import annotations

import argparse

from . import common
from .answers import OUTCOMES
from .asking import (ASK, Outcome, ask_mode, futmax_statuses, input_before, league_of,
                     position_of)
from .changes import words_of
from .front import add_budget_argument, add_front_arguments, place_of_ask, season_sheet
from .given import Given, gather
from .line_names import asked_lines, names_in
from .lines import line_runs, with_lines_of
from .modes import DECIDE
from .news import days_like, read_day
from .objects import given_objects, line_of
from .outlook import MOST_MATCHES, given_words, next_matches
from .progress import Progress
from .records import number_of, row_text
from .stopped import league_in
from .texts import Fixture, Season, Sheet
from .tonight_words import Evening, evening_text
from .view import table_at
from .wording import days_of


def add_arguments(parser: argparse.ArgumentParser) -> None:
    """The words of this part."""
    add_front_arguments(parser)
    add_budget_argument(parser)
    chosen = parser.add_mutually_exclusive_group()
    chosen.add_argument("--round", metavar="DAY",
                        help="the open matches of this day, like 2024-05-19, or of a matchday")
    chosen.add_argument("--matches", metavar="N,N,..", type=_numbers,
                        help="these matches, by their numbers in the sheet, from 1")


def _numbers(text: str) -> list[int]:
    """Numbers of matches, with commas between them."""
    numbers = [number_of(part.strip()) for part in text.split(",")]
    if None in numbers:
        raise argparse.ArgumentTypeError(f"`{text}` are no numbers of matches, like 5,6")
    return list(dict.fromkeys(numbers))


def run(arguments: argparse.Namespace) -> int:
    """Writes what the evening can decide, and gives the exit status."""
    given = gather(arguments.files)
    with futmax_statuses():
        path = common.program_path(arguments.program)
        league, wanted, fixtures = league_of(given.data), None, []
        if league is not None:
            wanted = [position_of(league, arguments.ask)]
            fixtures = evening_of(given, league.sheet, league.season_at(wanted[0]),
                                  arguments.round, arguments.matches)
        outcome = ask_mode(path, DECIDE, given, wanted, arguments.budget)
        if outcome.stop is not None:
            raise common.Trouble(outcome.stop.message, outcome.stop.status)
        place = place_of_ask(given, outcome.asked[0].line)
        evening = asked_evening(path, given, outcome, fixtures, place, arguments)
    if arguments.rows:
        common.write_text(_rows(evening))
    elif arguments.json:
        common.write_text("".join(line_of(value) for value in given_objects(evening)))
    else:
        common.write_text(evening_text(evening))
    return common.DONE


def whens_text(given: Given, path: str, arguments: argparse.Namespace) -> str:
    """What the matches of the last `when` lines of a feed decide; nothing if there are none."""
    if not any(raw.startswith(b"when") for raw in given.data.split(b"\n")):
        return ""
    entries = league_in(given, takes_whens=True).entries
    whens = [entry for entry in entries if entry.kind == "when"]
    if not whens:
        return ""
    last_event = max((it.line for it in entries if it.is_event and it.line < whens[-1].line),
                     default=0)
    whens = [entry for entry in whens if entry.line > last_event]
    lines = given.data.split(b"\n")
    for entry in entries:
        if entry.kind in ("ask", "when"):
            lines[entry.line - 1] = ASK.rstrip() if entry == whens[0] else b""
    asked = Given(given.whole, b"\n".join(lines), given.paths, True)
    outcome = ask_mode(path, DECIDE, asked, [0], arguments.budget)
    if outcome.stop is not None:
        raise common.Trouble(outcome.stop.message, common.NO_PROGRAM)
    fixtures = [outcome.league.sheet.fixture(number)
                for number in dict.fromkeys(entry.fixture for entry in whens)]
    place = f"at the `when` in {given.origin(whens[0].line)}"
    return evening_text(asked_evening(path, asked, outcome, fixtures, place, arguments))


def evening_of(given: Given, sheet: Sheet, season: Season, day: str | None,
               numbers: list[int] | None) -> list[Fixture]:
    """The matches that are told of: open ones of a day, by their numbers, or those to come next."""
    still = season.open_fixtures(sheet)
    if numbers is not None:
        known = {fixture.number: fixture for fixture in still}
        for number in numbers:
            if number not in known:
                why = "has a result already" if number in season.scores else "is not in the sheet"
                raise common.Trouble(f"--matches: match {number} {why}.", common.BAD_WORDS)
        return [known[number] for number in numbers]
    days = days_of(given.data, sheet)
    if day is not None:
        wanted = read_day(day, "--round")
        of_day = days_like(days, wanted)
        found = [it for it in still if of_day.get(it.number) == wanted]
        if not found:
            raise common.Trouble(f"--round: no match of {day} is open.", common.BAD_WORDS)
        return found
    found = next_matches(sheet, season, days)
    if still and not found:
        raise common.Trouble(f"{len(still)} matches are open, and which of them come next is not "
                             f"known or they are more than {MOST_MATCHES}: name them by --round or "
                             "--matches.", common.BAD_WORDS)
    return found


def asked_evening(path: str, given: Given, outcome: Outcome, fixtures: list[Fixture], place: str,
                  arguments: argparse.Namespace) -> Evening:
    """What futmax answers about these matches at the one ask of an outcome."""
    ask, sheet = season_sheet(outcome)
    front = input_before(given.data, outcome.league, ask.position)
    runs = [with_lines_of(front, run) for run in line_runs(asked_lines(given.data, sheet))]
    now = words_of(ask.answer.verdicts)
    words, budget = given_words(path, sheet, ask.season, runs, fixtures, now, arguments.budget,
                                arguments.progress)
    with Progress("the table", 0, arguments.progress):
        table = table_at(path, given, outcome.league, ask.position)
    return Evening(sheet, ask, place, fixtures, now, words, budget,
                   [row.club for row in table], names_in(given.data), days_of(given.data, sheet))


def _rows(evening: Evening) -> str:
    """The rows of the mode `whatif`, without finishes."""
    rows = []
    for fixture in evening.fixtures:
        for outcome in OUTCOMES:
            rows.append(row_text("when", evening.ask.answer.epoch, fixture.number, outcome))
            words = sorted(evening.given[fixture.number, outcome].items(),
                           key=lambda item: item[0][0])
            rows += [row_text("verdict", places, club, word) for (places, club), word in words]
    return "".join(rows)
