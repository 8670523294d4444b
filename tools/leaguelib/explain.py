"""Says an answer on one screen: who is in, out and open, and what changed since the ask before.

--why gives the reasons: the shortest first, by points alone, by clubs that cannot pass, by matches
between rivals, by clubs that can be level at the most; then the steps of the program's proof. The
answer is the program's, or a report made elsewhere (--answer, or after the record `proofs` of the
input). A proof is put into words only if the program's mode `check` has accepted its report. A feed
with `when` lines is told as `league tonight` tells an evening.
"""

from __future__ import annotations

import argparse

from . import common
from .aliases import add_alias_argument, all_aliases, chosen_club
from .answers import BadAnswer, Report, read_report
from .asking import Asked, Outcome, ask_mode, position_of
from .feeds import Input
from .front import add_budget_argument
from .given import Given, add_file_arguments, ended, gather
from .modes import DECIDE
from .progress import Progress, add_progress_argument
from .proved import Told, own_report, refusal_of_report
from .report_faults import kind_of
from .running import ask_lines
from .screen import limit_text
from .stopped import league_in
from .texts import Season, Sheet
from .tonight import whens_text
from .view import View, first_screen, viewed
from .why import USUAL_STEPS, Why, why_text
from .wording import listed, paragraph

__all__ = ["add_arguments", "run", "own_report"]
NO_CHECK = ("This report was not checked, since the program here has no mode `check`: what "
            "follows is what it says. Its proofs are left out.")


def add_arguments(parser: argparse.ArgumentParser) -> None:
    """The words of this part."""
    add_file_arguments(parser)
    parser.add_argument("--ask", type=int, metavar="N",
                        help="look at the Nth ask of the feed, from 1; otherwise at the last")
    parser.add_argument("--since", metavar="DATE",
                        help="what changed since this day, like 2024-05-19, or since a matchday; "
                             "otherwise since the ask before")
    parser.add_argument("--why", "--club", metavar="CLUB", action="append", default=[],
                        help="why a club is in, out or open; a part of its name does; may be "
                             "given several times")
    parser.add_argument("--all", action="store_true", help="why, for all clubs")
    parser.add_argument("--line", type=int, metavar="K", help="the first K places alone")
    parser.add_argument("--answer", metavar="FILE",
                        help="explain this report instead of running the program")
    parser.add_argument("--proof", action="store_true",
                        help="give the steps of the proof even if a shorter reason holds")
    parser.add_argument("--steps", type=int, metavar="N", default=USUAL_STEPS,
                        help=f"give proofs of at most N lines ({USUAL_STEPS})")
    add_alias_argument(parser)
    add_budget_argument(parser)
    add_progress_argument(parser)


def run(arguments: argparse.Namespace) -> int:
    """Explains one ask, and gives the exit status."""
    given = gather(arguments.files, takes_cup=True)
    path = common.program_path(arguments.program)
    told = whens_text(given, path, arguments)
    if told:
        if arguments.why or arguments.all or arguments.answer:
            raise common.Trouble("a feed with `when` lines is told match by match, and without "
                                 "--why, --all and --answer: an answer of the mode `whatif` has no "
                                 "proofs.", common.BAD_WORDS)
        common.write_text(told)
        return common.DONE
    with Progress("explain", 0, arguments.progress) as progress:
        if arguments.answer or given.report_line:
            view, proved, note = _given_report(arguments, given, path)
        else:
            view, proved, note = *_own_answer(arguments, given, path), ""
        text = _text(arguments, view, path, proved, progress)
    common.write_text((paragraph(note) + "\n\n" if note else "") + text)
    return common.DOUBTFUL if note == NO_CHECK else common.DONE


def _text(arguments: argparse.Namespace, view: View, path: str, proved: Told | None,
          progress: Progress) -> str:
    """The first screen, or the reasons that were asked for."""
    sheet = view.sheet
    lines = list(view.marks)
    if not lines:
        raise common.Trouble("the sheet has no `line`, so there is no place to explain. Add one, "
                             "like `line,1` for the first place.")
    if arguments.line is not None and arguments.line not in lines:
        raise common.Trouble(f"no line {arguments.line} was asked for; the lines of the sheet are "
                             f"{listed([str(line) for line in lines])}.", common.BAD_WORDS)
    aliases = all_aliases(view.given.data, arguments.aliases)
    clubs = [chosen_club(name, sheet, aliases) for name in arguments.why]
    if arguments.all:
        clubs = [place.club for place in view.table]
    if not clubs:
        if arguments.line is not None:
            view.ask.answer.verdicts = [it for it in view.ask.answer.verdicts
                                        if it.places == arguments.line]
        return first_screen(view) + "\n" + paragraph(
            "Why: `league explain --why CLUB` and the same files.") + "\n"
    wanted = lines if arguments.line is None else [arguments.line]
    why = Why(view, path, proved, arguments.steps, arguments.proof)
    texts = [limit_text(sheet, view.season) + "\n"]
    progress.total = len(clubs)
    for club in clubs:
        texts.append(why_text(why, club, wanted))
        progress.step()
    return "\n".join(texts)


def _own_answer(arguments: argparse.Namespace, given: Given,
                path: str) -> tuple[View, Told | None]:
    """The program's own answer; its proofs are asked for once a reason wants them."""
    league = league_in(given)
    position = position_of(league, arguments.ask)
    asks = list(range(max(0, position - 1), position + 1))
    outcome = ask_mode(path, DECIDE, given, asks, arguments.budget)
    if outcome.stop is not None:
        raise common.Trouble(outcome.stop.message, common.NO_PROGRAM)
    _test_names(league.sheet, outcome.asked[-1].season, outcome.asked[-1])
    return viewed(given, outcome, path, arguments.since), None


def _given_report(arguments: argparse.Namespace, given: Given,
                  path: str) -> tuple[View, Told, str]:
    """A report from elsewhere: told only as far as the program's `check` accepts it."""
    league = league_in(given)
    front, report_bytes = given.data, b""
    if given.report_line:
        lines = given.data.split(b"\n")
        front = b"".join(line + b"\n" for line in lines[:given.report_line - 2])
        report_bytes = b"\n".join(lines[given.report_line - 1:])
    if arguments.answer:
        report_bytes = common.read_bytes(arguments.answer)
    if report_bytes.startswith(b"when,"):
        raise common.Trouble("this is an answer of the mode `whatif`, which has no proofs that "
                             "could be checked: give the feed with its `when` lines alone.")
    if kind_of(report_bytes) == "saved text":
        raise common.Trouble("this is a saved text, and no report: `league resume` goes on from "
                             "it, and says who is in, out and open.")
    found = refusal_of_report(path, ended(front), report_bytes)
    report = _read(report_bytes)
    if found not in ("accepted", "unknown"):
        raise common.Trouble(f"the checker refuses this report: {found}. Nothing of it is shown.")
    outcome = _outcome_of(league, report, position_of(league, arguments.ask))
    shown = Given(given.whole, ended(front), given.paths, given.has_own_ask)
    view = viewed(shown, outcome, path, arguments.since)
    note = "The checker accepted this report." if found == "accepted" else NO_CHECK
    return view, Told(league, report, found == "accepted"), note


def _read(data: bytes) -> Report:
    """A report, or the end of the command where it cannot be read."""
    try:
        return read_report(data)
    except BadAnswer as fault:
        raise common.Trouble(f"the report cannot be read: {fault}") from fault


def _outcome_of(league: Input, report: Report, position: int) -> Outcome:
    """A report as an outcome: the ask that is looked at, after the one before it."""
    lines = ask_lines(league)
    if len(report.answers) != len(lines):
        raise common.Trouble(f"the report has {len(report.answers)} answers and the feed "
                             f"{len(lines)} asks: they do not belong together.")
    asked = [Asked(at, lines[at], league.season_at(at), report.answers[at], league.sheet.budget)
             for at in range(max(0, position - 1), position + 1)]
    for ask in asked:
        _test_names(league.sheet, ask.season, ask)
    return Outcome(league, asked)


def _test_names(sheet: Sheet, season: Season, ask: Asked) -> None:
    """Ends the command if a report names clubs or matches that the sheet has not."""
    numbers = {fixture.number for fixture in season.open_fixtures(sheet)}
    for verdict in ask.answer.verdicts:
        fits = sheet.club_named(verdict.club) and 0 < verdict.places < len(sheet.clubs)
        fits = fits and all(0 < it.question.club <= len(sheet.clubs)
                            for it in verdict.proofs.values() if it.question is not None)
        for example in verdict.examples.values():
            known = sorted(example.lots) == [club.number for club in sheet.clubs]
            fits = fits and known and set(example.scores) == numbers
        if not fits:
            raise common.Trouble(f"line {verdict.line} of the report and what follows it do not "
                                 "fit this sheet and feed.")
