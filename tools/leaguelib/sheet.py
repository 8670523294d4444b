"""Makes a sheet from a list of fixtures by names, or several that belong together, or with
--runners-up that of a cup, whose groups are clubs that play each other. A list is a table with the
columns HomeTeam and AwayTeam, or their like in German, Spanish, French, Italian or Portuguese; one
without heads if its columns are clear; a cross table; a text of openfootball; or lines `Home -
Away`. A list that is not complete, or that has played matches alone, is refused, unless --rounds
says how often each pair meets (the missing matches are then added), or --as-is says that it is
meant so.
"""

from __future__ import annotations

import argparse
import sys

from . import common
from .aliases import add_alias_argument, read_aliases
from .cup_sheet import add_cup_arguments, cup_groups, cup_notes, cup_text, group_gaps
from .doubts import name_doubts
from .feeds import InputReader
from .line_names import LineNames, add_name_arguments, comments_of, told_names
from .list_settings import ListSettings, add_list_arguments, comments_for
from .match_list import Match, MatchList
from .names import nearest_name, shown
from .pairs import Gaps, gaps_in, lone_names, look_at_cross, usual_rounds
from .records import Refused, number_of, records_of, row_text
from .several import read_lists
from .sheet_files import add_overwrite_arguments, put_sheet
from .sheet_update import run_update
from .texts import MOST_LINES, ORDERS, USUAL_BUDGET
from .wording import counted
from .words import words_for

ORDER_HELP = """\
Which criteria decide first between clubs level on points? Say --order head_first or overall_first.
  head_first     points, goal difference and goals in the matches between the clubs that are level:
                 European Championship groups, Champions League groups 2021-24; not Spain (La Liga)
                 and Italy (Serie A) if three or more clubs can be level: they go from goal
                 difference in these matches to overall goal difference
  overall_first  goal difference and goals over all matches, before the matches between them:
                 Premier League, Bundesliga, Eredivisie, World Cup groups up to 2022
Rules change, and a play-off or fair play may come in: look into the rules of your competition."""
LINES_HELP = """\
Which places count? Give --lines, like `--lines 1,4,17` for the title, the first four, and all but
the last three of twenty; or `--lines none` if only the table is wanted."""


def add_arguments(parser: argparse.ArgumentParser) -> None:
    """The words of `league sheet`."""
    parser.add_argument("lists", nargs="*", metavar="LIST",
                        help="the list of fixtures, or several in any order; - is standard input")
    parser.add_argument("--name", help="the league's name; otherwise the title of the list")
    parser.add_argument("--lines", help="the places that count, like 1,4,17; or none")
    add_name_arguments(parser)
    parser.add_argument("--order", choices=ORDERS, help="which criteria come first")
    parser.add_argument("--goal-limit", type=int, default=9, metavar="L",
                        help="most goals a side in an open match, 1 to 20 (9)")
    parser.add_argument("--budget", type=int, metavar="B", help="the search budget, 1 to 50000")
    parser.add_argument("--ranks", metavar="FILE",
                        help="lines NAME,RANK: the clubs in their order, with their ranks")
    add_cup_arguments(parser)
    add_alias_argument(parser)
    add_list_arguments(parser)
    parser.add_argument("--rounds", type=int, metavar="N", help="how often each pair meets")
    parser.add_argument("--as-is", action="store_true", help="the list is meant as it is")
    parser.add_argument("--no-comments", action="store_true", help="write records alone")
    parser.add_argument("-o", "--output", default="-", metavar="FILE",
                        help="file for it; otherwise standard output. A sheet that a feed stands "
                             "on is overwritten only if each match keeps its number")
    parser.add_argument("--update", metavar="OLD",
                        help="only give the matches of the sheet OLD the dates that the lists "
                             "have now, and add new matches after them; OLD is overwritten "
                             "unless -o names another file")
    add_overwrite_arguments(parser)


def run(arguments: argparse.Namespace) -> int:
    """Makes the sheet, or says what is missing."""
    if arguments.update is not None:
        return run_update(arguments)
    if arguments.runners_up is not None or arguments.groups:
        return _run_cup(arguments)
    if not arguments.lists:
        raise common.Trouble("name a LIST of fixtures, or `-` for standard input",
                             common.BAD_WORDS)
    found = read_lists(arguments.lists, read_aliases(arguments.aliases), arguments.days or "")
    if not found.matches:
        raise common.Trouble("the list has no matches")
    if not arguments.as_is:
        found.test_divisions()
    _test_rounds(arguments)
    name = arguments.name or found.title
    if not name:
        raise common.Trouble("what is the league called? Say --name \"NAME\"", common.BAD_WORDS)
    if found.is_cross:
        look_at_cross(found, arguments.rounds)
    ranks = _ranks(arguments.ranks, [name for match in found.matches
                                     for name in (match.home, match.away)])
    gaps = complete(found.matches, list(ranks), arguments.rounds, arguments.as_is)
    order = arguments.order or _asked_order()
    lines = _lines(arguments.lines)
    names = _names_of_lines(arguments, lines, len(ranks))
    records = _records(name, order, arguments, ranks, lines, names)
    text = _text(found, gaps, ranks, records, order, arguments)
    notes = found.notes + _open_words(found) + list(_test(text)) + gaps.notes()
    notes += lone_names(found.matches) if gaps.missing else []
    return _written(text, notes, arguments)


def _run_cup(arguments: argparse.Namespace) -> int:
    """Makes the sheet of a cup, or says what is missing."""
    if arguments.runners_up is None:
        raise common.Trouble("how many of the runners-up qualify? Say --runners-up Q",
                             common.BAD_WORDS)
    _test_rounds(arguments)
    found, groups = cup_groups(arguments)
    arguments.days = arguments.days or found.days
    name = arguments.name or found.title
    if not name:
        raise common.Trouble("what is the cup called? Say --name \"NAME\"", common.BAD_WORDS)
    gaps = [] if not found.matches else group_gaps(
        groups, lambda matches, clubs, rounds: complete(matches, clubs, arguments.rounds,
                                                        arguments.as_is, rounds))
    ranks = {} if arguments.ranks is None else _ranks(
        arguments.ranks, [club for group in groups for club in group.clubs])
    text = cup_text(name, groups, gaps, ranks, arguments)
    notes = found.notes + _open_words(found) + list(_test(text)) + cup_notes(found, gaps)
    return _written(text, notes, arguments)


def _written(text: str, notes: list[str], arguments: argparse.Namespace) -> int:
    """Writes the sheet, says what to look at, and gives the status."""
    is_written = put_sheet(text, arguments)
    for note in notes:
        common.say(f"league: {note}")
    return common.DONE if is_written else common.TO_MEND


def _test_rounds(arguments: argparse.Namespace) -> None:
    """Raises `Trouble` at a number of rounds that no sheet has room for."""
    if arguments.rounds is not None and not 1 <= arguments.rounds <= 20:
        raise common.Trouble("--rounds is a number from 1 to 20", common.BAD_WORDS)


def _names_of_lines(arguments: argparse.Namespace, lines: list[int], clubs: int) -> LineNames:
    """The names of the lines; raises `Trouble` if a line or a name does not fit."""
    for places in lines[MOST_LINES:]:
        if not 0 < places < clubs:
            raise common.Trouble(f"the line {places} would be refused: with {clubs} clubs a line "
                                 f"is a number from 1 to {clubs - 1}")
    names = told_names(arguments.line_name, lines, arguments.relegated)
    if arguments.no_comments and (names.inside or names.below or len(lines) > MOST_LINES):
        raise common.Trouble("names of lines, and lines beyond four, are comments: leave "
                             "--no-comments out", common.BAD_WORDS)
    return names


def complete(matches: list[Match], names: list[str], rounds: int | None, is_as_is: bool,
             usual: int = 0) -> Gaps:
    """The matches to add to the list; raises `Trouble` if the list is not complete."""
    expected = rounds or usual or usual_rounds(matches)
    gaps = gaps_in(matches, names, expected)
    if is_as_is:
        return Gaps(expected)
    if gaps.extra:
        raise common.Trouble(gaps.extra_text())
    are_played = all(match.score is not None for match in matches)
    if rounds is None and (gaps.missing or are_played):
        sentences = [gaps.missing_text(are_played) + "."] + lone_names(matches)
        raise common.Trouble(" ".join(sentences))
    return gaps


def _asked_order() -> str:
    """The order of the criteria, asked for where a person can answer."""
    if not (sys.stdin.isatty() and sys.stderr.isatty()):
        raise common.Trouble(ORDER_HELP, common.BAD_WORDS)
    common.say(ORDER_HELP + "\nType one of the two words, and Enter:")
    answer = sys.stdin.readline().strip()
    if answer not in ORDERS:
        raise common.Trouble("the order is head_first or overall_first", common.BAD_WORDS)
    return answer


def _lines(text: str | None) -> list[int]:
    """The lines of the sheet as told."""
    if text is None:
        raise common.Trouble(LINES_HELP, common.BAD_WORDS)
    if text == "none":
        return []
    numbers = [number_of(part.strip()) for part in text.split(",")]
    if None in numbers:
        raise common.Trouble(LINES_HELP, common.BAD_WORDS)
    if len(set(numbers)) != len(numbers):
        raise common.Trouble(f"--lines {text}: a line is there twice")
    return [number for number in numbers if number is not None]


def _ranks(path: str | None, clubs: list[str]) -> dict[str, int]:
    """The clubs in their order with their ranks: 1 for all, in this order, unless told."""
    names = dict.fromkeys(clubs)
    if path is None:
        return {name: 1 for name in names}
    ranks: dict[str, int] = {}
    try:
        for record in records_of(common.test_list(common.read_bytes(path), path)):
            fields = record.fields[1:] if record.kind == "club" else record.fields
            rank = number_of(fields[1].strip()) if len(fields) == 2 else None
            if rank is None or not 1 <= rank <= 999:
                raise common.Trouble(f"{path}, line {record.line}: a line is NAME,RANK, with a "
                                     f"rank "
                                     "from 1 to 999")
            ranks[fields[0]] = rank
    except Refused as refused:
        raise common.Trouble(f"{path}, line {refused.line}: this line is too long") from refused
    for name in names:
        if name not in ranks:
            near = nearest_name(name, ranks)
            hint = f"; the nearest name there is {shown(near)}" if near else ""
            raise common.Trouble(f"{path} has no rank for {shown(name)}{hint}")
    return ranks


def _records(name: str, order: str, arguments: argparse.Namespace, ranks: dict[str, int],
             lines: list[int], names: LineNames) -> tuple[list[str], list[str]]:
    """The records before the matches, and those after them."""
    league: list[object] = ["league", name, arguments.goal_limit]
    if arguments.budget is not None or order != ORDERS[0]:
        budget = USUAL_BUDGET if arguments.budget is None else arguments.budget
        league.append(budget)
    if order != ORDERS[0]:
        league.append(order)
    front = [row_text(*league)]
    front.extend(row_text("club", club, rank) for club, rank in ranks.items())
    back = []
    for number, places in enumerate(lines):
        named = comments_of(names, places)
        if number < MOST_LINES:
            back.append(row_text("line", places))
        elif places not in names.inside:
            named.insert(0, f"# line {places}\n")
        back += named
    return front, back + [row_text("season")]


def _open_words(found: MatchList) -> list[str]:
    """What to say of matches that a word marks as open, like `postp.`."""
    marked = [one for one in found.passed if one.why.startswith("match without a score (")]
    words = dict.fromkeys(one.why[len("match without a score "):] for one in marked)
    counts = {word: sum(one.why.endswith(word) for one in marked) for word in words}
    return [f"taken as open: {counted(number, 'match', 'matches')} marked {word}"
            for word, number in counts.items()]


def _text(found: MatchList, gaps: Gaps, ranks: dict[str, int],
          records: tuple[list[str], list[str]], order: str, arguments: argparse.Namespace) -> str:
    """The sheet as text."""
    front, back = records
    parts = [] if arguments.no_comments else _comments(found, gaps, ranks, order, arguments)
    parts.extend(front)
    date = ""
    for match in found.matches:
        if match.date != date and not arguments.no_comments:
            parts.append(f"# {match.date or 'no date'}\n")
        date = match.date
        parts.append(row_text("match", match.home, match.away))
    if gaps.missing and not arguments.no_comments:
        parts.append(f"# added, to make {gaps.rounds} rounds of all pairs: no date\n")
    parts.extend(row_text("match", home, away) for home, away in gaps.missing)
    return "".join(parts + back)


def _comments(found: MatchList, gaps: Gaps, ranks: dict[str, int], order: str,
              arguments: argparse.Namespace) -> list[str]:
    """What was chosen, as comments at the head of the sheet."""
    number = len(found.matches) + len(gaps.missing)
    limit = arguments.goal_limit
    comments = [f"# Made by `league sheet`: {len(ranks)} clubs, "
                f"{counted(number, 'match', 'matches')}.",
                f"# Goal limit {limit}: it is taken that no side scores more than {limit} goals in "
                "an open match."]
    if arguments.ranks is None:
        comments.append("# Rank 1 for all: clubs that are level on every other criterion are "
                        "decided by lots.")
    else:
        comments.append("# The ranks are those that were given; they decide before lots.")
    if order == ORDERS[0]:
        comments.append("# Level on points: head-to-head record first (head_first).")
    else:
        comments.append("# Level on points: goal difference and goals first (overall_first).")
    settings = ListSettings(arguments.days or found.days, arguments.walkover)
    return [comment + "\n" for comment in comments] + comments_for(settings)


def _test(text: str) -> list[str]:
    """Tests the sheet as the program does; gives what looks wrong in it."""
    reader = InputReader()
    try:
        for record in records_of(text.encode("utf-8", "surrogateescape")):
            fields = record.fields
            reader.take(record)
    except Refused as refused:
        words = words_for(refused, fields, reader.sheet)
        line = ",".join(fields)
        raise common.Trouble(f"this sheet would be refused at {shown(line)}: {words}") from refused
    return [doubt.message for doubt in name_doubts(reader.sheet)] if reader.sheet else []

