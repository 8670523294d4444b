"""The best and the worst place that each club can still reach, at one ask of the feed.

The program is run on the sheet with other `line` records, four lines a run, until each place is
asked for. A best place is the first line that is not lost, a worst one the first that is clinched.
Files are a sheet and one feed or several; the end of a feed without an `ask` counts as one.
--chart and --decided draw the season up to the ask, a matchday after the other, as SVG.
"""

from __future__ import annotations

import argparse

from . import common
from .asking import position_of
from .charts import chart_titles, in_file, line_panels, place_panels
from .feeds import Input
from .given import Given, add_file_arguments, gather
from .line_names import asked_lines, names_in
from .marks import safe
from .objects import comments_in, line_of, reach_objects
from .phrases import USUAL, Phrases, languages
from .progress import add_progress_argument
from .reach import Reach, reach_of
from .records import row_text
from .season_days import days_of_season
from .stopped import league_in
from .texts import Season, Sheet
from .view import table_at
from .wording import counted, limit_phrase, paragraph, shown

PLACE_COLUMNS = 4


def add_arguments(parser: argparse.ArgumentParser) -> None:
    """The words of this part."""
    add_file_arguments(parser)
    parser.add_argument("--ask", type=int, metavar="N",
                        help="look at the Nth ask of the feed, from 1; otherwise at the last")
    forms = parser.add_mutually_exclusive_group()
    forms.add_argument("--csv", action="store_true",
                       help="rows `reach,BEST,WORST,CLUB` instead of a table for people")
    forms.add_argument("--json", action="store_true",
                       help="one JSON object a line; docs/answer.schema.json says which")
    parser.add_argument("--chart", metavar="FILE",
                        help="also draw the best and worst place of each club by matchday, as SVG")
    parser.add_argument("--decided", metavar="FILE",
                        help="also draw when each line of the sheet was decided, as SVG")
    parser.add_argument("--language", choices=languages(), default=USUAL,
                        help="the language of the pictures; otherwise English")
    add_progress_argument(parser)


def run(arguments: argparse.Namespace) -> int:
    """Prints the places of each club, and gives the exit status."""
    given = gather(arguments.files)
    league = league_in(given)
    position = position_of(league, arguments.ask)
    path = common.program_path(arguments.program)
    found = reach_of(path, given, league, position, arguments.progress)
    if arguments.csv:
        text = "".join(row_text("reach", entry.best, entry.worst, entry.club) for entry in found)
    elif arguments.json:
        text = "".join(map(line_of, reach_objects(
            league.sheet, league.season_at(position), position, found,
            comments_in(given.data, league.sheet))))
    else:
        text = places_text(league.sheet, league.season_at(position), found)
    common.write_text(text)
    if arguments.chart or arguments.decided:
        _draw(arguments, path, given, league, position)
    is_sure = all(entry.is_best_sure and entry.is_worst_sure for entry in found)
    return common.DONE if is_sure else common.DOUBTFUL


def _draw(arguments: argparse.Namespace, path: str, given: Given, league: Input,
          position: int) -> None:
    """Writes the pictures that are wanted."""
    days = days_of_season(path, given, league, position, arguments.progress)
    if not days:
        raise common.Trouble("no match is played before this ask, so there is no matchday to draw.",
                             common.BAD_WORDS)
    say, table = Phrases(arguments.language), table_at(path, given, league, position)
    name = safe(league.sheet.name)
    if arguments.chart:
        panels = place_panels(say, days, table)
        title = f"{name}: {say.text('chart.places')}"
        common.write_text(in_file(title, say.text("chart.places.told"), panels, PLACE_COLUMNS),
                          arguments.chart)
    if arguments.decided:
        lines = asked_lines(given.data, league.sheet)
        titles = chart_titles(say, names_in(given.data), lines, len(table))
        panels = line_panels(say, days, table, titles)
        title = f"{name}: {say.text('chart.lines')}"
        common.write_text(in_file(title, say.text("chart.lines.told"), panels, 2),
                          arguments.decided)


def places_text(sheet: Sheet, season: Season, found: list[Reach]) -> str:
    """A table for people: best and worst place of each club, the best off first."""
    rows = sorted(found, key=lambda entry: (entry.worst, entry.best))
    width = max(len(shown(entry.club)) for entry in rows)
    lines = [paragraph(f"{shown(sheet.name)}: the places that each club can still reach, "
                       f"{limit_phrase(sheet, season)}. Open: "
                       f"{counted(len(season.open_fixtures(sheet)), 'match', 'matches')}."), "",
             f"{'club'.ljust(width)}  best  worst"]
    for entry in rows:
        best = f"{entry.best}" + ("" if entry.is_best_sure else "?")
        worst = f"{entry.worst}" + ("" if entry.is_worst_sure else "?")
        lines.append(f"{shown(entry.club).ljust(width)}  {best:>4}  {worst:>5}")
    if any(not (entry.is_best_sure and entry.is_worst_sure) for entry in found):
        lines += ["", paragraph("? : not settled within the budget; the place may be nearer to the "
                                "other one.")]
    return "\n".join(lines) + "\n"
