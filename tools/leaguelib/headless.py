"""Tables of matches without a row of heads: the columns are told by what stands in them.

There have to be two columns of names, and one of scores or two of goals; where more columns could
be it, the table is refused, and nothing is guessed.
"""

from __future__ import annotations

import re
from collections import Counter
from dataclasses import dataclass
from itertools import combinations

from .common import Trouble
from .dates import TIME, WEEKDAY, is_date, plain_date
from .match_lines import HEADING, note_told, why_no_name
from .match_list import Match, MatchList, Wrong
from .score_texts import OPEN_WORDS, Told, is_clock, read_goals, read_score
from .match_tables import SIGNS, cells_of, pass_line

ADVICE = ("Put a row of heads before it, like Date,HomeTeam,AwayTeam,FTHG,FTAG, with a head for "
          "each column")
MOST_NAMES = 8


@dataclass
class Plan:
    """Which column has what, from 0; goals are two columns, or one twice where it has scores."""

    sign: str
    width: int
    home: int
    away: int
    goals: tuple[int, int] | None
    date: int = -1


def kind_of(cell: str) -> str:
    """What a cell holds: `empty`, `date`, `time`, `number`, `score`, `open` or `text`."""
    if not cell:
        return "empty"
    if is_date(cell):
        return "date"
    if is_clock(cell) or not TIME.sub("", cell):
        return "time"
    if re.fullmatch(r"\d{1,3}\.?", cell):
        return "number"
    told = read_score(cell)
    if told.score is not None or told.winner:
        return "score"
    if not told.why:
        return "open"
    is_mark = HEADING.match(cell) or not WEEKDAY.sub("", cell)
    return "mark" if is_mark or re.fullmatch(r"[A-Z]{1,3}\d{1,2}", cell) else "text"


def plan_of(lines: list[str], file: str) -> Plan | None:
    """The plan of the columns; none if the lines are no table, and `Trouble` where they are one
    and their columns are not clear.
    """
    filled = [line for line in lines if line.strip() and not line.startswith("#")]
    for sign in SIGNS:
        rows = [cells_of(line, sign) for line in filled if sign in line]
        if len(rows) < (1 if sign in ";\t" else 2) or len(rows) * 3 < len(filled) * 2:
            continue
        width = Counter(len(row) for row in rows).most_common(1)[0][0]
        rows = [row + [""] * (width - len(row)) for row in rows if len(row) <= width]
        kinds = [Counter(kind_of(row[place]) for row in rows) for place in range(width)]
        names = [place for place, kind in enumerate(kinds)
                 if kind["text"] * 3 > len(rows) * 2]
        if len(names) >= 2:
            return _plan(sign, width, rows, kinds, names, file)
    return None


def _plan(sign: str, width: int, rows: list[list[str]], kinds: list[Counter], names: list[int],
          file: str) -> Plan:
    """The plan for columns of these kinds."""
    where = f"{file}: " if file else ""
    home, away = _name_columns(rows, names, where)
    dates = [place for place, kind in enumerate(kinds) if kind["date"] * 2 > len(rows)
             or (kind["date"] and kind["date"] + kind["empty"] == len(rows))]
    return Plan(sign, width, home, away, _goals(rows, kinds, home, away, where),
                dates[0] if dates else -1)


def _name_columns(rows: list[list[str]], names: list[int], where: str) -> tuple[int, int]:
    """The two columns of names: the only two, or the only two that share most of their names."""
    if len(names) == 2:
        return names[0], names[1]
    values = {place: {row[place] for row in rows if row[place]} for place in names[:MOST_NAMES]}
    pairs = [(first, second) for first, second in combinations(values, 2)
             if len(values[first] & values[second]) * 2
             > min(len(values[first]), len(values[second]))]
    if len(pairs) == 1:
        return pairs[0]
    raise Trouble(f"{where}this table has no heads, and it is not clear which columns have the "
                  f"two clubs. {ADVICE}")


def _goals(rows: list[list[str]], kinds: list[Counter], home: int, away: int,
           where: str) -> tuple[int, int] | None:
    """The columns of goals; none if nothing stands there that may be goals."""
    scores = [place for place, kind in enumerate(kinds) if kind["score"]]
    if len(scores) == 1:
        return scores[0], scores[0]
    numbers = [place for place, kind in enumerate(kinds)
               if kind["number"] and place > home and (kind["number"] + kind["open"]
                                                       + kind["empty"]) * 4 >= len(rows) * 3]
    if not scores and len(numbers) == 2:
        return numbers[0], numbers[1]
    if not scores and not numbers:
        marks = [place for place, kind in enumerate(kinds) if kind["open"] and place > home]
        return (marks[0], marks[0]) if len(marks) == 1 else None
    raise Trouble(f"{where}this table has no heads, and it is not clear which columns have the "
                  f"goals. {ADVICE}")


def read_headless(lines: list[str], plan: Plan, file: str, is_month_first: bool) -> MatchList:
    """The matches of such a table; raises `Trouble` with every row that is not understood."""
    found, wrong = MatchList(file=file), Wrong(file)
    date = ""
    for number, line in enumerate(lines, 1):
        cells = cells_of(line, plan.sign)
        filled = [cell for cell in cells if cell]
        if not filled or line.startswith("#"):
            continue
        if len(filled) == 1:
            if is_date(filled[0]):
                date = plain_date(filled[0], is_month_first)
            pass_line(found, wrong, number, line)
            continue
        cells += [""] * (plan.width - len(cells))
        if plan.date >= 0 and cells[plan.date]:
            date = plain_date(cells[plan.date], is_month_first)
        told = _told(cells, plan)
        why = told.why or _why_no_names(cells, plan)
        if why:
            wrong.add(number, why, line)
            continue
        note_told(found, told, number, line)
        found.add(Match(cells[plan.home], cells[plan.away], told.score, date, number, line, file,
                        told.winner))
    wrong.refuse(ADVICE + "." if wrong.messages else "")
    return found


def _why_no_names(cells: list[str], plan: Plan) -> str:
    """What is wrong with the names of a row; nothing if two names stand there."""
    if len(cells) > plan.width:
        return "this row has more columns than the others"
    for place, side in ((plan.home, "home"), (plan.away, "away")):
        is_name = kind_of(cells[place]) not in ("date", "time")
        why = why_no_name(cells[place] if is_name else "", side)
        if why:
            return why
    return ""


def _told(cells: list[str], plan: Plan) -> Told:
    """What a row tells of a score."""
    if plan.goals is None:
        return Told()
    first, second = plan.goals
    if first != second:
        return read_goals(cells[first], cells[second])
    told = read_score(cells[first])
    words = [cell for place, cell in enumerate(cells) if place not in (plan.home, plan.away)
             and cell.casefold().strip(".()") in OPEN_WORDS]
    is_open = told.score is None and not (told.why or told.winner)
    return Told(word=words[0]) if is_open and words else told
