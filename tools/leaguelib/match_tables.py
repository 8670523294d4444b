"""Tables of matches with a row of heads, as football-data, fixturedownload and spreadsheets have
them. Where no column is one for scores, and others may hold them, the table is refused.
"""

from __future__ import annotations

import csv
import re
from dataclasses import dataclass

from .common import Trouble
from .dates import TIME, is_date, plain_date
from .heads import DIVISIONS, GROUPS, Columns, columns_of, is_head_row, missing_side, plain_head
from .match_list import Match, MatchList, Passed, Wrong, quoted
from .match_lines import match_of_line, note_told, why_no_name
from .score_texts import Told, read_goals, read_score

SIGNS = ",;\t|"
FRONT_LINES = 12
LIKE_SCORE = re.compile(r"^\D*\d{1,2}\s*[^\d\s.,/]+\s*\d{1,2}\D*$")
LIKE_GOALS = re.compile(r"^\d{1,2}(?:[.,]0+)?$")
SCORES_WANTED = ("FTHG and FTAG, HomeGoals and AwayGoals, Tore Heim and Tore Gast, Goles local and "
                 "Goles visitante; or Score, Result, FT, Ergebnis, Resultado or Risultato for both "
                 "in one column")


@dataclass(frozen=True)
class Head:
    """Where the row of heads of a table stands, and the sign between its columns."""

    line: int
    sign: str


def head_of(lines: list[str]) -> Head | None:
    """The row of heads among the first lines; raises `Trouble` if one side alone has a head."""
    front = [number for number, line in enumerate(lines) if line.strip()][:FRONT_LINES]
    for number in front:
        for sign in sorted(SIGNS, key=lines[number].count, reverse=True):
            if sign in lines[number] and is_head_row(cells_of(lines[number], sign)):
                return Head(number, sign)
    for number in front[:1]:
        sign = max(SIGNS, key=lines[number].count)
        why = missing_side(cells_of(lines[number], sign)) if sign in lines[number] else ""
        if why:
            raise Trouble(f"line {number + 1}: {why}")
    return None


def cells_of(line: str, sign: str) -> list[str]:
    """The cells of a line, without spaces at their ends."""
    try:
        rows = list(csv.reader([line], delimiter=sign))
    except csv.Error:
        return [cell.strip() for cell in line.split(sign)]
    return [cell.strip().lstrip("\ufeff") for cell in rows[0]] if rows else []


class TableReader:
    """Takes the rows of a table one by one."""

    def __init__(self, sign: str, file: str, is_month_first: bool) -> None:
        self.sign = sign
        self.is_month_first = is_month_first
        self.found = MatchList(file=file)
        self.wrong = Wrong(file)
        self.columns = Columns()
        self.heads: list[str] = []
        self.divisions: list[int] = []
        self.group = -1
        self.loose: dict[int, tuple[int, str]] = {}
        self.goals: dict[int, tuple[int, str]] = {}
        self.others: set[int] = set()

    def take(self, number: int, line: str) -> None:
        """Takes a line of the file, counted from 1."""
        cells = cells_of(line, self.sign)
        if is_head_row(cells):
            self.columns, self.heads = columns_of(cells), cells
            self.divisions = [place for place, head in enumerate(cells)
                              if plain_head(head) in DIVISIONS]
            self.group = next((place for place, head in enumerate(cells)
                               if plain_head(head) in GROUPS), -1)
            return
        filled = [cell for cell in cells if cell.strip("-:= ")]
        if not filled or line.startswith("#"):
            return
        if len(filled) == 1 and len(self.heads) > 2:
            pass_line(self.found, self.wrong, number, line)
            return
        self._take_row(number, line, cells)

    def _take_row(self, number: int, line: str, cells: list[str]) -> None:
        """Takes a row that should have a match."""
        def cell(place: int) -> str:
            return cells[place] if 0 <= place < len(cells) else ""

        names, told = self._names(cell), self._told(cell)
        reasons = [reason for reason in (_why_no_names(names), told.why) if reason]
        for reason in reasons:
            self.wrong.add(number, reason, line)
        if reasons or names is None:
            return
        self._note_loose(number, cells)
        for place in self.divisions:
            if cell(place):
                self.found.note_division(self.heads[place], cell(place), set(names))
        if cell(self.group):
            group = re.sub(r"^\w+\s+(?=\S+$)", "", cell(self.group))
            self.found.groups.update({name: group for name in names})
        note_told(self.found, told, number, line)
        self.found.add(Match(names[0], names[1], told.score,
                             plain_date(cell(self.columns.date), self.is_month_first), number,
                             line, self.found.file, told.winner))

    def _names(self, cell) -> tuple[str, str] | None:
        """The two names of a row; none if one column has both and cannot be read."""
        if self.columns.pair < 0:
            return cell(self.columns.home), cell(self.columns.away)
        match = match_of_line(cell(self.columns.pair))
        return (match.home, match.away) if isinstance(match, Match) else None

    def _told(self, cell) -> Told:
        """What the row tells of a score."""
        goals = [cell(place) for place in self.columns.goals]
        told = [read_goals(*goals)] if any(goals) else []
        told += [read_score(cell(place)) for place in self.columns.scores if cell(place)]
        if any(LIKE_GOALS.match(cell(place)) for place in self.columns.lone):
            told.append(Told(why="the goals of one side are missing"))
        found = next((one for one in told if one.score is not None or one.winner), None)
        return found or next((one for one in told if one.why or one.word), Told())

    def _note_loose(self, number: int, cells: list[str]) -> None:
        """Notes what may be goals in columns without a known head, if no column is for scores."""
        if self.columns.has_score:
            return
        unknown = [*self.columns.unknown, *range(len(self.heads), len(cells))]
        for place in [*unknown, *self.columns.others]:
            cell = cells[place] if place < len(cells) else ""
            if LIKE_SCORE.match(cell) and not is_date(cell) and TIME.sub("", cell):
                self.loose.setdefault(place, (number, cell))
            elif LIKE_GOALS.match(cell) and place in unknown:
                self.goals.setdefault(place, (number, cell))
            elif cell:
                self.others.add(place)

    def test_scores(self, needs_scores: bool) -> None:
        """Raises `Trouble` if scores may stand under a head that is not known."""
        goals = {place: one for place, one in self.goals.items() if place not in self.others}
        loose = {**self.loose, **(goals if len(goals) > 1 else {})}
        if self.columns.has_score or not (loose or (needs_scores and self.found.matches)):
            return
        heads = ", ".join(head or "(none)" for head in self.heads)
        where = f"{self.found.file}: " if self.found.file else ""
        example = ""
        if loose:
            place, (number, text) = next(iter(loose.items()))
            head = self.heads[place] if place < len(self.heads) else ""
            under = f"under {quoted(head)}" if head else "without a head"
            example = f" What is {quoted(text)} {under} in line {number}?"
        raise Trouble(f"{where}no column is one for scores. The heads are {heads}.{example} Heads "
                      f"for scores are {SCORES_WANTED}. Call the columns so, or take out what is "
                      "no score")


def pass_line(found: MatchList, wrong: Wrong, number: int, line: str) -> None:
    """Passes over a line that is no row of the table, unless a score stands in it."""
    match = match_of_line(line)
    has_score = isinstance(match, Match) and match.score is not None
    if has_score or any(line.count(sign) > 1 for sign in ",;\t"):
        wrong.add(number, "this line is no row of the table around it", line)
    else:
        found.passed.append(Passed("heading", number, line))


def _why_no_names(names: tuple[str, str] | None) -> str:
    """What is wrong with the names of a row; nothing if both are there."""
    if names is None or not any(names):
        return "the names of the two clubs are missing"
    return why_no_name(names[0], "home") or why_no_name(names[1], "away")


def read_table(lines: list[str], head: Head, file: str, is_month_first: bool,
               needs_scores: bool) -> MatchList:
    """The matches of a table; raises `Trouble` with every row that is not understood."""
    reader = TableReader(head.sign, file, is_month_first)
    for number, line in enumerate(lines, 1):
        if number > head.line:
            reader.take(number, line)
        elif line.strip() and not line.startswith("#"):
            pass_line(reader.found, reader.wrong, number, line)
    reader.wrong.refuse()
    reader.test_scores(needs_scores)
    return reader.found
