"""Cross tables: a row for each club at home, a column for each away, as an encyclopedia has them.

    Home \\ Away,ARS,AVL,BOU
    Arsenal,—,4–1,
    Aston Villa,1–0,—,3–1
    Bournemouth,0–4,2–2,—

The columns are in the order of the rows, or their heads are the names of the rows. The cell of a
club against itself has no score; an empty cell is a match to come.
"""

from __future__ import annotations

import re
from dataclasses import dataclass

from .common import Trouble
from .match_lines import note_told
from .match_list import Match, MatchList, Passed, Wrong, quoted
from .name_words import DASHES, plain_form
from .score_texts import plain_signs, read_score
from .match_tables import SIGNS, cells_of

MOST_CLUBS = 60
CORNER = re.compile(r"^(?:home|heim|local|domicile|dom|casa|mandante|h)\s*[\\/|–-]+\s*"
                    r"(?:away|gast|ausw[aä]rts|visitante|exterieur|ext[ée]rieur|ext|ospite|"
                    r"trasferta|fora|a)\.?$", re.IGNORECASE)
CORNER_IN_FRONT = re.compile(CORNER.pattern.rstrip("$") + r"(?=\s)", re.IGNORECASE)
SELF = frozenset("xX#×*✕■●") | frozenset(DASHES)


@dataclass
class Cross:
    """A cross table: its rows of cells with their line numbers, and its heads, if it has some."""

    rows: list[tuple[int, list[str]]]
    heads: list[str]
    passed: list[tuple[int, str]]


def cross_of(lines: list[str]) -> Cross | None:
    """The cross table that the lines are, with a row of heads or without; none if they are not
    one for sure.
    """
    filled = [(number, line) for number, line in enumerate(lines, 1) if line.strip()]
    for sign in SIGNS:
        rows = [(number, line, cells_of(line, sign)) for number, line in filled
                if line.count(sign) > (sign == ",")]
        if len(rows) < 3:
            continue
        kept = {number for number, _, _ in rows}
        passed = [(number, line) for number, line in filled if number not in kept]
        found = _with_heads(rows, passed) or _without_heads(rows, passed)
        if found:
            return found
    return None


def test_divided(lines: list[str], file: str) -> None:
    """Raises `Trouble` if a text begins like a cross table and nothing divides its columns."""
    for number, line in enumerate(lines[:5], 1):
        if CORNER_IN_FRONT.match(line.strip()):
            where = f"{file}, line {number}" if file else f"line {number}"
            raise Trouble(f"{where}: this looks like a cross table, and its columns cannot be told "
                          "apart. Paste it with its tabs, or put commas or semicolons between the "
                          f"columns: {quoted(line)}")


def _with_heads(rows: list, passed: list[tuple[int, str]]) -> Cross | None:
    """The cross table after a row of heads whose first cell says which side is which."""
    for place, (_, _, cells) in enumerate(rows[:3]):
        is_corner = bool(CORNER.match(" ".join(cells[0].split())))
        if not is_corner and not _has_shape(rows[place + 1:], len(cells) - 1):
            continue
        front = [(number, line) for number, line, _ in rows[:place]]
        body = [(number, cells) for number, _, cells in rows[place + 1:]]
        return Cross(body, [cell for cell in cells[1:]], passed + front)
    return None


def _has_shape(rows: list, size: int) -> bool:
    """Whether the rows are as many as the columns, and no club has a score against itself."""
    widths = {len(row[2]) for row in rows}
    if not 1 < size <= MOST_CLUBS or len(rows) != size or not widths <= {size, size + 1}:
        return False
    cells = [row[2] + [""] * (size + 1 - len(row[2])) for row in rows]
    others = [cell for at, row in enumerate(cells)
              for place, cell in enumerate(row[1:]) if place != at]
    scores = sum(read_score(cell).score is not None for cell in others)
    return (all(len(row) == size + 1 and is_self(row[at + 1]) and re.search(r"[^\W\d]", row[0])
                for at, row in enumerate(cells))
            and all(not read_score(cell).why for cell in others) and scores > 0)


def _without_heads(rows: list, passed: list[tuple[int, str]]) -> Cross | None:
    """The cross table of rows alone: as many columns as rows, and scores off the diagonal alone."""
    size = len(rows)
    if not _has_shape(rows, size) or len({row[2][0] for row in rows}) != size:
        return None
    return Cross([(number, cells) for number, _, cells in rows], [], passed)


def is_self(cell: str) -> bool:
    """Whether a cell may be that of a club against itself."""
    return all(sign in SELF or sign.isspace() for sign in cell)


def read_cross(lines: list[str], cross: Cross, file: str) -> MatchList:
    """The matches of a cross table; raises `Trouble` with every cell that is not understood."""
    found, wrong = MatchList(file=file, is_cross=True), Wrong(file)
    names = [cells[0] for _, cells in cross.rows]
    order = _order(cross, names, file)
    for number, line in cross.passed:
        found.passed.append(Passed("line outside the cross table", number, line))
    for row, (number, cells) in enumerate(cross.rows):
        for place, away in enumerate(order):
            cell = cells[place + 1] if place + 1 < len(cells) else ""
            if away == row:
                if not is_self(plain_signs(cell)):
                    wrong.add(number, f"{quoted(names[row])} has {quoted(cell)} against itself",
                              lines[number - 1])
                continue
            told = read_score(cell)
            if told.why:
                wrong.add(number, f"{told.why}, against {quoted(names[away])}", cell)
                continue
            note_told(found, told, number, f"{names[row]} - {names[away]}")
            text = f"{names[row]} - {names[away]} {cell}"
            found.add(Match(names[row], names[away], told.score, "", number, text, file,
                            told.winner))
    wrong.refuse()
    return found


def _order(cross: Cross, names: list[str], file: str) -> list[int]:
    """The row of each column's club; raises `Trouble` if rows and columns do not fit."""
    where = f"{file}: " if file else ""
    width = max(len(cells) for _, cells in cross.rows) - 1
    heads = [head for head in cross.heads if head] if cross.heads else [""] * width
    if len(heads) != len(names):
        raise Trouble(f"{where}this is a cross table of {len(names)} rows and {len(heads)} "
                      "columns; each club has one of both")
    if len(set(names)) != len(names) or not all(names):
        raise Trouble(f"{where}in this cross table a club has two rows, or a row has no name")
    forms = [plain_form(name) for name in names]
    places = [forms.index(plain_form(head)) if plain_form(head) in forms else -1 for head in heads]
    if sorted(places) == list(range(len(names))):
        return places
    for row, (_, cells) in enumerate(cross.rows):
        head = heads[row]
        if head and not _fits(head, names[row]) and any(_fits(head, other) for other in names):
            raise Trouble(f"{where}in this cross table column {row + 1} is {quoted(head)} and row "
                          f"{row + 1} {quoted(names[row])}. Put both into one order, or write the "
                          "names of the rows over the columns")
    return list(range(len(names)))


def _fits(head: str, name: str) -> bool:
    """Whether a head may be short for a name: its letters stand in it in this order."""
    letters = iter(plain_form(name).replace(" ", ""))
    return all(sign in letters for sign in plain_form(head).replace(" ", ""))
