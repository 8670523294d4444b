"""The tables of a board's page: the usual columns, a colour a zone, a letter a decision."""

from __future__ import annotations

from dataclasses import dataclass
from typing import TYPE_CHECKING

from .answers import Place
from .cup_screen import places_of
from .marks import club_anchor, name_of
from .page_zones import Zone, letter_of, status_of, zones_of
from .runners import of_group, runners_up
from .texts import Season, Sheet

if TYPE_CHECKING:
    from .board import Board

COLUMNS = (("place", ""), ("club", "club"), ("played", ""), ("won", "wide"), ("drawn", "wide"),
           ("lost", "wide"), ("goals", "goals"), ("difference", ""), ("points", "points"))
RANKING = (("place", ""), ("runner_up", "club"), ("group", "group"), ("points", "points"),
           ("difference", ""), ("goals", "goals"))


@dataclass
class Record:
    """What a club's matches ended with."""

    won: int = 0
    drawn: int = 0
    lost: int = 0


def records_of(sheet: Sheet, season: Season) -> dict[str, Record]:
    """How many matches each club won, drew and lost."""
    found = {club.name: Record() for club in sheet.clubs}
    for number, (home, away) in season.scores.items():
        fixture = sheet.fixture(number)
        if home == away:
            found[fixture.home].drawn += 1
            found[fixture.away].drawn += 1
            continue
        winner, loser = (fixture.home, fixture.away)[::1 if home > away else -1]
        found[winner].won += 1
        found[loser].lost += 1
    return found


def tables(board: Board) -> list[str]:
    """The table; of a cup one a group, and the ranking of the runners-up."""
    zones = zones_of(board) if board.verdicts else []
    if not board.sheet.is_cup:
        return _table(board, "table", board.phrases.text("table"), board.table, zones)
    texts = []
    for number, group in enumerate(board.sheet.groups, 1):
        texts += _table(board, f"table-{number}", name_of(group.title),
                        of_group(board.table, group), zones)
    return texts + _ranking(board)


def _heads(board: Board, columns: tuple[tuple[str, str], ...]) -> list[str]:
    """The heads of columns, short ones where there is little room."""
    say = board.phrases
    return [f'<th scope="col" class="{kind}">{_short(say.text(key), say.text(short))}</th>'
            if (short := f"{key}.short") in say.sentences else
            f'<th scope="col" class="{kind}">{say.text(key)}</th>' for key, kind in columns]


def _short(word: str, short: str) -> str:
    return word if word == short else f'<abbr title="{word}">{short}</abbr>'


def _table(board: Board, name: str, caption: str, table: list[Place],
           zones: list[Zone]) -> list[str]:
    """One table."""
    records = records_of(board.sheet, board.season)
    heads = _heads(board, COLUMNS)
    if board.verdicts:
        heads.append(f'<th scope="col" class="status">{board.phrases.text("decision")}</th>')
    rows = [_row(board, place, records[place.club], _zone_at(zones, position))
            for position, place in enumerate(table, 1)]
    return [f'<table id="{name}">', f'<caption class="{"" if board.sheet.is_cup else "hidden"}">'
            f"{caption}</caption>", "<thead>", f"<tr>{''.join(heads)}</tr>", "</thead>", "<tbody>",
            *rows, "</tbody>", "</table>"]


def _zone_at(zones: list[Zone], position: int) -> tuple[str, bool]:
    """The colour of a place, and whether another zone begins with it."""
    colour = next((it.colour for it in zones if it.first <= position <= it.last), "")
    begins = any(position in (it.first, it.last + 1) for it in zones) and position > 1
    return colour, begins


def _row(board: Board, place: Place, record: Record, zone: tuple[str, bool]) -> str:
    """One club of the table."""
    colour, begins = zone
    letter, words = letter_of(board, place.club)
    mark = f'<abbr class="letter" title="{_bare(words)}">{letter}</abbr>' if letter else ""
    shown = str(place.best) if place.best == place.worst else f"{place.best}–{place.worst}"
    link = f'<a href="#{club_anchor(board, place.club)}">{name_of(place.club)}</a>' if (
        board.verdicts) else name_of(place.club)
    cells = [f'<td class="place"><span class="zone {colour}">{shown}</span></td>',
             f'<th scope="row" class="club">{link}{mark}</th>', f"<td>{place.played}</td>",
             f'<td class="wide">{record.won}</td>', f'<td class="wide">{record.drawn}</td>',
             f'<td class="wide">{record.lost}</td>',
             f'<td class="goals">{place.scored}:{place.scored - place.difference}</td>',
             f"<td>{signed(place.difference)}</td>", f'<td class="points">{place.points}</td>']
    if board.verdicts:
        cells.append(_status_cell(board, place.club))
    return f"<tr{' class=' + chr(34) + 'cut' + chr(34) if begins else ''}>{''.join(cells)}</tr>"


def _status_cell(board: Board, club: str) -> str:
    """What is decided and open for a club."""
    told = "; ".join(f'<span class="{kind}">{text}</span>' for kind, text in status_of(board, club))
    return f'<td class="status">{told}</td>'


def _bare(text: str) -> str:
    """Words without the elements around names, as an attribute takes them."""
    for sign in ('<bdi class="long">', "<bdi>", "</bdi>"):
        text = text.replace(sign, "")
    return text


def signed(number: int) -> str:
    """A number with its sign."""
    return "0" if number == 0 else f"{number:+d}".replace("-", "−")


def _ranking(board: Board) -> list[str]:
    """The runners-up of a cup as it stands."""
    cup, rows = board.sheet, []
    for at, one in enumerate(runners_up(cup, board.season, board.table), 1):
        cells = [f'<td class="place">{places_of(one)}</td>',
                 f'<th scope="row" class="club">{name_of(one.club)}</th>',
                 f'<td class="group">{name_of(one.group.name)}</td>', f'<td class="points">{one.key[0]}</td>',
                 f"<td>{signed(one.key[1])}</td>", f'<td class="goals">{one.key[2]}</td>']
        if board.verdicts:
            cells.append(_status_cell(board, one.club))
        rows.append(f"<tr{' class=' + chr(34) + 'cut' + chr(34) if at == cup.quota + 1 else ''}>"
                    f"{''.join(cells)}</tr>")
    heads = _heads(board, RANKING)
    if board.verdicts:
        heads.append(f'<th scope="col" class="status">{board.phrases.text("decision")}</th>')
    return ['<table id="runners-up">', f"<caption>{board.phrases.text('cup.ranking')}</caption>",
            "<thead>", f"<tr>{''.join(heads)}</tr>", "</thead>", "<tbody>", *rows, "</tbody>",
            "</table>"]
