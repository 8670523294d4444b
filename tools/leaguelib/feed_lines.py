"""Lines of a feed for lines by names and for lists of matches: each is made and tested, and what
was passed over is counted.
"""

from __future__ import annotations

from dataclasses import dataclass, field

from . import common
from .bookkeeper import Bookkeeper
from .crosses import cross_of
from .date_hints import date_hints
from .match_list import Match, MatchList, quoted
from .match_tables import SIGNS, head_of
from .matches import LineReader, is_month_first, lines_in, read_text, text_of
from .several import FULL_DATE
from .slips import Changed, Known, Unclear

MOST_NAMES_SAID = 30
MOST_NOTES = 5


@dataclass
class Made:
    """Lines of a feed that were made, what has to be said about them, and what was not clear.

    `refused` is what was said of lists that cannot be read, `changed` of results of which another
    one stands, and which are taken as corrections if it `is_correcting`; `known` counts what stood
    there already.
    """

    lines: list[str] = field(default_factory=list)
    notes: list[str] = field(default_factory=list)
    wrong: list[str] = field(default_factory=list)
    refused: list[str] = field(default_factory=list)
    changed: list[str] = field(default_factory=list)
    known: int = 0
    is_correcting: bool = False


@dataclass
class Given:
    """A file of lines by names: a list of matches, or lines of which each is taken as it is."""

    file: str
    lines: list[str]
    notes: list[str]
    is_list: bool


def made_lines(book: Bookkeeper, data: bytes, file: str = "") -> Made:
    """The lines of the feed for one file of lines by names, or for one list of matches."""
    return all_made(book, [(file, data)])


def all_made(book: Bookkeeper, files: list[tuple[str, bytes]],
             is_correcting: bool = False) -> Made:
    """The lines of the feed for several files; lists of matches come first, by their dates."""
    made = Made(is_correcting=is_correcting)
    given = [one for file, data in files for one in _given(book, file, data)]
    for one in given:
        made.notes += one.notes
    lists = [found for one in given if one.is_list
             for found in _read(made, one, len(files) == 1, book.settings.days)]
    before, made.notes = made.notes, []
    for found, match in in_order(lists):
        _take_match(made, book, found, match)
    if len(made.notes) > MOST_NOTES:
        made.notes[MOST_NOTES:] = [f"and {len(made.notes) - MOST_NOTES} more matches on another "
                                   "day than in the sheet, or above its goal limit"]
    made.notes = before + made.notes + date_hints(book, lists)
    for found in lists:
        made.notes += found.notes + [text for text in [found.passed_text()] if text]
    for one in given:
        if not one.is_list:
            _take_lines(made, book, one)
    _note_names(made, book)
    return made


def in_order(lists: list[MatchList]) -> list[tuple[MatchList, Match]]:
    """The matches with a score, by date where there are several lists and each has its date."""
    every = [(found, match) for found in lists for match in found.matches
             if match.score is not None or match.winner]
    if len(lists) > 1 and all(FULL_DATE.match(match.date) for _, match in every):
        every.sort(key=lambda one: one[1].date)
    return every


def _given(book: Bookkeeper, file: str, data: bytes) -> list[Given]:
    """A file as lines; it is a list where no line is meant for the feed alone.

    Such lines among the rows of a table are taken after it.
    """
    notes: list[str] = []
    lines = lines_in(text_of(data, notes, file))
    front = f"{file}: " if file else ""
    notes = [front + note for note in notes]
    if not _has_heads(lines):
        return [Given(file, lines, notes, not any(book.is_order(line) for line in lines))]
    places = {place for place, line in enumerate(lines)
              if book.is_order(line) and not any(sign in line for sign in SIGNS)
              and not line.lower().startswith("result")}
    rows = ["" if place in places else line for place, line in enumerate(lines)]
    orders = [line if place in places else "" for place, line in enumerate(lines)]
    return [Given(file, rows, notes, True)] + (
        [Given(file, orders, [], False)] if places else [])


def _has_heads(lines: list[str]) -> bool:
    """Whether the lines are a table with a row of heads, or a cross table, whatever words stand in
    front of them.
    """
    try:
        return head_of(lines) is not None or cross_of(lines) is not None
    except common.Trouble:
        return True


def _read(made: Made, given: Given, needs_scores: bool, days: str) -> list[MatchList]:
    """The list that a file is; nothing if it cannot be read, which is noted."""
    try:
        return [read_text("\n".join(given.lines), given.file, needs_scores,
                          days)]
    except common.Trouble as trouble:
        made.refused.append(trouble.message)
        return []


def _take_match(made: Made, book: Bookkeeper, found: MatchList, match: Match) -> None:
    """Takes a match with its score, unless it stands already with this score."""
    try:
        match = book.with_score(match)
        line = book.line_of_listed(match)
        if line is None:
            made.known += 1
        else:
            book.enter(line)
            made.lines += [*_date_above(book, match, line), line]
    except Changed as changed:
        _take_changed(made, book, match, changed)
    except Unclear as unclear:
        for reason in _reasons(book, match, unclear.message):
            made.wrong.append(f"{match.place}, {quoted(match.text)}: {reason}")
    made.notes += [f"{match.place}: {note}" for note in book.take_notes()]


def _take_changed(made: Made, book: Bookkeeper, match: Match, changed: Changed) -> None:
    """Takes another score than the one that stands as a correction, if it is meant so; what one
    and the same list says twice in two ways is not clear.
    """
    fixture = book.sheet.fixture(int(changed.correction.split(",")[1]))
    before = book.feed.season.scores[fixture.number]
    if fixture.number in book.entered:
        made.wrong.append(f"{match.place}, {quoted(match.text)}: {changed.message}")
    elif made.is_correcting:
        line = book.tested(changed.correction)
        book.enter(line)
        made.lines.append(line)
        made.changed.append(f"corrected: {fixture.home} {match.score[0]}-{match.score[1]} "
                            f"{fixture.away} (it had {before[0]}-{before[1]})")
    else:
        made.changed.append(f"{match.place}: {fixture.home} - {fixture.away} is {match.score[0]}-"
                            f"{match.score[1]} here and {before[0]}-{before[1]} in the feed: not "
                            f"taken. `{changed.typed}` takes it, or --correct")


def _date_above(book: Bookkeeper, match: Match, line: str) -> list[str]:
    """The date of a match as a comment, where the list tells it and the sheet does not."""
    is_told = int(line.split(",")[1]) in book.dates
    return [f"# {match.date}"] if FULL_DATE.match(match.date) and not is_told else []


def _reasons(book: Bookkeeper, match: Match, first: str) -> list[str]:
    """Why a match is not clear: the first reason, and that of the other name, if it has one too."""
    reasons = [first]
    for name in (match.home, match.away):
        try:
            book.club(name)
        except Unclear as unclear:
            reasons.append(unclear.message)
    return list(dict.fromkeys(reasons))


def _take_lines(made: Made, book: Bookkeeper, given: Given) -> None:
    """Takes lines one by one: those that are meant for the feed alone, and matches among them."""
    order = is_month_first("\n".join(given.lines), given.file, book.settings.days)
    reader = LineReader(given.file, order)
    for number, line in enumerate(given.lines, 1):
        if not book.is_order(line):
            match = reader.take(number, line)
            if match is not None and (match.score is not None or match.winner):
                _take_match(made, book, reader.found, match)
            continue
        try:
            for entry in book.lines_of(line):
                book.enter(entry)
                made.lines.append(entry)
            made.notes += [f"{_where(given, number)}: {note}" for note in book.take_notes()]
        except Known as known:
            made.known += 1
            made.notes.append(f"{_where(given, number)}: {known.message}")
        except Unclear as unclear:
            made.wrong.append(f"{_where(given, number)}, {quoted(line)}: {unclear.message}")
    made.wrong += reader.wrong.messages
    made.notes += reader.found.notes
    if reader.found.passed_text():
        made.notes.append(reader.found.passed_text())


def _where(given: Given, number: int) -> str:
    """A line of a file, as messages begin."""
    return f"{given.file}, line {number}" if given.file else f"line {number}"


def _note_names(made: Made, book: Bookkeeper) -> None:
    """Tells which names were taken for which clubs, where the sheet writes them in another way."""
    meant = [f"{typed} = {club}" for typed, club in book.meant.items() if typed != club]
    if meant:
        more = f"; and {len(meant) - MOST_NAMES_SAID} more" if len(meant) > MOST_NAMES_SAID else ""
        made.notes.append("names taken for clubs of the sheet: "
                          + "; ".join(meant[:MOST_NAMES_SAID]) + more)
