"""The zones of a table, which a colour and words mark, and the letters of what is decided.

A line in the upper half of the table, or one without a word for those below, marks the clubs inside
it; any other marks the clubs below it, as relegation does.
"""

from __future__ import annotations

from typing import TYPE_CHECKING, NamedTuple

from .changes import SHORT
from .line_names import LineNames, RELEGATED

if TYPE_CHECKING:
    from .board import Board

WORD_KEYS = {"in": "in", "out": "out", "open": "open", "not settled": "unsettled"}


class Zone(NamedTuple):
    """Places of a table: from the first to the last, of which line, and their colour."""

    first: int
    last: int
    line: int
    colour: str


def is_below(names: LineNames, places: int, size: int) -> bool:
    """Whether a line is about those below it."""
    return not names.is_cup and (places in names.below or (
        places not in names.inside and 2 * places > size))


def zones_of(board: Board) -> list[Zone]:
    """The zones of a league, from the top; of a cup those who qualify."""
    if board.sheet.is_cup:
        return [Zone(1, 1, board.lines[0], "upper1")]
    size, found, before = len(board.table), [], 0
    upper = [it for it in board.lines if not is_below(board.names, it, size)]
    for number, places in enumerate(upper):
        found.append(Zone(before + 1, places, places, f"upper{min(number, 3)}"))
        before = places
    lower = [it for it in board.lines if it not in upper]
    ends = [*lower[1:], size]
    for number, (places, last) in enumerate(zip(lower, ends)):
        found.append(Zone(places + 1, last, places,
                          "lower0" if number == len(lower) - 1 else "lower1"))
    return found


def zone_words(board: Board, zone: Zone) -> str:
    """What a zone is called."""
    say, size = board.phrases, len(board.table)
    if is_below(board.names, zone.line, size):
        return say.below(board.names, zone.line)
    return say.line(board.names, zone.line, size)


def in_order(board: Board) -> list[int]:
    """The lines as people tell them: the title, then relegation, then the others."""
    lower = [it for it in board.lines if is_below(board.names, it, len(board.table))]
    first = [it for it in board.lines if it == 1]
    return list(dict.fromkeys([*first, *reversed(lower), *board.lines]))


def word_of(board: Board, places: int, club: str) -> str:
    """In, out, open or not settled; nothing where there is no answer."""
    verdict = board.verdicts.get((places, club))
    return SHORT[verdict.word] if verdict else ""


def word_text(board: Board, word: str) -> str:
    """Such a word in the language of the page."""
    return board.phrases.text(WORD_KEYS[word])


def letter_of(board: Board, club: str) -> tuple[str, str]:
    """The letter of what is decided for a club, and its words; both empty if nothing is that a
    table marks.
    """
    say, size = board.phrases, len(board.table)
    for places in board.lines:
        word = word_of(board, places, club)
        if is_below(board.names, places, size):
            if word == "out":
                key = "out" if board.names.outside(places) == RELEGATED else "below"
                return say.text(f"letter.{key}"), _out_text(board, places)
        elif word == "in":
            key = "champion" if places == 1 and not board.sheet.is_cup else "in"
            return say.text(f"letter.{key}"), _status(board, "in", [places])
    return "", ""


def status_of(board: Board, club: str) -> list[tuple[str, str]]:
    """What stands beside a club: pairs of a word, as a class, and its text."""
    say, size, texts = board.phrases, len(board.table), []
    words = {places: word_of(board, places, club) for places in board.lines}
    upper = [it for it in words if not is_below(board.names, it, size)]
    lower = [it for it in words if it not in upper]
    inside = [it for it in upper if words[it] == "in"][:1]
    if inside:
        texts.append(("in", _status(board, "in", inside)))
    for word, kind in (("open", "open"), ("not settled", "unsettled")):
        told = [it for it in words if words[it] == word]
        if told:
            texts.append((kind, _status(board, word, told)))
    out = [it for it in lower if words[it] == "out"]
    if out:
        texts.append(("out", _out_text(board, out[0])))
    elif not texts and lower and all(words[it] == "in" for it in lower):
        texts.append(("safe", _status(board, "in", lower[:1])))
    elif not texts and board.sheet.is_cup and words:
        texts.append(("safe", say.text("out")))
    return texts


def _out_text(board: Board, places: int) -> str:
    """That a club is below a line."""
    if board.names.outside(places):
        return board.phrases.below(board.names, places)
    return _status(board, "out", [places])


def _status(board: Board, word: str, lines: list[int]) -> str:
    """A word with the lines for which it holds."""
    say, size = board.phrases, len(board.table)
    places = ", ".join(say.line(board.names, it, size) for it in lines)
    return say.text("status", word=word_text(board, word), places=places)
