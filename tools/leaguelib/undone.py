"""Rulings that are taken back, each by its name."""

from __future__ import annotations

import re
from typing import TYPE_CHECKING

from .deductions import DEDUCTIONS
from .ledger import WITHDREW, new_date_line
from .names import same_name
from .records import row_text
from .ruled_matches import fixture_of, names_of, with_day
from .slips import Unclear
from .texts import Fixture

if TYPE_CHECKING:
    from .bookkeeper import Bookkeeper

GOALS_AT_END = re.compile(r"^(.+?)\s+(\d{1,2})\s?[-:]\s?(\d{1,2})$")


def undone(book: "Bookkeeper", body: str, reason: str) -> list[str]:
    """The last ruling of a kind on a match or a club, taken back."""
    found = re.match(r"^(postpone|reschedule|award|correct|annul|withdraw|deduct)\s+(\S.*)$", body,
                     re.IGNORECASE)
    if found is None:
        raise Unclear("write the ruling that is to be taken back, like `undo deduct Ararat` or "
                      "`undo postpone Ararat - Beograd`; `annul Ararat - Beograd` takes back a "
                      "result")
    word, rest = found.group(1).lower(), found.group(2)
    if word == "withdraw":
        return _undone_withdrawal(book, rest)
    mark = f"# undo: {body}"
    if word == "deduct":
        return _undone_deduction(book, rest, mark)
    fixture = fixture_of(book, with_day(rest, book)[0], f"undo {word} Ararat - Beograd")
    if word in ("postpone", "reschedule"):
        return _undone_date(book, fixture, mark)
    return _undone_score(book, fixture, word, mark)


def _undone_deduction(book: "Bookkeeper", text: str, mark: str) -> list[str]:
    """What was deducted before the last deduction."""
    form = next((form.match(text) for form in DEDUCTIONS if form.match(text)), None)
    is_bare = form is None or same_name(text, book.names)
    club = book.club(text if is_bare else form["name"])
    before = book.ledger.before(book.ledger.deductions.get(club))
    if not before:
        raise Unclear(f"{club} has no deduction that could be taken back")
    return [mark, book.tested(row_text("deduct", club, before[0]).rstrip("\n"))]


def _undone_date(book: "Bookkeeper", fixture: Fixture, mark: str) -> list[str]:
    """The date before the last new one."""
    before = book.ledger.before(book.ledger.moves.get(fixture.number))
    if not before:
        raise Unclear(f"{names_of(fixture)} has no new date that could be taken back")
    return [mark, new_date_line(fixture, before[0])]


def _undone_score(book: "Bookkeeper", fixture: Fixture, word: str, mark: str) -> list[str]:
    """The score before an award, a correction or an annulment."""
    stands = book.feed.season.scores.get(fixture.number)
    before = book.ledger.before(book.ledger.scores.get(fixture.number))
    is_so = {"award": fixture.number in book.ledger.awards, "annul": stands is None,
             "correct": stands is not None and before != [None]}[word]
    if not before or not is_so:
        raise Unclear(f"{names_of(fixture)} has no such ruling that could be taken back")
    if before[0] is None:
        return [mark, book.tested(f"void,{fixture.number}")]
    kind = "result" if stands is None else "fix"
    return [mark, book.tested(f"{kind},{fixture.number},{before[0][0]},{before[0][1]}")]


def _undone_withdrawal(book: "Bookkeeper", text: str) -> list[str]:
    """The matches of a club open again that it lost by withdrawing."""
    found = GOALS_AT_END.match(text)
    is_bare = found is None or same_name(text, book.names)
    club = book.club(text if is_bare else found.group(1))
    numbers = [number for number, about in sorted(book.ledger.awards.items())
               if WITHDREW.format(club) in about and number in book.feed.season.scores]
    if not numbers:
        raise Unclear(f"{club} has not withdrawn")
    return [line for number in numbers
            for line in (f"# undo: withdraw {club}", book.tested(f"void,{number}"))]
