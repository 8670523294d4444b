"""Points that a league takes off a club, one after another, and those that a club brings with it."""

from __future__ import annotations

import re
from typing import TYPE_CHECKING

from .names import same_name
from .records import row_text
from .slips import Known, Unclear
from .wording import counted

if TYPE_CHECKING:
    from .bookkeeper import Bookkeeper

POINTS = r"(?P<sign>[-−–+]?)\s?(?P<points>\d+)"
DEDUCTIONS = tuple(re.compile(form, re.IGNORECASE) for form in (
    r"^" + POINTS + r"(?P<more>\s+more)?\s+points?(?P<whole>\s+in\s+all)?\s+from\s+(?P<name>.+)$",
    r"^(?P<name>.+?)\s+" + POINTS + r"(?P<more>\s+more)?(?:\s+points?)?(?P<late>\s+more)?"
    r"(?P<whole>\s+in\s+all)?$"))


def deducted(book: "Bookkeeper", body: str, reason: str) -> list[str]:
    """Points taken off a club: the first ones, more, or in all."""
    found = next((form.match(body) for form in DEDUCTIONS if form.match(body)), None)
    if found is None or same_name(body, book.names):
        raise Unclear("a deduction is written like `deduct Ararat 3`, with the points taken off")
    club, points = book.club(found["name"].strip()), int(found["points"])
    if found["sign"]:
        raise Unclear(f"points are taken off without a sign: `deduct {club} {points}`. "
                      + (_credit_words(book, club, points) if found["sign"] != "+" else ""))
    before = book.feed.season.deductions.get(club, 0)
    is_more = bool(found["more"] or found.groupdict().get("late"))
    if is_more and found["whole"]:
        raise Unclear(f"is it `deduct {club} {points} more`, or `deduct {club} {points} in all`?")
    whole = before + points if is_more else points
    more = f"`deduct {club} {points} more` makes it {before + points}"
    if before and whole == before:
        raise Known(f"{club} has {counted(before, 'point')} off already, and this line changes "
                    f"nothing; {more}")
    ruling = f"{club}, {points}{' more' if is_more else ''}" + (f" ({reason})" if reason else "")
    if is_more and ruling in book.ledger.ruled.get(club, []):
        raise Known(f"this line stands already, and {club} has {counted(before, 'point')} off in "
                    f"all; if it is another ruling, write `deduct {club} {whole} in all`")
    if before and not is_more and not found["whole"]:
        raise Unclear(f"{club} has {counted(before, 'point')} off already: {more}, `deduct {club} "
                      f"{points} in all` makes it {points}")
    comment = [f"# deducted: {ruling}"] if is_more or reason else []
    return comment + [book.tested(row_text("deduct", club, whole).rstrip("\n"))]


def credited(book: "Bookkeeper", body: str, reason: str) -> list[str]:
    """Points that a club brings into the season."""
    found = DEDUCTIONS[1].match(body)
    if found is None:
        raise Unclear("points brought forward are written like `credit Ararat 3`")
    raise Unclear(_credit_words(book, book.club(found["name"]), int(found["points"])))


def _credit_words(book: "Bookkeeper", club: str, points: int) -> str:
    """What to do where a club has points in addition."""
    others = len(book.sheet.clubs) - 1
    return (f"futmax knows no points that a club brings with it. If {club} has {points}, take "
            f"{points} off each of the other {others} clubs instead, like `deduct CLUB {points} "
            f"more`: in, out and open are the same, and each club shows {points} fewer")
