"""Which fixture of a sheet a match by names is."""

from __future__ import annotations

from typing import TYPE_CHECKING

from .dates import is_same_day
from .match_list import Match
from .slips import Unclear
from .texts import Fixture

if TYPE_CHECKING:
    from .bookkeeper import Bookkeeper


def named_fixture(book: "Bookkeeper", kind: str, match: Match) -> Fixture:
    """The fixture of a match by names; where the two meet there more than once, that of its date, or
    without dates that of its turn in a list which has all of them.
    """
    home, away = book.club(match.home), book.club(match.away)
    found = [one for one in book.sheet.fixtures if (one.home, one.away) == (home, away)]
    if not found:
        turned = [one for one in book.sheet.fixtures if (one.home, one.away) == (away, home)]
        hint = f": they meet as {away} - {home}, fixture {turned[0].number}" if turned else ""
        raise Unclear(f"the sheet has no match {home} - {away}{hint}")
    dated = [one for one in found
             if match.date and is_same_day(match.date, book.dates.get(one.number, ""))]
    if len(found) == 1 or len(dated) == 1:
        return found[0] if len(found) == 1 else dated[0]
    is_told = bool(match.date) and any(one.number in book.dates for one in found)
    if match.turn[1] == len(found) and not is_told:
        return found[match.turn[0]]
    raise Unclear(_which(book, kind, match, found))


def _which(book: "Bookkeeper", kind: str, match: Match, found: list[Fixture]) -> str:
    """What to say where two clubs meet more than once with the same one at home."""
    goals = ""
    dated = f" None of them is dated {match.date}." if match.date else ""
    if match.score is not None and kind != "void":
        goals = f",{match.score[0]},{match.score[1]}"
    choices = []
    for one in found:
        date = book.dates.get(one.number)
        state = "played" if one.number in book.feed.season.scores else "open"
        written = f"match {one.number}" if kind == "match" else f"{kind},{one.number}{goals}"
        choices.append(f"`{written}` ({date + ', ' if date else ''}{state})")
    return (f"{match.home} - {match.away} comes {len(found)} times in the sheet.{dated} "
            f"Write the date before it, or one of these: {', '.join(choices)}")
