"""What a list says of the dates of open matches that the feed does not know yet: matches that are
marked as postponed, and those on another day than in the sheet. It is said, and nothing is written.
"""

from __future__ import annotations

from .bookkeeper import Bookkeeper
from .dates import folded
from .match_list import Match, MatchList
from .several import FULL_DATE
from .slips import Unclear
from .texts import Fixture

POSTPONED = frozenset("postp postponed ppd pp p-p p psp verl verlegt rep reporte rinv rinviata adiado "
                      "adiada apl aplazado pospuesto rescheduled delayed abges abgesagt ausgef "
                      "ausgefallen".split())


def date_hints(book: Bookkeeper, lists: list[MatchList]) -> list[str]:
    """What to write for such matches, at most a sentence for each of the two kinds."""
    waiting: list[str] = []
    moved: list[str] = []
    # which names stand in the list for which clubs is said of results alone
    meant = dict(book.meant)
    for found in lists:
        marked = {one.line for one in found.passed if _is_postponed(one.why)}
        for match in found.matches if not found.is_cross else []:
            fixture = _open_fixture(book, match)
            date = book.dates.get(fixture.number, "") if fixture is not None else ""
            if not date:
                continue
            if FULL_DATE.match(match.date) and FULL_DATE.match(date) and match.date != date:
                moved.append(f"postpone {fixture.home} - {fixture.away} {match.date}")
            elif match.line in marked:
                waiting.append(f"postpone {fixture.home} - {fixture.away}")
    book.meant = meant
    return [*_sentence(moved, "on another day in the list", "takes it"),
            *_sentence(waiting, "marked as postponed and kept on the day of the sheet",
                       "takes it from there, with a date or without one")]


def _is_postponed(why: str) -> bool:
    """Whether a match was passed over for a mark that says so."""
    front, sign, mark = folded(why).partition("(")
    return bool(sign) and mark.split(")")[0].strip("()[]. ") in POSTPONED


def _open_fixture(book: Bookkeeper, match: Match) -> Fixture | None:
    """The fixture of a match without a score, if it is clear and has none in the feed either."""
    if match.score is not None or match.winner:
        return None
    try:
        fixture = book.fixture_of("match", match)
    except Unclear:
        return None
    return None if fixture.number in book.feed.season.scores else fixture


def _sentence(typed: list[str], what: str, does: str) -> list[str]:
    """How many matches are so, and what to write for the first of them."""
    if not typed:
        return []
    are = "1 open match is" if len(typed) == 1 else f"{len(typed)} open matches are"
    more = f"; so with the {'other' if len(typed) == 2 else 'others'}" if len(typed) > 1 else ""
    return [f"{are} {what}: `{typed[0]}` {does}{more}"]
