"""What a league decides in a season, by names, turned into lines of the feed:

    postpone Ararat - Beograd 2026-05-13            a new date; without a date no day is known
    award Ararat 3-0 Beograd: ineligible player     a score by ruling, with its reason
    withdraw Ararat 0-3                             its open matches are lost so, the others stand
    deduct Ararat 3 more                            on top of what was deducted before
    deduct Ararat 9 in all                          in all, whatever was deducted before
    undo deduct Ararat                              takes back the last ruling of this kind

What futmax cannot express is refused, with what to do instead. A match goes by its names, with its
date before them where the two meet there twice, or as `match 57`.
"""

from __future__ import annotations

import re
from typing import TYPE_CHECKING, Callable

from .deductions import credited, deducted
from .ledger import NO_DAY, WITHDREW, awarded_line, new_date_line
from .name_words import plain_form
from .names import same_name
from .records import MOST_LINE_BYTES, fields_of
from .ruled_matches import fixture_of, match_of, names_of, with_day
from .slips import Known, Unclear, played_text, why_open
from .texts import FEED_WIDTHS, Season
from .undone import GOALS_AT_END, undone
from .wording import counted

if TYPE_CHECKING:
    from .bookkeeper import Bookkeeper

RULING = re.compile(r"^(postpone|reschedule|award|cancel|both lose|withdraw|deduct|credit|"
                    r"bring forward|undo)(?:\s*:?\s+(\S.*))?$", re.IGNORECASE)
REASON = re.compile(r"^(.*?\S)(?::\s+(?=\D)(.*\S)|\s+\(([^()]*[^\W\d][^()]*)\))\s*$")

def ruling_of(line: str, book: "Bookkeeper") -> tuple[str, str] | None:
    """The word of a ruling and what it rules on; none if the line is none, as where a club's name
    begins so.
    """
    found = RULING.match(line)
    if found is None:
        return None
    word = found.group(1).lower()
    is_name = any(plain_form(name).split()[:1] == word.split()[:1] for name in book.names)
    return None if is_name else (word, found.group(2) or "")


def lines_for(book: "Bookkeeper", word: str, text: str) -> list[str]:
    """The lines of the feed for a ruling; raises `Unclear` if it is not clear, or cannot be."""
    makers: dict[str, Callable[["Bookkeeper", str, str], list[str]]] = {
        "postpone": _postponed, "reschedule": _postponed, "award": _awarded,
        "cancel": _cancelled, "both lose": _both_lost, "withdraw": _withdrawn,
        "deduct": deducted, "credit": credited, "bring forward": credited, "undo": undone}
    body, reason = _parted(text)
    lines = makers[word](book, body, reason)
    if any(len(line.encode("utf-8", "surrogateescape")) > MOST_LINE_BYTES for line in lines):
        raise Unclear("the reason is too long: a line has at most 1,024 bytes")
    return lines


def replaced_text(season: Season, line: str) -> list[str]:
    """What to say of a record `deduct` that gives another total in place of one."""
    fields = fields_of(line.encode("utf-8", "surrogateescape"))
    before = season.deductions.get(fields[1], 0) if fields[:1] == ["deduct"] else 0
    return [f"{fields[1]} had {counted(before, 'point')} off, and has {fields[2]} in all "
            "now"] if before else []


def _parted(text: str) -> tuple[str, str]:
    """A ruling without its reason, and the reason: after a colon, or in brackets at the end."""
    found = REASON.match(text)
    if not found:
        return text.strip(), ""
    return found.group(1), (found.group(2) or found.group(3)).strip()


def _postponed(book: "Bookkeeper", body: str, reason: str) -> list[str]:
    """A new date, or none yet."""
    names, day = with_day(body, book)
    fixture = fixture_of(book, names, "postpone Ararat - Beograd 2026-05-13")
    if fixture.number in book.feed.season.scores:
        raise Unclear(played_text(book.sheet, book.feed.season, fixture)
                      + ", so it gets no new date")
    is_without = book.ledger.day_of(fixture.number) == NO_DAY
    if day == book.dates.get(fixture.number, NO_DAY if is_without else ""):
        raise Known(f"{names_of(fixture)} is {_on(day)} already")
    return [new_date_line(fixture, day, reason)]


def _awarded(book: "Bookkeeper", body: str, reason: str) -> list[str]:
    """A score by ruling."""
    fixture, parts = match_of(book, body, "award Ararat 3-0 Beograd: ineligible player")
    if parts.told.word:
        raise Unclear(why_open(parts.told))
    score = parts.match.score if parts.match is not None else None
    if score is None:
        raise Unclear("the score that was awarded is missing, as in `award Ararat 3-0 Beograd`")
    stands = book.feed.season.scores.get(fixture.number)
    if stands == score:
        raise Known(f"{names_of(fixture)} has the score {score[0]}-{score[1]} already")
    kind = "result" if stands is None else "fix"
    return [awarded_line(fixture, reason), book.tested(f"{kind},{fixture.number},{score[0]},"
                                                       f"{score[1]}")]


def _cancelled(book: "Bookkeeper", body: str, reason: str) -> list[str]:
    """A match that will not be played and gives nobody anything."""
    fixture = fixture_of(book, body, "cancel Ararat - Beograd")
    # a record of the feed for this is taken as soon as FEED_WIDTHS has it
    if "cancel" in FEED_WIDTHS:
        return [f"# {reason}"] * bool(reason) + [book.tested(f"cancel,{fixture.number}")]
    names = names_of(fixture)
    raise Unclear("futmax cannot say yet that a match is not played and gives nobody anything. If "
                  f"the league awards it, write `award {fixture.home} 3-0 {fixture.away}`; while "
                  f"it may still be played, `postpone {names}`; a result that no longer counts is "
                  f"taken back by `annul {names}`. If it is out for good, take it out of the list "
                  "of fixtures, and make sheet and feed anew")


def _both_lost(book: "Bookkeeper", body: str, reason: str) -> list[str]:
    """A match that both sides lose."""
    fixture = fixture_of(book, body, "both lose Ararat - Beograd")
    raise Unclear("futmax has no score that both sides lose. With "
                  f"`award {fixture.home} 0-0 {fixture.away}`, `deduct {fixture.home} 1 more` and "
                  f"`deduct {fixture.away} 1 more` the points are right, but goals and the matches "
                  "between clubs level on points are not: do so only if they cannot decide")


def _withdrawn(book: "Bookkeeper", body: str, reason: str) -> list[str]:
    """A club that plays no more: its open matches are lost with a score."""
    found = None if same_name(body, book.names) else GOALS_AT_END.match(body)
    club = book.club(found.group(1) if found else body)
    still = [one for one in book.feed.season.open_fixtures(book.sheet)
             if club in (one.home, one.away)]
    if not found:
        are = "match is" if len(still) == 1 else "matches are"
        raise Unclear(f"what becomes of {club}'s matches? If its {len(still)} open {are} lost by a "
                      f"score and what was played stands, write `withdraw {club} 0-3`. If all "
                      "of them count for nothing, futmax cannot say so: take its matches out of "
                      "the list of fixtures, and make sheet and feed anew")
    own, other = int(found.group(2)), int(found.group(3))
    if own >= other:
        raise Unclear(f"the score is that of {club}, which loses: `withdraw {club} 0-3`")
    if not still:
        raise Known(f"{club} has no open match")
    lines = []
    for one in still:
        goals = (own, other) if one.home == club else (other, own)
        why = WITHDREW.format(club) + (f": {reason}" if reason else "")
        lines += [awarded_line(one, why), book.tested(f"result,{one.number},{goals[0]},{goals[1]}")]
    return lines


def _on(day: str) -> str:
    return "without a date" if day == NO_DAY else f"on {day}"
