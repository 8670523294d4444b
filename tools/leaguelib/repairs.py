"""What a refused record was meant to be: candidates in words, each with the lines to write instead.

A candidate is only offered where the program would take its lines; that is tested in `refusals.py`.
"""

from __future__ import annotations

import re
from dataclasses import dataclass, field
from typing import Iterator

from .names import nearest_name, same_name, shown
from .records import field_text, number_of
from .texts import MOST_GOALS, ORDERS, USUAL_BUDGET, Season, Sheet

DATE = re.compile(r"^(\d{4}[-./]\d{1,2}[-./]\d{1,2}|\d{1,2}[-./]\d{1,2}[-./](\d{2}|\d{4}))"
                  r"([ T]\d{1,2}[:.]\d{2}.*)?$")
TIME = re.compile(r"^\d{1,2}[:.]\d{2}(:\d{2})?$")
SCORE = re.compile(r"^\s*(\d{1,2})\s*[-:–−/]\s*(\d{1,2})\s*$")
BETWEEN = re.compile(r"\s+(?:-|–|—|v|vs|vs\.|V|VS|x)\s+|\s*[–—]\s*")
FEED_KINDS = ("result", "fix", "void", "deduct", "ask")


@dataclass
class Candidate:
    """In words what is wrong, and the lines to write instead (none: the line can be left out).

    Where the line is split, the lines after the first are looked at by themselves. A candidate
    that is told alone has no lines to offer, and the line may not be left out.
    """

    reason: str
    lines: list[str] = field(default_factory=list)
    is_split: bool = False
    is_told_alone: bool = False


def line_text(*fields: object) -> str:
    """A record as a line without its end."""
    return ",".join(field_text(str(part)) for part in fields)


def is_date(text: str) -> bool:
    """Whether a field looks like a date or a time of day."""
    return bool(DATE.match(text) or TIME.match(text))


def without_dates(fields: list[str]) -> Iterator[Candidate]:
    """A date column among the fields."""
    kept = [part for part in fields if not is_date(part)]
    if len(kept) < len(fields):
        yield Candidate("the record has no field for a date or time: leave it out, or write it "
                        "in a "
                        "comment line above", [line_text(*kept)])


def league_repairs(fields: list[str]) -> Iterator[Candidate]:
    """What a refused `league` record was meant to be."""
    missing = "the goal limit is missing: the most goals a side that an open match can end with"
    if len(fields) == 2:
        yield Candidate(missing, [line_text(*fields, 9)])
    if len(fields) == 3 and fields[2] in ORDERS:
        yield Candidate(missing, [line_text(*fields[:2], 9, USUAL_BUDGET, fields[2])])
    if len(fields) > 3 and fields[3] in ORDERS:
        yield Candidate("the order of the criteria is the fifth field, after the budget",
                        [line_text(*fields[:3], USUAL_BUDGET, fields[3])])
    if len(fields) == 5 and fields[3] == "":
        yield Candidate("the budget may not be empty if the order follows",
                        [line_text(*fields[:3], USUAL_BUDGET, fields[4])])
    if len(fields) > 4 and fields[4] not in ORDERS:
        word = fields[4].strip().lower().replace("-", "_").replace(" ", "_")
        order = nearest_name(word, ORDERS)
        if order:
            yield Candidate("the order is `head_first` (head-to-head record before goal "
                            "difference) "
                            "or `overall_first` (goal difference first)",
                            [line_text(*fields[:4], order)])
    if len(fields) > 2 and number_of(fields[1]) and number_of(fields[2]) is None:
        yield Candidate("the name comes first, then the goal limit",
                        [line_text("league", fields[2], fields[1], *fields[3:])])
    if len(fields) > 3 and number_of(fields[2]) is None:
        yield from name_with_comma(fields)
    if len(fields) > 2 and number_of(fields[2]) is not None:
        yield Candidate("the goal limit is 1 to 20, and 9 fits most leagues",
                        [line_text(*fields[:2], 9, *fields[3:])])
    if len(fields) > 3:
        yield Candidate("the budget (field 4) is 1 to 50,000; it can be left out",
                        [line_text(*fields[:3], USUAL_BUDGET, *fields[4:])])


def name_with_comma(fields: list[str]) -> Iterator[Candidate]:
    """A name that holds a comma and does not stand in quotes."""
    for end in range(3, len(fields)):
        if number_of(fields[end]) is not None:
            name = ", ".join(part.strip().strip('"') for part in fields[1:end])
            yield Candidate("a name with a comma needs double quotes",
                            [line_text(fields[0], name, *fields[end:])])
            return


def club_repairs(fields: list[str], sheet: Sheet) -> Iterator[Candidate]:
    """What a refused `club` record was meant to be."""
    yield from without_dates(fields)
    if len(fields) == 2 and "," in fields[1]:
        name, _, rank = fields[1].rpartition(",")
        yield Candidate("the double quote that opens the name is not closed",
                        [line_text("club", name.strip(), rank.strip())])
    if len(fields) == 2:
        yield Candidate("the rank is missing: it decides between clubs that are level on "
                        "everything "
                        "else, and is 1 for all unless your league has such an order",
                        [line_text(*fields, 1)])
    if len(fields) == 3 and sheet.club_named(fields[1]):
        yield Candidate(f"the club {shown(fields[1])} is there already: this line can be left out")
    if len(fields) == 3 and number_of(fields[1]) and number_of(fields[2]) is None:
        yield Candidate("the name comes first, then the rank",
                        [line_text("club", fields[2], fields[1])])
    yield from name_with_comma(fields)
    if len(fields) > 1 and len(fields[1].encode("utf-8", "replace")) > 40:
        short = fields[1].encode("utf-8", "replace")[:40].decode("utf-8", "ignore").strip()
        yield Candidate("a name has at most 40 bytes (accents and other scripts take two or more "
                        "each): shorten it here and in every match",
                        [line_text("club", short, *fields[2:])])
    if len(fields) == 3:
        yield Candidate("the rank is a whole number from 1 to 999, and 1 for all unless your "
                        "league "
                        "has an order for clubs that are level on everything else",
                        [line_text(*fields[:2], 1)])


def match_repairs(fields: list[str], sheet: Sheet) -> Iterator[Candidate]:
    """What a refused `match` record was meant to be."""
    names = [club.name for club in sheet.clubs]
    yield from without_dates(fields)
    if len(fields) == 2:
        parts = BETWEEN.split(fields[1])
        if len(parts) != 2:
            parts = fields[1].split("-")
        if len(parts) == 2:
            yield from _two_names("home and away are two fields", parts, names)
    goals = [part for part in fields[1:] if number_of(part) is not None or SCORE.match(part)]
    if goals and len(fields) > 3:
        kept = [part for part in fields[1:] if part not in goals and not is_date(part)]
        reason = ("a match has only two names. Its score goes after `season`, as "
                  "`result,NUMBER,HOME_GOALS,AWAY_GOALS`; fixtures are numbered from 1")
        if len(kept) == 2:
            yield from _two_names(reason, kept, names)
    for end in range(2, len(fields)):
        pair = [", ".join(fields[1:end]), ", ".join(fields[end:])]
        if len(fields) > 3 and all(name in names for name in pair):
            yield Candidate("a name with a comma needs double quotes",
                            [line_text("match", *pair)])
    if len(fields) == 3:
        yield from _by_number(fields, names)
        yield from _two_names("", fields[1:], names)


def _by_number(fields: list[str], names: list[str]) -> Iterator[Candidate]:
    """Clubs called by their numbers."""
    numbers = [number_of(part) for part in fields[1:]]
    if all(number is not None and 1 <= number <= len(names) for number in numbers):
        yield Candidate("clubs go by their names, not by numbers",
                        [line_text("match", *[names[number - 1] for number in numbers])])


def _two_names(reason: str, parts: list[str], names: list[str]) -> Iterator[Candidate]:
    """Two names of which one may be written in another way than the club's."""
    found, reasons = [], [reason] if reason else []
    for part in parts:
        name = part.strip()
        other = name if name in names else same_name(name, names) or nearest_name(name, names)
        if other is None:
            return
        if other != name:
            reasons.append(name_reason(name, other))
        found.append(other)
    yield Candidate(". ".join(reasons), [line_text("match", *found)])


def name_reason(name: str, other: str) -> str:
    """Why a name is not the club's, and which club may be meant."""
    if same_name(name, [other]):
        return f"No club is called {shown(name)}: the sheet writes {shown(other)}, to the letter"
    return f"No club is called {shown(name)}; the nearest name is {shown(other)}"


def line_repairs(fields: list[str], sheet: Sheet) -> Iterator[Candidate]:
    """What a refused `line` record was meant to be."""
    if len(fields) > 2 and all(number_of(part) for part in fields[1:]):
        yield Candidate("each line has a record of its own",
                        [line_text("line", part) for part in dict.fromkeys(fields[1:])])
    numbers = re.findall(r"\d+", fields[1]) if len(fields) == 2 else []
    if numbers and number_of(fields[1]) is None:
        yield Candidate("a line is one number: how many places count, like 4 for the first four",
                        [line_text("line", numbers[-1])])
    if numbers and number_of(fields[1]) in sheet.lines:
        yield Candidate("this line is there already, and can be left out")
    most = len(sheet.clubs) - 1
    if numbers and number_of(fields[1]) == 0:
        yield Candidate(f"a line says how many places count, from 1 to {most}: 1 is the first "
                        "place", is_told_alone=True)
    elif numbers and number_of(fields[1]) is not None:
        yield Candidate(f"with {most + 1} clubs a line is a number from 1 to {most}: the first "
                        f"{most + 1} places hold every club. To see who is last, write "
                        f"`line,{most}` and look for `lost`", is_told_alone=True)


def season_repairs() -> Iterator[Candidate]:
    """What a refused `season` record was meant to be."""
    yield Candidate("`season` has no fields: the year goes into the league's name", ["season"])


def ended_score(fields: list[str]) -> list[str]:
    """The fields with a score that stood in one field, like 5-1, taken apart."""
    parts: list[str] = []
    for number, part in enumerate(fields):
        found = SCORE.match(part) if number > 1 else None
        parts.extend(found.groups() if found else [part])
    return parts


def goals_of(text: str) -> int | None:
    """The goals that a field was meant to hold, like `2.0`, `+2`, `3*` or `(2)`, or none."""
    found = re.match(r"^[+(\s]*(\d{1,3})(?:[.,]0*)?[)*\s]*$", text)
    goals = int(found.group(1)) if found else MOST_GOALS + 1
    return goals if goals <= MOST_GOALS else None


def fixtures_named(home: str, away: str, sheet: Sheet) -> list[int]:
    """The numbers of the fixtures of these two, by their names or nearly."""
    names = [club.name for club in sheet.clubs]
    first = home if home in names else same_name(home, names) or nearest_name(home, names)
    second = away if away in names else same_name(away, names) or nearest_name(away, names)
    return [fixture.number for fixture in sheet.fixtures
            if (fixture.home, fixture.away) == (first, second)]


def open_among(numbers: list[int], season: Season) -> list[int]:
    """Those of the fixtures that have no score."""
    return [number for number in numbers if number not in season.scores]
