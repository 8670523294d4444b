"""What a refused record of the feed was meant to be, as `repairs.py` has it for the sheet."""

from __future__ import annotations

from typing import Iterator

from .names import nearest_name, same_name, shown
from .records import number_of
from .repairs import (BETWEEN, Candidate, ended_score, fixtures_named, goals_of, is_date, line_text,
                      name_reason, without_dates)
from .texts import Season, Sheet


def score_repairs(fields: list[str], sheet: Sheet, season: Season) -> Iterator[Candidate]:
    """What a refused `result` or `fix` was meant to be."""
    apart = ended_score(fields)
    plain = [part for part in apart if not is_date(part)]
    if apart != fields:
        yield Candidate("the goals of home and away are two fields", [line_text(*apart)])
    yield from without_dates(fields)
    yield from _by_names(plain, sheet, season)
    if len(plain) < 4 and apart == fields:
        yield Candidate("the score is missing: leave the line out until the match was played")
    if len(plain) == 4:
        goals = [goals_of(part) for part in plain[2:]]
        if None not in goals:
            yield Candidate("goals are whole numbers from 0 to 99, without any other sign",
                            [line_text(*plain[:2], *goals)])
        if any(part in ("", "-", "x", "X", "?", "P", "tbd", "TBD", "n/a") for part in plain[2:]):
            yield Candidate("the score is missing: leave the line out until the match was played")
    if len(plain) > 4:
        yield Candidate("a result has a fixture and the two scores: what follows them (half time, "
                        "scorers) is left out", [line_text(*plain[:4])])
    if len(plain) == 4:
        yield from _known_already(plain, season)


def _known_already(fields: list[str], season: Season) -> Iterator[Candidate]:
    """A result of a match that has one, or a correction of a match that has none."""
    number = number_of(fields[1])
    goals = tuple(number_of(part) for part in fields[2:])
    score = season.scores.get(number)
    if fields[0] == "result" and score is not None and score == goals:
        yield Candidate(f"fixture {number} has this result already: this line can be left out")
    elif fields[0] == "result" and score is not None:
        yield Candidate(f"fixture {number} has a result already, {score[0]}:{score[1]}. To correct "
                        "it, write `fix`", [line_text("fix", *fields[1:])])
    elif fields[0] == "fix" and score is None:
        yield Candidate(f"fixture {number} has no result yet that could be corrected: write "
                        "`result`", [line_text("result", *fields[1:])])


def _by_names(fields: list[str], sheet: Sheet, season: Season) -> Iterator[Candidate]:
    """A score with the names of the clubs in place of the fixture's number."""
    kind, rest = fields[0], fields[1:]
    if rest and len(rest) == 3:
        parts = BETWEEN.split(rest[0])
        rest = parts + rest[1:] if len(parts) == 2 else rest
    if len(rest) != 4 or goals_of(rest[2]) is None or goals_of(rest[3]) is None:
        return
    numbers = fixtures_named(rest[0], rest[1], sheet)
    for number in numbers:
        fixture = sheet.fixture(number)
        reason = (f"a fixture goes by its number, and {fixture.home} - {fixture.away} is number "
                  f"{number} (`league feed` takes names)")
        is_played = number in season.scores
        if is_played and kind == "result" and len(numbers) == 1:
            yield Candidate(reason + ". It has a result already; to correct it, write `fix`",
                            [line_text("fix", number, *rest[2:])])
        yield Candidate(reason, [line_text(kind, number, *rest[2:])])
    turned = fixtures_named(rest[1], rest[0], sheet)
    if not numbers and turned:
        yield Candidate("a fixture goes by its number. These two do not meet in this order in the "
                        f"sheet; in the other order they are fixture {turned[0]}",
                        is_told_alone=True)


def void_repairs(fields: list[str], sheet: Sheet, season: Season) -> Iterator[Candidate]:
    """What a refused `void` was meant to be."""
    yield from without_dates(fields)
    number = number_of(fields[1]) if len(fields) > 1 else None
    if len(fields) > 2 and number is not None:
        yield Candidate("`void` has the fixture's number alone", [line_text("void", fields[1])])
    if len(fields) == 3:
        numbers = [found for found in fixtures_named(fields[1], fields[2], sheet)
                   if found in season.scores]
        if len(numbers) == 1:
            yield Candidate("a fixture goes by its number", [line_text("void", numbers[0])])
    if number is not None and 1 <= number <= len(sheet.fixtures) and number not in season.scores:
        yield Candidate(f"fixture {number} has no result, so there is nothing to annul: a match "
                        f"that "
                        "is postponed or not yet played has no line. This line can be left out")


def when_repairs(fields: list[str], sheet: Sheet, season: Season) -> Iterator[Candidate]:
    """What a refused `when` was meant to be."""
    yield from without_dates(fields)
    names = BETWEEN.split(fields[1]) if len(fields) == 2 else fields[1:]
    if len(names) == 2:
        numbers = [found for found in fixtures_named(names[0], names[1], sheet)
                   if found not in season.scores]
        if len(numbers) == 1:
            yield Candidate("a fixture goes by its number", [line_text("when", numbers[0])])
    if len(fields) > 2 and number_of(fields[1]) is not None:
        yield Candidate("`when` has the fixture's number alone", [line_text("when", fields[1])])


def deduct_repairs(fields: list[str], sheet: Sheet) -> Iterator[Candidate]:
    """What a refused `deduct` was meant to be."""
    names = [club.name for club in sheet.clubs]
    kept = [part for part in fields if not is_date(part)]
    if len(kept) < 3:
        return
    name, points = kept[1], kept[2]
    reasons = [] if len(kept) == len(fields) else ["The record has no field for a date"]
    if number_of(name) is not None and number_of(points) is None:
        name, points = points, name
        reasons.append("The club comes first, then the points")
    other = name if name in names else same_name(name, names) or nearest_name(name, names)
    number = number_of(name)
    if other is None and number is not None and 1 <= number <= len(names):
        other = names[number - 1]
        reasons.append("A deduction names the club, and a number is no name; club "
                       f"{number} of the sheet is {shown(other)}")
    elif other is not None and other != name:
        reasons.append(name_reason(name, other))
    if points.startswith(("-", "−", "–", "+")):
        points = points[1:].strip()
        reasons.append("The points taken away are written without a sign")
    if other is not None and reasons:
        yield Candidate(". ".join(reasons), [line_text("deduct", other, points)])


def ask_repairs() -> Iterator[Candidate]:
    """What a refused `ask` was meant to be."""
    yield Candidate("`ask` has no fields: each ask answers for every line and club", ["ask"])
