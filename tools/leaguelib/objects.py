"""Answers as JSON: one object a line, and one that closes each ask; docs/answer.schema.json."""

from __future__ import annotations

import json
import re
from dataclasses import dataclass, field
from typing import Iterator

from .answers import OUTCOMES, Example, Place, Score, Verdict
from .asking import Asked
from .line_names import LineNames, names_in
from .texts import Season, Sheet
from .wording import days_of

ISO_DATE = re.compile(r"^\d{4}-\d{2}-\d{2}$")


def line_of(value: dict) -> str:
    """An object as one line."""
    return json.dumps(value, ensure_ascii=False, separators=(",", ":")) + "\n"


@dataclass(frozen=True)
class Comments:
    """What comments of an input say: names of lines, and days of matches."""

    names: LineNames = field(default_factory=LineNames)
    days: dict[int, str] = field(default_factory=dict)

    def date_of(self, season: Season) -> dict:
        """The day of the last match played, as a member, where all days are known."""
        days = [self.days.get(number, "") for number in season.scores]
        return {"date": max(days)} if days and all(map(ISO_DATE.match, days)) else {}

    def name_of(self, places: int) -> dict:
        """What a line and those below it are called, as members, where they have names."""
        told = {"name": self.names.inside.get(places), "below": self.names.below.get(places)}
        return {key: _text(name) for key, name in told.items() if name}


def comments_in(data: bytes, sheet: Sheet) -> Comments:
    """The comments of an input."""
    return Comments(names_in(data), days_of(data, sheet))


def objects_of(sheet: Sheet, ask: Asked, has_finishes: bool = False,
               comments: Comments | None = None) -> Iterator[dict]:
    """The objects of one answer: its opening, one a row, and the one that closes it."""
    number, said = ask.position + 1, comments or Comments()
    season, answer = ask.season, ask.answer
    yield _opening(sheet, season, number, answer.epoch, said)
    for verdict in answer.verdicts:
        yield {**_verdict(sheet, number, verdict, has_finishes), **said.name_of(verdict.places)}
    for place in answer.table:
        yield _place(sheet, season, number, place)
    for score in answer.scores:
        yield {**_score(sheet, season, number, score), **said.name_of(score.places)}
    rows = len(answer.verdicts) + len(answer.table) + len(answer.scores)
    yield {"type": "end", "ask": number, "rows": rows, "unsettled": ask.unsettled,
           "budget": ask.budget}


def _opening(sheet: Sheet, season: Season, number: int, events: int, said: Comments) -> dict:
    return {"type": "ask", "ask": number, "events": events, "league": _text(sheet.name),
            "played": len(season.scores), "open": len(season.open_fixtures(sheet)),
            "goal_limit": sheet.goal_limit, "order": sheet.order, **said.date_of(season)}


def given_objects(evening) -> Iterator[dict]:
    """The objects of an evening: the opening of its ask, one a match, outcome, line and club, with
    the word now and the word given the outcome; and the one that closes it.
    """
    sheet, ask, rows = evening.sheet, evening.ask, 0
    said = Comments(evening.names, evening.days)
    yield next(objects_of(sheet, ask, comments=said))
    for fixture in evening.fixtures:
        for outcome in OUTCOMES:
            for (line, club), word in evening.given[fixture.number, outcome].items():
                rows += 1
                yield {"type": "given", "ask": ask.position + 1, "match": fixture.number,
                       "home": _text(fixture.home), "away": _text(fixture.away),
                       "outcome": outcome, "line": line, "club": _text(club),
                       "now": evening.now[line, club], "verdict": word, **said.name_of(line)}
    yield {"type": "end", "ask": ask.position + 1, "rows": rows, "unsettled": evening.unsettled,
           "budget": evening.budget}


def _text(name: str) -> str:
    """A name as JSON can hold it, whatever bytes are in it."""
    return name.encode("utf-8", "replace").decode("utf-8")


def _verdict(sheet: Sheet, number: int, verdict: Verdict, has_finishes: bool) -> dict:
    value = {"type": "verdict", "ask": number, "line": verdict.places,
             "club": _text(verdict.club), "verdict": verdict.word}
    if has_finishes:
        value["finishes"] = {claim: _finish(sheet, example)
                             for claim, example in verdict.examples.items()}
    return value


def _finish(sheet: Sheet, example: Example) -> dict:
    """A way in which the open matches can end, with the clubs in the order of the lots."""
    scores = [{"match": number, "home": _text(sheet.fixture(number).home),
               "away": _text(sheet.fixture(number).away), "home_goals": home, "away_goals": away}
              for number, (home, away) in sorted(example.scores.items())]
    return {"scores": scores,
            "lots": [_text(sheet.clubs[club - 1].name) for club in example.lots]}


def _place(sheet: Sheet, season: Season, number: int, place: Place) -> dict:
    return {"type": "place", "ask": number, "best": place.best, "worst": place.worst,
            "club": _text(place.club), "played": place.played, "points": place.points,
            "difference": place.difference, "goals": place.scored,
            "to_come": to_come(sheet, season, place.club)}


def reach_objects(sheet: Sheet, season: Season, position: int, found: list,
                  comments: Comments) -> Iterator[dict]:
    """The objects of the places that clubs can still reach: an opening, one a club, a close."""
    number = position + 1
    yield _opening(sheet, season, number, season.events, comments)
    for reach in found:
        yield {"type": "reach", "ask": number, "club": _text(reach.club), "best": reach.best,
               "worst": reach.worst, "best_sure": reach.is_best_sure,
               "worst_sure": reach.is_worst_sure}
    unsettled = sum(not (it.is_best_sure and it.is_worst_sure) for it in found)
    yield {"type": "end", "ask": number, "rows": len(found), "unsettled": unsettled,
           "budget": sheet.budget}


def to_come(sheet: Sheet, season: Season, club: str) -> int:
    """The points that a club can still win: three a match that is open."""
    return 3 * sum(club in (fixture.home, fixture.away)
                   for fixture in season.open_fixtures(sheet))


def _score(sheet: Sheet, season: Season, number: int, score: Score) -> dict:
    return {"type": "score", "ask": number, "line": score.places, "club": _text(score.club),
            "possible": range_of(score.possible), "guaranteed": range_of(score.guaranteed),
            "to_come": to_come(sheet, season, score.club)}


def range_of(text: str) -> dict | None:
    """A qualification score as a range of points, both ends with it; none for `none`."""
    if text == "none":
        return None
    least, _, most = text.partition("..")
    return {"least": int(least), "most": int(most or least)}
