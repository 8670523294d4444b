"""Several lists of one league, in any order: a match that stands in more than one of them counts
once, with the score that one of them has.
"""

from __future__ import annotations

import re
from collections import defaultdict
from dataclasses import replace

from . import common
from .dates import is_same_day
from .match_list import Match, MatchList
from .matches import read_matches, renamed
from .name_words import plain_form

FULL_DATE = re.compile(r"^\d{4}-\d{2}-\d{2}$")


def file_name(path: str) -> str:
    """What a file is called in messages."""
    return "standard input" if path == "-" else path


def read_lists(paths: list[str], aliases: dict[str, str] | None = None,
               days: str = "") -> MatchList:
    """The matches of all lists together; raises `Trouble` with what is wrong in any of them."""
    lists, wrong = [], []
    if paths.count("-") > 1:
        raise common.Trouble("standard input can be read once: give `-` once", common.BAD_WORDS)
    for path in paths:
        try:
            lists.append(read_matches(common.read_bytes(path), file_name(path), days=days))
        except common.Trouble as trouble:
            if trouble.status != common.TO_MEND or len(paths) == 1:
                raise
            wrong.append(trouble.message)
    if wrong:
        raise common.Trouble("\n".join(wrong))
    for found in lists:
        renamed(found, _meant(found, aliases or {}))
    return lists[0] if len(lists) == 1 else joined(lists)


def _meant(found: MatchList, aliases: dict[str, str]) -> dict[str, str]:
    """The names of a list that are aliases, with the clubs that they mean."""
    names = {name for match in found.matches for name in (match.home, match.away)}
    return {name: aliases[plain_form(name)] for name in names if plain_form(name) in aliases}


def joined(lists: list[MatchList]) -> MatchList:
    """The matches of all lists, by date where each has one, and otherwise as they stand."""
    whole = MatchList(title=next((found.title for found in lists if found.title), ""))
    matches: list[Match] = []
    wrong: list[str] = []
    for found in lists:
        whole.notes += found.notes
        whole.passed += found.passed
        whole.days = whole.days or found.days
        whole.groups = {**found.groups, **whole.groups}
        for head, values in found.divisions.items():
            for value, clubs in values.items():
                whole.note_division(head, value, clubs)
        waiting = defaultdict(list)
        for place, match in enumerate(matches):
            waiting[match.home, match.away].append(place)
        for match in found.matches:
            _take(matches, match, waiting[match.home, match.away], whole.notes, wrong)
    if wrong:
        raise common.Trouble("\n".join(wrong))
    if all(FULL_DATE.match(match.date) for match in matches):
        matches.sort(key=lambda match: match.date)
    whole.matches = matches
    return whole


def _take(matches: list[Match], match: Match, waiting: list[int], notes: list[str],
          wrong: list[str]) -> None:
    """Takes a match of a later list: a new one, or one of those that wait with these two names."""
    place = _same(matches, match, waiting)
    if place is None:
        matches.append(match)
        return
    waiting.remove(place)
    other = matches[place]
    if None not in (other.score, match.score) and other.score != match.score:
        wrong.append(f"{match.home} - {match.away} is {_score(other)} in {other.place}, and "
                     f"{_score(match)} in {match.place}. Take one of the two out")
        return
    if _are_of_other_days(match, other):
        notes.append(f"{match.home} - {match.away} is under {other.date} in {other.place} and "
                     f"under {match.date} in {match.place}; it was taken for one match")
    kept = match if match.score is not None and other.score is None else other
    matches[place] = replace(kept, date=_best_date(kept.date, other.date, match.date))


def _best_date(*dates: str) -> str:
    """The first of the dates that has its year; else the first that is one."""
    known = [date for date in dates if date]
    return next((date for date in known if FULL_DATE.match(date)), (known or [""])[0])


def _same(matches: list[Match], match: Match, waiting: list[int]) -> int | None:
    """The place of the match that is this one, if it stands already: of the same day, else one of
    which not both have a score under different days.
    """
    for place in waiting:
        if match.date and is_same_day(matches[place].date, match.date):
            return place
    for place in waiting:
        other = matches[place]
        has_both = None not in (match.score, other.score)
        if not (has_both and _are_of_other_days(match, other)):
            return place
    return None


def _are_of_other_days(first: Match, second: Match) -> bool:
    """Whether both matches have a date, and not the same."""
    return bool(first.date and second.date) and not is_same_day(first.date, second.date)


def _score(match: Match) -> str:
    return f"{match.score[0]}-{match.score[1]}" if match.score else "open"
