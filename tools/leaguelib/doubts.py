"""What the program takes without a word, and what is yet likely a mistake."""

from __future__ import annotations

import re
from collections import Counter
from dataclasses import dataclass
from typing import Iterator

from .cup_words import cup_doubts
from .name_words import plain_form, tidy
from .names import shown
from .sheet_dates import NEW_DATE
from .texts import Entry, Season, Sheet

MANY_GOALS = 15


@dataclass(frozen=True)
class Doubt:
    """A sentence on something that looks wrong, and its line; 0 if it is about the whole.

    What is minor is told only if nothing is refused.
    """

    line: int
    message: str
    is_minor: bool = False


def sheet_doubts(sheet: Sheet, is_for_table: bool = False) -> Iterator[Doubt]:
    """What looks wrong in a sheet; for the table alone no line is needed."""
    yield from name_doubts(sheet)
    if sheet.is_cup:
        yield from _group_doubts(sheet)
        return
    if not sheet.lines and not is_for_table:
        yield Doubt(0, "the sheet has no `line`, so `verdicts` has nothing to say. Write "
                       "`line,1` for "
                       "the first place, `line,4` for the first four")
    if not sheet.fixtures:
        yield Doubt(0, "the sheet has no `match`: there is nothing to play for")
        return
    yield from pair_doubts(sheet)


def _group_doubts(cup: Sheet) -> Iterator[Doubt]:
    """What looks wrong in a cup, and within each of its groups."""
    yield from (Doubt(0, message) for message in cup_doubts(cup))
    for group in cup.groups:
        for doubt in pair_doubts(group) if group.fixtures else ():
            yield Doubt(doubt.line, f"group {shown(group.name)}: {doubt.message}")


def name_doubts(sheet: Sheet) -> Iterator[Doubt]:
    """Names with spaces at their ends, and names that look alike."""
    forms: dict[str, str] = {}
    for club in sheet.clubs:
        if tidy(club.name) != club.name:
            yield Doubt(0, f"the name {shown(club.name)} begins or ends with a space. It belongs "
                           f"to "
                           "the name, and every match has to write it so")
        form = plain_form(club.name)
        if form in forms:
            yield Doubt(0, f"{shown(forms[form])} and {shown(club.name)} are two clubs to the "
                           f"program, "
                           "though their names look alike. Is it one club?")
        forms.setdefault(form, club.name)


def meetings(sheet: Sheet) -> tuple[Counter, Counter]:
    """How often each pair meets, whoever is at home; and how often in each order."""
    directed = Counter((fixture.home, fixture.away) for fixture in sheet.fixtures)
    pairs: Counter = Counter()
    for (home, away), number in directed.items():
        pairs[tuple(sorted((home, away)))] += number
    return pairs, directed


def pair_doubts(sheet: Sheet) -> Iterator[Doubt]:
    """Pairs that meet more or less often than the others."""
    names = [club.name for club in sheet.clubs]
    pairs, directed = meetings(sheet)
    every = [tuple(sorted((names[i], names[k])))
             for i in range(len(names)) for k in range(i + 1, len(names))]
    usual, frequency = Counter(pairs[pair] for pair in every).most_common(1)[0]
    most = f"{'most' if 2 * frequency > len(every) else 'many'} pairs of clubs meet {times(usual)}"
    fewer = [pair for pair in every if pairs[pair] < usual]
    more = [pair for pair in every if pairs[pair] > usual]
    if fewer:
        yield Doubt(0, f"{most}, and these meet less often: "
                       f"{some_pairs(fewer)}. Is a match missing?")
    if more:
        yield Doubt(_last_line(sheet, more[0]), f"{most}, and these meet more often: "
                       f"{some_pairs(more)}. Is a match listed twice?")
    if usual % 2 == 0 and not fewer and not more:
        uneven = [pair for pair in every if directed[pair] != directed[pair[::-1]]]
        if uneven:
            yield Doubt(0, "with the same club at home each time: " + some_pairs(uneven)
                           + ". Are home and away exchanged in one of them?")
    yield from _club_doubts(sheet)


def _last_line(sheet: Sheet, pair: tuple[str, str]) -> int:
    """The line of the last match between two clubs."""
    return max(fixture.line for fixture in sheet.fixtures
               if {fixture.home, fixture.away} == set(pair))


def _club_doubts(sheet: Sheet) -> Iterator[Doubt]:
    """Clubs that play more or fewer matches than most."""
    played = Counter({club.name: 0 for club in sheet.clubs})
    for fixture in sheet.fixtures:
        played[fixture.home] += 1
        played[fixture.away] += 1
    usual, frequency = Counter(played.values()).most_common(1)[0]
    if 2 * frequency <= len(played):
        numbers = [f"{name} {number}" for name, number in played.items()]
        yield Doubt(0, "the clubs have different numbers of matches in the sheet: " + some(numbers))
        return
    others = [f"{name} {number}" for name, number in played.items() if number != usual]
    if others:
        matches = "1 match" if usual == 1 else f"{usual} matches"
        yield Doubt(0, f"most clubs have {matches} in the sheet; others have another number: "
                       f"{some(others)}")


def times(number: int) -> str:
    """A number of times in words."""
    words = {0: "never", 1: "once", 2: "twice"}
    return words.get(number, f"{number} times")


def some(texts: list[str]) -> str:
    """The first few of the texts, and how many more there are."""
    more = f" and {len(texts) - 6} more" if len(texts) > 6 else ""
    return "; ".join(texts[:6]) + more


def some_pairs(pairs: list[tuple[str, str]]) -> str:
    """The first few of the pairs."""
    return some([f"{home} - {away}" for home, away in pairs])


def feed_doubts(sheet: Sheet, entries: list[Entry], question: str = "ask") -> Iterator[Doubt]:
    """What looks wrong in a feed whose mode answers an `ask`, a `when`, or nothing ("")."""
    asks = [entry for entry in entries if entry.kind == question]
    has_report = bool(entries) and entries[-1].kind == "proofs"
    entries = entries[:-1] if has_report else entries
    if question and not asks:
        written = "`ask`" if question == "ask" else "`when` with the number of an open match"
        yield Doubt(0, f"the feed has no `{question}`, so the program answers nothing. Write "
                       f"{written} as the last line")
    elif question == "ask" and entries[-1].kind != "ask":
        yield Doubt(entries[-1].line, "what comes after the last `ask` is never answered. Write "
                                      "`ask` again at the end")
    yield from _goal_doubts(sheet, entries)
    season = Season()
    for entry in entries:
        yield from _event_doubts(season, entry)
        season.apply(entry)


def day_doubts(data: bytes, sheet: Sheet) -> Iterator[Doubt]:
    """New dates that nothing goes by, since they are written in another way or of no match."""
    for number, raw in enumerate(data.split(b"\n"), 1):
        line = raw.decode("utf-8", "replace").rstrip("\r")
        if not re.match(r"#\s*new date\b", line, re.IGNORECASE):
            continue
        found = NEW_DATE.match(line)
        if found is None or not 1 <= int(found.group(1)) <= len(sheet.fixtures):
            yield Doubt(number, "this new date counts for nothing: one is written like `# new date: "
                                "57,2026-05-13`, with the number of a match, or by `league feed`")


def _goal_doubts(sheet: Sheet, entries: list[Entry]) -> Iterator[Doubt]:
    """A goal limit below the results played, and results with very many goals."""
    played = [entry for entry in entries if entry.kind in ("result", "fix")]
    if not played:
        return
    top = max(played, key=lambda entry: max(entry.score))
    goals = max(top.score)
    if goals > sheet.goal_limit:
        yield Doubt(top.line, f"a side has scored {goals} goals, and the goal limit is "
                              f"{sheet.goal_limit}: every verdict takes it that no side scores "
                              f"more "
                              f"than {sheet.goal_limit} in an open match. Is it meant so low?")
    for entry in played:
        if max(entry.score) >= MANY_GOALS:
            yield Doubt(entry.line, f"{max(entry.score)} goals: is that the score?")


def _event_doubts(season: Season, entry: Entry) -> Iterator[Doubt]:
    """An event that changes nothing, and a deduction that may have been meant on top of another."""
    if entry.kind == "fix" and season.scores.get(entry.fixture) == entry.score:
        yield Doubt(entry.line, f"fixture {entry.fixture} has this score already: the correction "
                                "changes nothing")
    if entry.kind == "deduct":
        before = season.deductions.get(entry.club, 0)
        if before and entry.points:
            yield Doubt(entry.line, f"{entry.club} had {before} points deducted before. `deduct` "
                                    f"says "
                                    f"how many are deducted in all: {entry.points} from now on, "
                                    f"and "
                                    f"not {before + entry.points}")
