"""Matches in lines of text, among headings, dates and scorers: texts of openfootball, lines copied
from a page, and lines that were typed, like `Germany 5-1 Scotland` or `Germany - Scotland`.
"""

from __future__ import annotations

import re
from dataclasses import dataclass, replace

from .awards import plain_awards, without_walkover
from .dates import MONTH, TIME, WEEKDAY, front_date, with_year
from .match_list import Match, MatchList, Passed, Wrong
from .names import shown
from .score_texts import (GOALS, HALF_TIME, MARK, Told, is_clock, mark_of, plain_signs, read_score,
                          running_mark, still_running, with_marks)

ROUND_WORDS = (r"(?:matchday|match day|round|gameweek|game week|week|gw|md|day|spieltag|runde|"
               r"jornada|fecha|journée|giornata|rodada|ronda|tour)")
# no score between two names, but the days from 12 to 15 August may stand there
NO_SCORE = (r"(?!.*[^\W\d]\S*\s+\d{1,2}\s?[-:]\s?\d{1,2}\s+(?!" + MONTH + r")[^\W\d])")
HEADING = re.compile(
    r"^(=|▪|»|\|)"
    r"|^" + ROUND_WORDS + r"\s*(?:no\.?|nr\.?|n°|n\.)?\s*\d{1,2}\b"
    r"(?!\s*[-:]\s*\d{1,2}\s+[^\W\d])(?!.*\sv\s)" + NO_SCORE + r".*$"
    r"|^\d{1,2}\s?(?:\.|ª|º|°|a|e|re|ère|ème|er|st|nd|rd|th)?\s+" + ROUND_WORDS
    + r"\b(?!.*\sv\s)" + NO_SCORE + r".*$"
    r"|^(?:matchday|round|spieltag|jornada|giornata|journée|week|group|gruppe|grupo|groupe|girone|"
    r"regular|final|stage|phase|hinrunde|rückrunde)\b[^-–:]*(?:\|.*)?$",
    re.IGNORECASE)
SCORERS = re.compile(r"^(?!\(\d+\)\s)[\[(].*(\d'|;)")
BULLET = re.compile(r"^(?:\(\d+\)|[*•·])\s+")
MIDDLE_SCORE = re.compile(r"^(.+?)\s+" + GOALS + r"((?:\s+" + MARK + r"(?=\s)|\s+\([^)]*\))*)"
                          r"\s+([^\s(].*)$", re.IGNORECASE)
MIDDLE_OPEN = re.compile(r"^(.+?)\s+([-–—]\s?[:-]\s?[-–—]|[?*xX_]\s?[:-]\s?[?*xX_]|"
                         r"[PpCcAa]-[PpCcAa]|postp\.?|(?:[01]?\d|2[0-3]):[0-5]\d)\s+(.+)$")
NO_NAME = re.compile(r"\d\s?[-:]\s?\d|\s\d+\s+\d+$|\s(?:v|vs)\.?\s")
ZONE = re.compile(r"^(?:utc|gmt)[+-]?\d*$", re.IGNORECASE)
BRACKETS = re.compile(r"\s+(\([^()]*\)|\[[^\[\]]*\])$")
TWO_NAMES = re.compile(r"^(.+?)\s+(?:-|–|—|[vV][sS]?\.?)\s+(\S.*?)(?:\s+" + GOALS + r")?$")
CROSSED = re.compile(r"^(.+?)\s+[xX]\s+(\S.*?)(?:\s+" + GOALS + r")?$")
TIGHT = re.compile(r"^([^–—]*[^\s–—])[–—]([^\s–—][^–—]*?)(?:\s+" + GOALS + r")?$")
TAILS = re.compile(r"\s+(\([^()]*\)|\[[^\[\]]*\]|[-–—]\s?:\s?[-–—]|[?*_]\s?[:-]\s?[?*_]|\S+)$")
VENUE = re.compile(r"\s+@\s.*$")
MOST_TAILS = 6
HINT = ("A match is written like `Germany - Scotland` or `Germany 5-1 Scotland`, with or without "
        "a date before it. If the columns of a table have no heads, put a row above them like "
        "HomeTeam,AwayTeam,FTHG,FTAG.")


@dataclass(frozen=True)
class Parts:
    """A line taken apart: the match, what its score tells, and why it cannot be read, if so."""

    match: Match | None
    told: Told = Told()
    date: str = ""
    why: str = ""


def parts_of(line: str, is_month_first: bool = False) -> Parts:
    """The parts of a line; a line that is a date alone has no match and no reason."""
    rest = BULLET.sub("", plain_signs(line).strip())
    date = ""
    found = front_date(rest, is_month_first)
    if found:
        date, rest = found.date, found.rest
        if not TIME.sub("", rest):
            return Parts(None, date=date)
    rest = TIME.sub("", WEEKDAY.sub("", rest, count=1), count=1)
    winner, rest = without_walkover(plain_awards(rest))
    running, rest = running_mark(rest)
    body, marks = _without_tails(VENUE.sub("", rest).strip())
    match, between = _names_of(body)
    if match is None:
        return Parts(None, date=date, why=_why_no_match(rest))
    told = _told(match.score, between + marks)
    told = still_running(told, running) if running else told
    if told.why:
        return Parts(None, date=date, why=told.why)
    told = Told(winner=winner) if winner else told
    return Parts(replace(match, score=told.score, date=date, winner=winner), told, date)


def _without_tails(text: str) -> tuple[str, list[str]]:
    """The line without what may stand after names and score, and what stood there."""
    marks: list[str] = []
    for _ in range(MOST_TAILS):
        found = TAILS.search(text)
        if not found or not _is_tail(found.group(1)):
            break
        marks.insert(0, found.group(1))
        text = text[:found.start()].rstrip()
    return text, marks


def _is_tail(text: str) -> bool:
    """Whether a piece at the end of a line is none of the names."""
    inner = text.strip("()[]")
    if re.match(r"^[-–—?*_xX]\s?[:-]\s?[-–—?*_xX]$", text) or is_clock(text):
        return True
    if text[0] in "([":
        is_mark = bool(HALF_TIME.match(text) or mark_of(inner))
        return is_mark or text[0] == "[" or not inner.strip("-–—:?* ")
    is_word = mark_of(text) in ("extra time", "penalties", "awarded", "open")
    return is_word and (len(text.strip(".")) > 2 or "." in text or "/" in text)


def _names_of(body: str) -> tuple[Match | None, list[str]]:
    """The two names and the goals of a line, and the marks that stand between them."""
    found = MIDDLE_SCORE.match(body)
    if found and not is_clock(body[found.start(2):found.end(3)]):
        home, first, second, between, away = found.groups()
        return _match(home, away, (int(first), int(second)), re.findall(r"\([^)]*\)|\S+", between))
    found = MIDDLE_OPEN.match(body)
    if found:
        return _match(found.group(1), found.group(3), None, [found.group(2)])
    for form in (TWO_NAMES, CROSSED, TIGHT):
        found = form.match(body)
        if found:
            home, away, first, second = found.groups()
            score = None if first is None else (int(first), int(second))
            return _match(home, away, score, [])
    return None, []


def _match(home: str, away: str, score: tuple[int, int] | None,
           marks: list[str]) -> tuple[Match | None, list[str]]:
    """A match of two names, where both have a letter and no goals in them, and the marks."""
    names = []
    for name in (home, away):
        name = name.strip(" \t,;|")
        found = BRACKETS.search(name)
        if found and _is_tail(found.group(1)):
            name, marks = name[:found.start()], marks + [found.group(1)]
        names.append(name)
    if all(re.search(r"[^\W_]", name) and not NO_NAME.search(name) for name in names):
        return Match(*names, score), marks
    return None, []


def _told(score: tuple[int, int] | None, marks: list[str]) -> Told:
    """What goals and marks of a line tell together."""
    known = [mark for mark in marks if mark_of(mark) or HALF_TIME.match(mark)]
    if score is not None:
        return with_marks(score, " ".join(known))
    if any(mark_of(mark) in ("extra time", "penalties", "awarded") for mark in marks):
        return Told(why="the score is missing")
    bare = [read_score(mark) for mark in marks if re.match(r"^\d+:\d+$", mark)]
    if any(one.why for one in bare):
        return next(one for one in bare if one.why)
    if any(HALF_TIME.match(mark) and not is_clock(mark) for mark in marks):
        return Told(why="the only score is in brackets: is it half time? Write the score that "
                        "counts without brackets")
    told = [read_score(mark.strip("()[]")) for mark in marks]
    return next((one for one in told if one.word), Told())


def _why_no_match(text: str) -> str:
    """Why a line is no match."""
    if mark_of(text.split()[-1] if text.split() else "") in ("extra time", "penalties"):
        return "after extra time or penalties, and the two names cannot be told apart"
    goals = re.findall(r"(?<!\d)" + GOALS + r"(?!\d)", text)
    if len(goals) > 1:
        return "cannot be read as a match, since it has more than one score"
    if re.search(r"\d\s?[-:]\s?\d{3}|\d{3}\s?[-:]\s?\d", text):
        return "cannot be read as a match: goals are whole numbers from 0 to 99"
    return "cannot be read as a match"


def why_no_name(name: str, side: str) -> str:
    """What is wrong with a field for a name; nothing if it can be one."""
    if not name:
        return f"the {side} side's name is missing"
    if not re.search(r"[^\W\d_]", name):
        return f"{shown(name)} is no name of a club"
    found = NO_NAME.search(plain_signs(name))
    if not found:
        return ""
    what = "there is a score" if re.search(r"\d", found.group()) else "there are two names"
    return f"{what} in the {side} side's name"


def match_of_line(line: str, number: int = 0, date: str = "",
                  is_month_first: bool = False) -> Match | str | None:
    """The match of a line; the date where the line is one and nothing more; none if neither."""
    parts = parts_of(line, is_month_first)
    if parts.match is not None:
        return replace(parts.match, date=parts.date or date, line=number, text=line)
    return None if parts.why else parts.date


class LineReader:
    """Takes the lines of a text one by one; `found` has the matches so far."""

    def __init__(self, file: str, is_month_first: bool = False) -> None:
        self.found = MatchList(file=file)
        self.wrong = Wrong(file)
        self.is_month_first = is_month_first
        self.date = ""

    def take(self, number: int, whole: str) -> Match | None:
        """Takes a line, and gives its match, if it has one."""
        line = re.sub(r"\s+#.*$", "", whole).strip()
        if not line or line.startswith("#"):
            return None
        if line.startswith("=") and not self.found.title:
            self.found.title = line.strip("= ")
        if HEADING.match(line):
            self._pass("heading", number, whole)
            return None
        if SCORERS.match(line):
            self._pass("line of scorers", number, whole)
            return None
        return self._take_match(number, line, whole)

    def _take_match(self, number: int, line: str, whole: str) -> Match | None:
        """Takes a line that is a match, or a date, or cannot be read."""
        parts = parts_of(line, self.is_month_first)
        if parts.date:
            self.date = with_year(parts.date, self.date)
        if parts.match is None:
            if parts.why:
                self.wrong.add(number, parts.why, whole)
            else:
                self._pass("line with a date", number, whole)
            return None
        match = replace(parts.match, date=self.date, line=number, text=whole, file=self.found.file)
        note_told(self.found, parts.told, number, whole)
        self.found.add(match)
        return match

    def _pass(self, why: str, number: int, whole: str) -> None:
        self.found.passed.append(Passed(why, number, whole))


def note_told(found: MatchList, told: Told, number: int, line: str) -> None:
    """Notes what a place for a score told beside the goals."""
    if told.score is None and not told.winner:
        word = f" ({told.word})" if told.word else ""
        remark = f", {told.remark}" if told.remark and told.word else ""
        found.passed.append(Passed(f"match without a score{word}{remark}", number, line))
    elif told.remark == "after extra time":
        where = f"{found.file}, line {number}" if found.file else f"line {number}"
        found.notes.append(f"{where}: after extra time; the score was taken as it is. Check "
                           f"whether it counts so: {line.strip()}")


def read_lines(lines: list[str], file: str, is_month_first: bool) -> MatchList:
    """The matches of a text; raises `Trouble` with every line that is not understood."""
    reader = LineReader(file, is_month_first)
    for number, whole in enumerate(lines, 1):
        reader.take(number, whole)
    reader.wrong.refuse(HINT)
    return reader.found
