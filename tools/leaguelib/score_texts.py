"""What stands in the place of a score: goals, what marks a match as open, and what is after it."""

from __future__ import annotations

import re
from dataclasses import dataclass

from .dates import MONTHS, folded
from .name_words import DASHES, SPACES

GOALS = r"(0|[1-9]\d?)\s?[-:x]\s?(0|[1-9]\d?)"
SCORE = re.compile(r"^" + GOALS + r"(?![\d:-])\s*")
HALF_TIME = re.compile(r"^[(\[]?\s*(?:ht:?\s*)?\d{1,2}\s?[-:]\s?\d{1,2}"
                       r"(?:\s*[,;/]\s*\d{1,2}\s?[-:]\s?\d{1,2})*\s*[)\]]?$")
FOOTNOTE = re.compile(r"(?:\[[a-z0-9 ]{1,6}\]|[*†‡])+$")
WALKOVER = re.compile(r"(?:(?<=\s)|^)(?:([+x])\s?[:-]\s?[-–—−0]|[-–—−0]\s?[:-]\s?[+x])(?=\s|$)",
                      re.IGNORECASE)
CLOCK = re.compile(r"^(?:[01]?\d|2[0-3])[:.h][0-5]\d(?:\s?(?:uhr|hs?|[ap]m))?$")
SPREADSHEET = re.compile(r"^(?:\d{1,2}[-. /]+(?:%s)[a-z]*\.?(?:[-. /]+\d{2,4})?|(?:%s)[a-z]*"
                         r"[-. /]+\d{1,4}|\d{1,2}[./]\d{1,2}[./]\d{2,4}|\d{4}-\d{2}-\d{2}.*)$"
                         % (("|".join(MONTHS),) * 2))
NO_SIGNS = frozenset(("", "-", ":", "--", "-:-", "- : -", "- -", "v", "vs", "v.", "vs.", "x"))
ODD_SIGNS = frozenset(("?", "?:?", "?-?", "? : ?", "? - ?", "*", "*:*", ".", "...", "…", "x:x",
                       "x-x", "_", "_:_"))
OPEN_WORDS = frozenset((
    "postp postponed ppd pp p-p p psp abd aban abandoned aba susp suspended canc cancelled canceled"
    " can c-c a-a s-s r-r rescheduled delayed n/a na nan none null tbd tba tbc verl verlegt "
    "abgesagt abges ausgefallen ausgef abgebrochen abbr annulliert apl aplazado suspendido "
    "cancelado pospuesto rep reporte remis annule rinv rinviata sospesa annullata adiado adiada "
    "cancelada interrompido int fixture sched scheduled").split()) | {"not played", "kick off"}
AFTER_TIME = frozenset("aet a.e.t nv n.v dts d.t.s ap a.p prorroga prol".split())
PENALTIES = frozenset("pen pens pso p.s.o ne n.e ie i.e dcr d.c.r tab t.a.b gp".split())
AWARDED = frozenset("awd awarded wo w/o w.o walkover wertung wert gew forfeit forf forfait tapis "
                    "tav tavolino s.v".split()) | {"a tavolino", "tap. verde", "tap verde",
                                                  "tapis vert", "by forfeit", "par forfait"}
FINISHED = frozenset("ft full-time fulltime ended finished final beendet end fin".split())
GOAL_DASH = re.compile(rf"(?<=[\d?])(\s?)[{re.escape(DASHES)}](?=\s?[\d?])")
MARK = r"(?:%s)\.?" % "|".join(sorted(map(re.escape, AFTER_TIME | PENALTIES | AWARDED | FINISHED),
                                      key=len, reverse=True))
MINUTE = (r"(?:\d{1,3}(?:\s?\+\s?\d{1,2})?\s?(?:['’‘′´`]|min(?:s|utes?)?\b\.?)"
          r"(?:\s?\+\s?\d{1,2}\s?['’‘′´`]?)?|\d{2,3}\+\d{1,2})")
BREAK = (r"(?:half[- ]?time|h\.?/?t\.?|halbzeit|hz|mi-temps|descanso|interval?lo|live|in[- ]play|"
         r"(?:1st|2nd|first|second)[- ]half)")
RUNNING = re.compile(
    rf"\s*(?:[(\[]\s*(?:{MINUTE}|\d{{1,3}}\.|{BREAK})\s*[)\]]"
    rf"|(?:^|(?<=\s)){MINUTE}(?=[\s:,]|$):?"
    rf"|(?:^|(?<=\s)){BREAK}(?:\s*$|:(?=\s)|(?=\s+\d{{1,2}}\s?[-:]\s?\d{{1,2}}\s*$))"
    rf"|^(?:half[- ]?time|ht)(?=\s)|(?<=\d)\s+(?!live){BREAK}(?=\s+[^\W\d]))", re.IGNORECASE)


PARTS = re.compile(r"\([^)]*\)|\[[^\]]*\]|(?:%s)(?=\s|$)|[^\s()\[\]]+" % "|".join(
    re.escape(word) for word in sorted(AWARDED) if " " in word), re.IGNORECASE)
LEADING = re.compile(r"^(%s)\.?:?\s+(\d.*)$" % "|".join(sorted(map(re.escape, AWARDED), key=len,
                                                               reverse=True)))


@dataclass(frozen=True)
class Told:
    """What a place for a score tells: the goals, if any, and what has to be said about it.

    `why` says why it cannot be read; nothing if it can. `word` is what marks a match as open,
    `in_play` the goals so far of one that has not ended, and `winner` the side, `home` or `away`,
    to which the match was awarded without a score.
    """

    score: tuple[int, int] | None = None
    remark: str = ""
    why: str = ""
    word: str = ""
    in_play: tuple[int, int] | None = None
    winner: str = ""


def running_mark(text: str) -> tuple[str, str]:
    """What says that a match is in play, like 67' or HT, and the text without it.

    What stands among scorers in brackets says nothing of the match.
    """
    for found in RUNNING.finditer(text):
        front = text[:found.start()]
        if front.count("(") == front.count(")"):
            return found.group().strip(" :"), f"{front} {text[found.end():].lstrip(':')}".strip()
    return "", text


def still_running(told: Told, mark: str) -> Told:
    """What is told of a match in play: its goals so far are no result."""
    if told.why or told.score is None:
        return told if told.why else Told(word=mark)
    home, away = told.score
    return Told(word=mark, remark=f"{home}-{away} is a score in play and no result",
                in_play=told.score)


def plain_signs(text: str) -> str:
    """The text with plain spaces, and with a hyphen for every dash between two goals."""
    spaced = "".join(" " if sign in SPACES[2:6] or sign in "\u2002\u2003\u2009\u200a" else sign
                     for sign in text if sign not in SPACES[6:])
    return GOAL_DASH.sub(r"\1-", spaced)


def read_score(text: str) -> Told:
    """What a field for a score tells."""
    line = FOOTNOTE.sub("", folded(plain_signs(text)).strip()).strip()
    mark, rest = running_mark(line)
    if mark and SCORE.match(rest) and len(re.findall(GOALS, rest)) == 1:
        return still_running(read_score(rest), mark)
    line = "".join("-" if sign in DASHES else sign for sign in line)
    line = line.replace("∶", ":").replace("：", ":")
    if line in NO_SIGNS:
        return Told()
    awarded = WALKOVER.fullmatch(line.strip("()[] "))
    if awarded:
        return Told(winner="home" if awarded.group(1) else "away")
    line = LEADING.sub(r"\2 \1", line)
    if is_clock(line):
        return Told(word=text.strip(), remark="a time of day")
    if line in ODD_SIGNS or line.strip(".()[] ") in OPEN_WORDS:
        return Told(word=text.strip())
    found = SCORE.match(line)
    if not found:
        return Told(why=_why_no_score(line))
    score = (int(found.group(1)), int(found.group(2)))
    return with_marks(score, line[found.end():])


def with_marks(score: tuple[int, int], rest: str) -> Told:
    """A score with what stands after it: half time, extra time, a word on how it came about."""
    remark = ""
    for part in PARTS.findall(rest):
        word = mark_of(part)
        if HALF_TIME.match(part) or word == "finished":
            continue
        if word == "penalties":
            return Told(why="there are penalties with the score: write only the score that counts "
                            "in the league")
        if word == "open":
            return Told(word=part, remark=f"{score[0]}-{score[1]} is no result")
        if word == "extra time":
            remark = "after extra time"
        elif word == "awarded":
            remark = "awarded"
        else:
            return Told(why=f"what follows the score is not understood: `{part}`")
    return Told(score, remark)


def mark_of(text: str) -> str:
    """What a mark says: `extra time`, `penalties`, `awarded`, `finished`, `open`, or nothing."""
    word = folded(text).strip("()[]*., ")
    for words, meaning in ((AFTER_TIME, "extra time"), (PENALTIES, "penalties"),
                           (AWARDED, "awarded"), (FINISHED, "finished"), (OPEN_WORDS, "open")):
        if word in words:
            return meaning
    return ""


def is_clock(text: str) -> bool:
    """Whether a text is a time of day and no score: 15:00, 20:45, 9:10.

    03:00 is none, since it may be a 3:0 of which a spreadsheet has made a time.
    """
    found = CLOCK.match(text.strip())
    if not found:
        return False
    hours, minutes = re.findall(r"\d+", text)[:2]
    return (int(hours) > 8 and int(minutes) % 5 == 0) or bool(re.search(r"[a-z]", text))


def _why_no_score(line: str) -> str:
    """Why a text is no score."""
    if SPREADSHEET.match(line):
        return ("this is a date: a spreadsheet makes one of a score like 2-1. Format the column "
                "as text and type the score again")
    if CLOCK.match(line) or re.match(r"^\d{1,2}:\d{2}:\d{2}$", line):
        return ("this is a time of day: a spreadsheet makes one of a score like 3:0. Format the "
                "column as text and type the score again")
    if re.match(r"^\d{3,}", line) or re.match(r"^\d+\s?[-:x]\s?\d{3,}", line):
        return "goals are whole numbers from 0 to 99"
    if re.match(r"^\d{1,2}\s?[-:]?$", line) or re.match(r"^[-:]\s?\d{1,2}$", line):
        return "the goals of one side are missing"
    if re.search(r"\d\s?[-:]\s?\d.*\d\s?[-:]\s?\d", line) or re.match(r"^\d+-\d+-", line):
        return "this is more than one score"
    return "this is no score"


def read_goals(home: str, away: str) -> Told:
    """What the two fields for goals tell."""
    texts = [FOOTNOTE.sub("", plain_signs(part).strip()).strip() for part in (home, away)]
    if all(part == "" for part in texts):
        return Told()
    told = [read_score(part) for part in texts]
    awarded = WALKOVER.fullmatch(":".join("-" if part in DASHES else part for part in texts))
    if awarded:
        return Told(winner="home" if awarded.group(1) else "away")
    goals = [re.match(r"^(\d{1,2})(?:[.,]0*)?$", part) for part in texts]
    if all(goals):
        return Told((int(goals[0].group(1)), int(goals[1].group(1))))
    if all(not one.why and one.score is None for one in told):
        return Told(word=next((one.word for one in told if one.word), ""))
    if any(goals) and any(part == "" or not one.why for part, one in zip(texts, told)):
        return Told(why="the goals of one side are missing")
    return Told(why="goals are whole numbers from 0 to 99")
