"""The step of a proof in which a rival can only end level with the club: whoever else is level with
the two, one of them is then on the other side of the club than was supposed.
"""

from __future__ import annotations

from itertools import combinations

from .levels import ALL_MATCHES, GOALS_FIRST, RECORD_OF_ALL, RECORD_OF_SOME, Ahead, Levels
from .proof_words import hold, is_are, names_of
from .standing import RECORD, TAIL
from .wording import counted, listed, match_text
from .zones import Zone

MOST_FREE = 8  # clubs that may be level or not
MOST_WAYS = 4  # ways to be level that are told one by one
NOUNS = {RECORD_OF_ALL: [name for name, _ in RECORD], RECORD_OF_SOME: [name for name, _ in RECORD],
         GOALS_FIRST: [name for name, _ in TAIL],
         ALL_MATCHES: [*(name for name, _ in TAIL), "fixed rank"]}


def level_text(zone: Zone, points: int, rival: int) -> str:
    """Why the club and the rival cannot both end on these points."""
    levels = Levels(zone, points, rival)
    text = (f"So {names_of(zone, [zone.club, rival])} can only end level, on "
            f"{counted(points, 'point')} each.")
    if not (levels.is_able(zone.club) and levels.is_able(rival)):
        return f"{text} One of them cannot have exactly as many."
    shut = levels.shut_match()
    if shut is not None:
        return f"{text} No score of {match_text(shut)} is left that allows it."
    hold(len(levels.free) <= MOST_FREE)
    ways = [Way(levels, rival, list(more)) for size in range(len(levels.free) + 1)
            for more in combinations(levels.free, size)]
    return f"{text} {_others_text(levels, rival)} {_ways_text(levels, ways)}"


def _others_text(levels: Levels, rival: int) -> str:
    """Who else is level with the two, and who can be."""
    sure, free = [club for club in levels.sure if club != rival], levels.free
    texts = []
    if sure:
        texts.append(f"{names_of(levels.zone, sure)} {is_are(sure)} level with them as well.")
    if free:
        texts.append(f"{names_of(levels.zone, free)} can be level with them too.")
    return " ".join(texts) or "No other club can be level with them."


class Way:
    """Some clubs that join those that are level, and one of all that is on the wrong side."""

    def __init__(self, levels: Levels, rival: int, more: list[int]) -> None:
        self.levels, self.more = levels, more
        self.group = [rival, *(club for club in [*levels.sure, *more] if club != rival)]
        reasons = {club: self._why(club) for club in self.group}
        self.wrong = next((club for club, why in reasons.items() if why), 0)
        hold(self.wrong > 0)
        self.why = reasons[self.wrong]

    def _why(self, club: int) -> Ahead | None:
        """Why a club of the group is on the wrong side; none if that is not sure."""
        levels, rest = self.levels, [it for it in self.group if it != club]
        if club in levels.zone.marked(False):
            return levels.why_ahead(club, levels.club, rest)
        if club in levels.zone.marked(True):
            return levels.why_ahead(levels.club, club, rest)
        return None

    @property
    def is_ahead(self) -> bool:
        """Whether that one is ahead of the club, and not behind it."""
        return self.wrong in self.levels.zone.marked(False)

    @property
    def side(self) -> str:
        """Who is on the wrong side."""
        zone = self.levels.zone
        wrong, club = names_of(zone, [self.wrong]), names_of(zone, [self.levels.club])
        if self.is_ahead:
            return f"{wrong} is ahead of {club} whatever happens elsewhere, though supposed not to be"
        return f"{wrong} is behind {club} whatever happens elsewhere, though supposed to be ahead"

    @property
    def text(self) -> str:
        """The same with the reason."""
        if self.why.lead is None:
            return "one of their matches has no score left that allows it"
        ahead = self.wrong if self.is_ahead else self.levels.club
        return f"{self.side}: {self._reason(names_of(self.levels.zone, [ahead]))}"

    def _reason(self, ahead: str) -> str:
        """The numbers by which a club is ahead, in turn."""
        where = {GOALS_FIRST: "over all matches", ALL_MATCHES: "over all matches",
                 RECORD_OF_ALL: self._among(""), RECORD_OF_SOME: self._among("any of ")}
        no_worse = [f"on goal difference and goals {where[it]}" if it == GOALS_FIRST else where[it]
                    for it in self.why.level if where[it]]
        nouns = NOUNS[self.why.where]
        at, number = next((at, it) for at, it in enumerate(self.why.lead) if it)
        amount = {"goal difference": f"a goal difference at least {number} better",
                  "fixed rank": "the better fixed rank"}.get(
                      nouns[at], f"at least {counted(number, nouns[at][:-1])} more")
        before = f"is no worse on {listed(nouns[:at])} and, if level there, " if at else ""
        text = f"{where[self.why.where]}, {'it' if no_worse else ahead} {before}has {amount}"
        return f"{ahead} is no worse {listed(no_worse)}, and {text}" if no_worse else text

    def _among(self, any_of: str) -> str:
        """The matches that count for a record; nothing if there are none."""
        clubs = sorted([self.levels.club, *self.group])
        if len(clubs) > 2:
            return f"in the matches among {any_of}{names_of(self.levels.zone, clubs)}"
        between = self.levels.between(*clubs)
        return f"in the {'match' if len(between) == 1 else 'matches'} of the two" if between else ""


def _ways_text(levels: Levels, ways: list[Way]) -> str:
    """In each way to be level, the club that is then on the wrong side."""
    texts = [way.text for way in ways]
    if len(set(texts)) == 1:
        return ("However that is, " if levels.free else "There ") + f"{texts[0]}."
    if len(ways) > MOST_WAYS:
        told = f"In each of the {len(ways)} ways in which they can be level, "
        wrong = [way.wrong for way in ways]
        if len(set(wrong)) == 1:
            return f"{told}{ways[0].side}."
        counts = [f"{names_of(levels.zone, [club])} in {wrong.count(club)}"
                  for club in dict.fromkeys(wrong)]
        return (f"{told}one of them is on the other side of {names_of(levels.zone, [levels.club])} "
                f"than was supposed, whatever happens elsewhere: {listed(counts)}.")
    free = names_of(levels.zone, levels.free)
    leads = [f"Without {free}"] + [
        f"With {names_of(levels.zone, way.more)}"
        + (" alone" if len(way.more) < len(levels.free) else "") for way in ways[1:]]
    return " ".join(f"{lead}, {text}." for lead, text in zip(leads, texts))
