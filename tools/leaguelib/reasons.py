"""Short reasons for a decided place, as a person gives them: the final table, points alone, clubs
that cannot pass, matches that rivals play against each other, clubs that can be level at the most.

The program decided; this looks for words. Each reason is added up once more over the matches
(`zones.py`) before it is told, and not told where the sum does not hold. That the criteria decide
between level clubs follows from the verdict.
"""

from __future__ import annotations

from dataclasses import dataclass
from itertools import combinations

from .answers import Place
from .texts import Season, Sheet
from .wording import counted, listed, shown
from .zones import Zone

MOST_IN_A_SET = 3
MOST_NAMED = 5


@dataclass(frozen=True)
class Reason:
    """A reason in words, its kind, and the sums on which it rests.

    `rivals` are those that are sure by their points alone; `together` the clubs of whom one is sure
    by the matches between them. `bound` is what they have to reach or to pass.
    """

    kind: str
    text: str
    bound: int = 0
    rivals: tuple[str, ...] = ()
    together: tuple[str, ...] = ()


class Points:
    """Points now, at most and at least of each club and of sets of clubs, from the matches."""

    def __init__(self, sheet: Sheet, season: Season) -> None:
        self.sheet = sheet
        self.zone = Zone(sheet, season, 1)
        self.open = season.open_fixtures(sheet)
        self.now = {club.name: self.zone.points_now(club.number) for club in sheet.clubs}
        self.left = {name: sum(name in (it.home, it.away) for it in self.open) for name in self.now}
        self.most = {name: now + 3 * self.left[name] for name, now in self.now.items()}

    def between(self, clubs: tuple[str, ...]) -> int:
        """How many open matches these clubs play among themselves."""
        return sum(it.home in clubs and it.away in clubs for it in self.open)

    def least_together(self, clubs: tuple[str, ...]) -> int:
        """The fewest points that these clubs can have together: a draw in each of their matches."""
        return sum(self.now[club] for club in clubs) + 2 * self.between(clubs)

    def most_together(self, clubs: tuple[str, ...]) -> int:
        """The most: all matches won, and one of two where they meet."""
        return sum(self.most[club] for club in clubs) - 3 * self.between(clubs)

    def holds(self, clubs: tuple[str, ...], most: bool, wanted: int) -> bool:
        """Whether the matches, score by score, come to the same sum."""
        numbers = [self.sheet.club_named(club).number for club in clubs]
        return self.zone.points(numbers, most) == wanted

    def text(self, club: str) -> str:
        """What a club has, and what it can still get."""
        if not self.left[club]:
            return f"{shown(club)} ends on {counted(self.now[club], 'point')}"
        return (f"{shown(club)} has {counted(self.now[club], 'point')} and "
                f"{counted(self.left[club], 'match', 'matches')} to play: at most "
                f"{self.most[club]}")


def short_reason(points: Points, table: list[Place], club: str, places: int,
                 is_in: bool) -> Reason | None:
    """The shortest reason that holds; none where it takes more than adding up."""
    if not points.open:
        return _final(table, club, places, is_in)
    reason = _in_reason(points, club, places) if is_in else _out_reason(points, club, places)
    return reason if reason is not None and _adds_up(points, reason, club, is_in) else None


def _final(table: list[Place], club: str, places: int, is_in: bool) -> Reason | None:
    """All is played: the table tells it, however lots are drawn."""
    row = next(place for place in table if place.club == club)
    if (row.worst <= places) != is_in or (row.best > places) == is_in:
        return None
    place = f"place {row.best}" if row.best == row.worst else (
        f"place {row.best} to {row.worst}, as lots decide,")
    return Reason("final", f"All matches are played, and {shown(club)} is in {place} with "
                           f"{counted(row.points, 'point')}.")


def _out_reason(points: Points, club: str, places: int) -> Reason | None:
    """Enough rivals have more points than the club can still get."""
    most = points.most[club]
    ahead = sorted((rival for rival in points.now if points.now[rival] > most),
                   key=lambda rival: -points.now[rival])
    if len(ahead) >= places:
        chosen = tuple(ahead[:places])
        text = f"{points.text(club)}. {_ahead_text(points, chosen)}"
        return Reason("points", text, most, chosen)
    found = _set_above(points, ahead, club) if len(ahead) == places - 1 else None
    text = f"{points.text(club)}. " + (f"{_ahead_text(points, tuple(ahead))} " if ahead else "")
    if found is None:
        level = [rival for rival in points.now if points.now[rival] == most and rival != club]
        if len(ahead) + len(level) < places:
            return None
        text += f"{listed([shown(rival) for rival in level])} {_has(level)} as many already. "
        return Reason("level", text + _level_text("out", club), most, (*ahead, *level))
    text += _above_text(points, found, most, bool(ahead))
    return Reason("matches_between", text, most, tuple(ahead), found)


def _ahead_text(points: Points, clubs: tuple[str, ...]) -> str:
    """Clubs that have more points already."""
    if len(clubs) > MOST_NAMED:
        first, last = clubs[0], clubs[-1]
        return (f"{len(clubs)} clubs have more already, from {shown(first)} with "
                f"{points.now[first]} down to {shown(last)} with {points.now[last]}.")
    names = listed([f"{shown(club)} ({points.now[club]})" for club in clubs])
    return f"{names} {_has(list(clubs))} more already."


def _set_above(points: Points, ahead: list[str], club: str) -> tuple[str, ...] | None:
    """Rivals of whom one at least passes the club, since their matches give them too much."""
    rivals = [rival for rival in points.now if rival != club and rival not in ahead]
    bound = points.most[club]
    for size in range(2, MOST_IN_A_SET + 1):
        for clubs in combinations(rivals, size):
            if points.between(clubs) and points.least_together(clubs) > size * bound:
                return clubs
    return None


def _above_text(points: Points, clubs: tuple[str, ...], most: int, is_one_more: bool) -> str:
    """Why one of these clubs ends with more points."""
    now, between = sum(points.now[club] for club in clubs), points.between(clubs)
    names = listed([f"{shown(club)} ({points.now[club]})" for club in clubs])
    matches = "match between them gives" if between == 1 else f"{between} matches between them give"
    return (f"Of {names} one at least gets more{' too' if is_one_more else ''}: they have {now} "
            f"points together, and the {matches} them at least {2 * between} more, a point each "
            f"for a draw. That is {points.least_together(clubs)}, and without one above {most} "
            f"they would have {len(clubs) * most} at most.")


def _in_reason(points: Points, club: str, places: int) -> Reason | None:
    """Enough rivals cannot get as many points as the club has."""
    now, wanted = points.now[club], len(points.now) - places
    behind = sorted((rival for rival in points.now if points.most[rival] < now),
                    key=lambda rival: points.most[rival])
    if len(behind) >= wanted:
        chosen = tuple(reversed(behind if wanted > MOST_NAMED else behind[:wanted]))
        return Reason("points", _has_text(points, club) + _behind_text(points, chosen, now), now,
                      chosen)
    found = _set_below(points, behind, club) if len(behind) == wanted - 1 else None
    chosen = tuple(reversed(behind))
    if found is None:
        level = [rival for rival in points.now if points.most[rival] == now and rival != club]
        if len(behind) + len(level) < wanted:
            return None
        text = _has_text(points, club) + (_behind_text(points, chosen, now) + " " if chosen else "")
        text += f"{listed([shown(rival) for rival in level])} can get as many and no more. "
        return Reason("level", text + _level_text("in", club), now, (*chosen, *level))
    text = _has_text(points, club) + (_behind_text(points, chosen, now) + " " if chosen else "")
    text += _below_text(points, found, now, bool(chosen))
    return Reason("matches_between", text, now, chosen, found)


def _has(clubs: list[str]) -> str:
    return "has" if len(clubs) == 1 else "have"


def _level_text(word: str, club: str) -> str:
    """What the program's verdict says where points alone leave clubs level."""
    return f"If they end level, the criteria leave {shown(club)} {word}, whatever else happens."


def _has_text(points: Points, club: str) -> str:
    return f"{shown(club)} has {counted(points.now[club], 'point')}. "


def _behind_text(points: Points, clubs: tuple[str, ...], bound: int) -> str:
    """Clubs that cannot come up to these points; the best of them stands first."""
    size = len(points.now)
    if len(clubs) == size - 1:
        return (f"No other club can get more than {points.most[clubs[0]]} "
                f"({_sum_text(points, clubs[0])}).")
    if len(clubs) > MOST_NAMED:
        return (f"{len(clubs)} of the other {size - 1} clubs cannot get as many; the best of them "
                f"is {_sum_text(points, clubs[0])}.")
    names = listed([f"{shown(club)} (at most {points.most[club]})" for club in clubs])
    return f"{names} cannot get {bound}."


def _sum_text(points: Points, club: str) -> str:
    """A club with its points now and at most."""
    if not points.left[club]:
        return f"{shown(club)} with {points.now[club]}, with no match to play"
    return (f"{shown(club)} with {points.now[club]} and "
            f"{counted(points.left[club], 'match', 'matches')} to play, at most "
            f"{points.most[club]}")


def _set_below(points: Points, behind: list[str], club: str) -> tuple[str, ...] | None:
    """Rivals of whom one at least stays behind the club, since they take points off each other."""
    rivals = [rival for rival in points.now if rival != club and rival not in behind]
    bound = points.now[club]
    for size in range(2, MOST_IN_A_SET + 1):
        for clubs in combinations(rivals, size):
            if points.between(clubs) and points.most_together(clubs) < size * bound:
                return clubs
    return None


def _below_text(points: Points, clubs: tuple[str, ...], bound: int, is_one_more: bool) -> str:
    """Why one of these clubs stays below these points."""
    names = listed([f"{shown(club)} (at most {points.most[club]})" for club in clubs])
    most, between = sum(points.most[club] for club in clubs), points.between(clubs)
    cannot = "cannot either" if is_one_more else f"cannot get {bound}"
    return (f"Of {names} one at least {cannot}: they play "
            f"{counted(between, 'match', 'matches')} between them, in which not both can win, so "
            f"they get at most {points.most_together(clubs)} together, {3 * between} fewer than "
            f"{most}, and {bound} each would be {len(clubs) * bound}.")


def _adds_up(points: Points, reason: Reason, club: str, is_in: bool) -> bool:
    """Whether the sums of a reason hold, added up over the scores of the matches."""
    own = points.now[club] if is_in else points.most[club]
    sums = [((club,), not is_in, own)]
    sums += [((rival,), is_in, points.most[rival] if is_in else points.now[rival])
             for rival in reason.rivals]
    if reason.together:
        sums.append((reason.together, is_in, points.most_together(reason.together) if is_in
                     else points.least_together(reason.together)))
    return all(points.holds(*it) for it in sums)
