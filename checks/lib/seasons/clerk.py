"""A clerk of a league of 16 clubs: exports a list each week, types rulings, and reckons the table
alone, from what really happened.
"""

from __future__ import annotations

import csv
import io
from collections import defaultdict
from dataclasses import replace
from pathlib import Path

from leaguechecks.counting import PROGRAM, Counter, called, said, sound_end
from leaguechecks.shapes import Game, cross_table, games_of, german, tabbed

CLUBS = ("FC Rot-Weiß Söll", "1. FC Überlingen", "SpVgg Größenbach", "TSV Weiß-Blau 04",
         "SV Müller & Söhne", "FC Šumperk", "TJ Žamberk", "Åkarp IF", "Olympique Châteauneuf",
         "L'Étoile d'Évreux", "Ørsted BK", "Gyori ETO II", "Atlético Almería B", "FC São João",
         "Queens Park Rangers", "Tottenham Hotspur")
ROUNDS = 30


class Clerk:
    """The files of a season, the list as the spreadsheet has it, and what really stands.

    `listed` and `stands` have scores by the number of a match, from 1; `off` the points taken off.
    """

    def __init__(self, folder: Path, counter: Counter) -> None:
        self.counter = counter
        self.sheet, self.feed = folder / "sheet.csv", folder / "feed.csv"
        self.list = folder / "list.csv"
        self.games = games_of(CLUBS, ROUNDS)
        self.listed: dict[int, tuple[int, int]] = {}
        self.stands: dict[int, tuple[int, int]] = {}
        self.off: dict[str, int] = defaultdict(int)
        self.waiting: set[int] = set()
        self.things = 0
        self.week = 0

    def begin(self) -> None:
        """Makes the sheet of all matches, none of them played."""
        self.list.write_bytes(tabbed([replace(game, score=None) for game in self.games]))
        run = called("sheet", self.list, "--name", "Season", "--lines", "1,4,13", "--order",
                     "overall_first", "-o", self.sheet)
        self.counter.check("season: the sheet", sound_end(run) + (
            [] if self.sheet.is_file() else [run.stderr.decode()]))

    def number(self, home: int, away: int) -> int:
        """The number of the match of two clubs, by their places in CLUBS."""
        return next(number for number, game in enumerate(self.games, 1)
                    if (game.home, game.away) == (CLUBS[home], CLUBS[away]))

    def names(self, number: int, between: str = "-") -> str:
        """A match as a person types it."""
        game = self.games[number - 1]
        return f"{game.home} {between} {game.away}"

    def play(self, week: int) -> None:
        """Plays the matches of a round that do not wait for another day, and lists them."""
        self.week = week
        for number, game in enumerate(self.games, 1):
            if game.round == week and number not in self.waiting and number not in self.stands:
                self.listed[number] = self.stands[number] = game.score

    def shown(self) -> list[Game]:
        """The list as the spreadsheet has it."""
        return [replace(game, score=self.listed.get(number))
                for number, game in enumerate(self.games, 1)]

    def export(self) -> bytes:
        """The list of the week, each time in another form."""
        forms = (tabbed, german, lambda games: cross_table(games, ";"),
                 lambda games: tabbed(games).decode("utf-8").encode("utf-16"))
        return forms[self.week % len(forms)](self.shown())

    def feeds(self, name: str, data: bytes | None = None, *more: str, status: int = 0,
              says: str = "") -> None:
        """Feeds a list, that of the week if no other is given; it ends and says as is wanted."""
        self.list.write_bytes(self.export() if data is None else data)
        run = called("feed", self.sheet, self.list, "--log", self.feed, "--append", "--ask", *more)
        self.counter.check(f"season, week {self.week}: {name}", sound_end(run) + said(
            run, status, says) + (
                [] if len(run.stderr.splitlines()) <= 12 else ["more than twelve lines"]))

    def types(self, name: str, line: str, status: int = 0, says: str = "") -> None:
        """Types a ruling; one that is refused changes nothing."""
        self.things += 1
        before = self.feed.read_bytes()
        self.feeds(name, (line + "\n").encode("utf-8"), status=status, says=says)
        is_same = self.feed.read_bytes() == before
        self.counter.check(f"season, week {self.week}: {name}, what is written",
                           [] if is_same or status != 2 else ["something"])

    def tonight(self) -> set[int]:
        """The matches that come next."""
        run = called("tonight", self.sheet, self.feed, "--program", PROGRAM, "--rows")
        return {int(row.split(",")[2]) for row in run.stdout.decode("utf-8").splitlines()
                if row.startswith("when,")}

    def looks(self) -> None:
        """Compares the table of futmax with that of the season as it stands."""
        run = called("table", self.sheet, self.feed, "--program", PROGRAM, "--rows")
        rows = list(csv.reader(io.StringIO(run.stdout.decode("utf-8"))))
        last = [row for row in rows if row[0] == "place"][-len(CLUBS):]
        found = {row[3]: tuple(map(int, row[4:])) for row in last}
        wanted = reckoned(self)
        faults = [f"{club}: {found.get(club)}, and not {wanted[club]}" for club in CLUBS
                  if found.get(club) != wanted[club]]
        order = [(points, *rest) for _, points, *rest in (found[row[3]] for row in last)]
        self.counter.check(f"season, week {self.week}: the table", sound_end(run) + faults + (
            [] if order == sorted(order, reverse=True) else ["the order of the places"]))


def reckoned(clerk: Clerk) -> dict[str, tuple[int, ...]]:
    """Matches, points, goal difference and goals of each club, added up."""
    sums = {club: [0, -clerk.off[club], 0, 0] for club in CLUBS}
    for number, (home, away) in clerk.stands.items():
        game = clerk.games[number - 1]
        for club, own, other in ((game.home, home, away), (game.away, away, home)):
            sums[club][0] += 1
            sums[club][1] += 3 if own > other else 1 if own == other else 0
            sums[club][2] += own - other
            sums[club][3] += own
    return {club: tuple(values) for club, values in sums.items()}
