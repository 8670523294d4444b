"""One league in the shapes in which people have it: a double round of twenty clubs, the first 34
rounds with scores, as tables, cross tables and texts of several makers, as they are and as pasted.
"""

from __future__ import annotations

import datetime
import random
from dataclasses import dataclass

CLUBS = ("1. FC Köln", "Schalke 04", "Saint-Étienne", "Nott'm Forest", "Brighton & Hove Albion",
         "São Bento", "A. C. Vale", "Real Harbour", "Dock United", "Manchester City FC",
         "Manchester United FC", "Hannover 96", "Málaga CF", "Anchor FC", "Beacon Town",
         "Tern Rovers", "Gull Park Rangers", "Inter Quay", "Sport Ebb e Maré", "Lighthouse")
PLAYED_ROUNDS = 34
FIRST_DAY = datetime.date(2023, 8, 12)


@dataclass(frozen=True)
class Game:
    """A match of the league; `score` is none if it is to come."""

    round: int
    day: datetime.date
    home: str
    away: str
    score: tuple[int, int] | None

    def goals(self, sign: str, other: str) -> str:
        """The score with this sign between, or what stands for an open match."""
        return f"{self.score[0]}{sign}{self.score[1]}" if self.score else other


def games_of(clubs: tuple[str, ...] = CLUBS, played_rounds: int = PLAYED_ROUNDS,
             seed: int = 28) -> list[Game]:
    """The matches of a double round, one round a week, by the circle method."""
    draw = random.Random(seed)
    names, rounds = list(clubs), []
    for number in range(len(clubs) - 1):
        pairs = [(names[at], names[-1 - at]) for at in range(len(names) // 2)]
        rounds.append(pairs if number % 2 else [pair[::-1] for pair in pairs])
        names.insert(1, names.pop())
    rounds += [[pair[::-1] for pair in pairs] for pairs in rounds]
    games = []
    for number, pairs in enumerate(rounds, 1):
        day = FIRST_DAY + datetime.timedelta(days=7 * (number - 1))
        for home, away in pairs:
            score = (draw.choice((0, 0, 1, 1, 2, 3, 4)), draw.choice((0, 0, 1, 1, 2, 3)))
            games.append(Game(number, day, home, away, score if number <= played_rounds else None))
    return games


def wanted_sheet(games: list[Game], name: str, clubs: tuple[str, ...] = CLUBS) -> list[str]:
    """The records that a sheet of these matches has, in order."""
    return ([f"league,{name},9", *(f"club,{club},1" for club in clubs)]
            + [f"match,{game.home},{game.away}" for game in games] + ["line,1", "season"])


def wanted_feed(games: list[Game]) -> list[str]:
    """The records that a feed of the played matches has, in order."""
    return [f"result,{number},{game.score[0]},{game.score[1]}"
            for number, game in enumerate(games, 1) if game.score]


def football_data(games: list[Game], code: str = "E0") -> bytes:
    """The file of a season so far: a mark in front, CR LF, and columns of half time and odds."""
    heads = ("Div,Date,Time,HomeTeam,AwayTeam,FTHG,FTAG,FTR,HTHG,HTAG,HTR,Referee,HS,AS,HST,AST,HF,"
             "AF,HC,AC,HY,AY,HR,AR,B365H,B365D,B365A")
    rows = [heads]
    for game in games:
        if game.score:
            home, away = game.score
            word = "H" if home > away else "A" if away > home else "D"
            rows.append(f"{code},{game.day:%d/%m/%Y},15:00,{game.home},{game.away},{home},{away},"
                        f"{word},0,0,D,A Tern,12,9,5,4,10,11,6,3,1,2,0,0,1.8,3.6,4.5")
    return b"\xef\xbb\xbf" + "".join(row + "\r\n" for row in rows).encode("utf-8")


def football_data_fixtures(games: list[Game], code: str = "E0") -> bytes:
    """The file of matches to come of the same maker."""
    rows = ["Div,Date,Time,HomeTeam,AwayTeam,Referee,B365H,B365D,B365A"]
    rows += [f"{code},{game.day:%d/%m/%Y},15:00,{game.home},{game.away},,2.1,3.3,3.4"
             for game in games if not game.score]
    return b"\xef\xbb\xbf" + "".join(row + "\r\n" for row in rows).encode("utf-8")


def openfootball_old(games: list[Game], title: str = "Coast League 2023/24") -> bytes:
    """A text of openfootball with the score between the names."""
    lines = [f"= {title}", ""]
    for game in games:
        if f"Matchday {game.round}" not in lines:
            lines += ["", f"Matchday {game.round}", f"[{game.day:%a %b/}{game.day.day} "
                                                    f"{game.day.year}]"]
        middle = f"{game.goals('-', '')} (0-0)" if game.score else "-"
        lines.append(f"  15.00  {game.home:<22}  {middle}  {game.away}")
    return "".join(line + "\n" for line in lines).encode("utf-8")


def openfootball_new(games: list[Game], title: str = "Coast League 2023/24") -> bytes:
    """A text of openfootball with the score after the names."""
    lines = [f"= {title}", "", f"# Teams      {len({game.home for game in games})}", ""]
    for game in games:
        if f"▪ Matchday {game.round}" not in lines:
            lines += ["", f"▪ Matchday {game.round}",
                      f"  {game.day:%a %b/}{game.day.day} {game.day.year}"]
        lines.append(f"    15.00  {game.home:<24}v {game.away:<24}"
                     f"{game.goals('-', '')}{' (0-0)' if game.score else ''}".rstrip())
    return "".join(line + "\n" for line in lines).encode("utf-8")


def copied_text(games: list[Game]) -> bytes:
    """The same as it is copied from a page: without a title, the date on a line of its own."""
    lines = []
    for game in games:
        if f"Matchday {game.round}" not in lines:
            lines += [f"Matchday {game.round}", f"{game.day:%A} {game.day.day} {game.day:%B %Y}"]
        lines.append(f"{game.home}  {game.goals('-', 'v')}  {game.away}")
    return "".join(line + "\n" for line in lines).encode("utf-8")


def tabbed(games: list[Game]) -> bytes:
    """Tabs with a row of heads, `3:1` in one column."""
    lines = ["Matchday\tDate\tHome\tAway\tResult"]
    lines += [f"{game.round}\t{game.day}\t{game.home}\t{game.away}\t{game.goals(':', '')}"
              for game in games]
    return "".join(line + "\n" for line in lines).encode("utf-8")


def german(games: list[Game]) -> bytes:
    """A German spreadsheet: semicolons, Windows-1252, goals in two columns."""
    lines = ["Datum;Heim;Gast;Tore Heim;Tore Gast"]
    lines += [f"{game.day:%d.%m.%Y};{game.home};{game.away};{game.goals(';', ';')}"
              for game in games]
    return "".join(line + "\r\n" for line in lines).encode("cp1252")


def headless(games: list[Game], mark: str) -> bytes:
    """Tabs without heads, the score between the names, and a mark where a match is open."""
    lines = [f"{game.day:%d.%m.%Y}\t{game.home}\t{game.goals(' : ', mark)}\t{game.away}"
             for game in games]
    return "".join(line + "\n" for line in lines).encode("utf-8")


def fixture_download(games: list[Game]) -> bytes:
    """The table of fixturedownload, with time and ground."""
    lines = ["Match Number,Round Number,Date,Location,Home Team,Away Team,Result"]
    lines += [f"{number},{game.round},{game.day:%d/%m/%Y} 15:00,The Quay 1,{game.home},{game.away},"
              f"{game.goals(' - ', '')}" for number, game in enumerate(games, 1)]
    return "".join(line + "\r\n" for line in lines).encode("utf-8")


def american(games: list[Game]) -> bytes:
    """A table with the month in front, names and score in one column each."""
    lines = ["Date,Match,Score"]
    lines += [f"{game.day.month}/{game.day.day}/{game.day.year},{game.home} vs {game.away},"
              f"{game.goals('‑', 'TBD')}" for game in games]
    return "".join(line + "\n" for line in lines).encode("utf-8")


def cross_table(games: list[Game], sign: str = "\t", has_heads: bool = True) -> bytes:
    """The cross table of an encyclopedia, with three letters over each column."""
    clubs = sorted({game.home for game in games})
    codes = ["".join(sign for sign in club if sign.isalpha())[:3].upper() for club in clubs]
    scores = {(game.home, game.away): game.goals("–", "") for game in games}
    lines = [sign.join(["Home \\ Away", *codes])] if has_heads else []
    lines += [sign.join([home] + ["—" if home == away else scores[home, away] for away in clubs])
              for home in clubs]
    return "".join(line + "\n" for line in lines).encode("utf-8")


SHAPES = {
    "football-data, played and to come": lambda games: [football_data(games),
                                                        football_data_fixtures(games)],
    "football-data, to come and played": lambda games: [football_data_fixtures(games),
                                                        football_data(games)],
    "openfootball, old": lambda games: [openfootball_old(games)],
    "openfootball, new": lambda games: [openfootball_new(games)],
    "openfootball, copied": lambda games: [copied_text(games)],
    "tabs with heads": lambda games: [tabbed(games)],
    "semicolons in German": lambda games: [german(games)],
    "tabs without heads, - : -": lambda games: [headless(games, "- : -")],
    "tabs without heads, -": lambda games: [headless(games, "-")],
    "fixturedownload": lambda games: [fixture_download(games)],
    "months first, two names in a column": lambda games: [american(games)],
    "cross table": lambda games: [cross_table(games)],
    "cross table without heads, tabs": lambda games: [cross_table(games, "\t", False)],
    "cross table without heads, semicolons": lambda games: [cross_table(games, ";", False)],
    "cross table without heads, commas": lambda games: [cross_table(games, ",", False)],
    "a table in two halves, the second first": lambda games: [tabbed(games[190:]),
                                                              tabbed(games[:200])],
}
