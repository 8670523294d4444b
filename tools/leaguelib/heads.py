"""The heads of tables of matches in six languages, and which column they make of each."""

from __future__ import annotations

import re
import unicodedata
from dataclasses import dataclass, field

HOME = frozenset(
    "dom loc home hometeam homeclub homename hometeamname homeside team1 teama club1 heim "
    "heimmannschaft heimteam heimverein heimelf gastgeber mannschaft1 verein1 local equipolocal "
    "equipo1 locales anfitrion domicile equipedomicile equipeadomicile adomicile recevant "
    "receveur hote equipe1 casa incasa squadracasa squadradicasa squadraincasa squadra1 "
    "padronidicasa mandante timemandante equipamandante timedacasa timecasa equipacasa "
    "equipadacasa visitado visitada equipavisitada time1 equipa1".split())
AWAY = frozenset(
    "ext vis away awayteam awayclub awayname awayteamname awayside visitor visitors "
    "visitingteam team2 teamb club2 gast gastmannschaft gastteam gastverein auswarts auswaerts "
    "auswartsmannschaft auswaertsmannschaft auswartsteam auswaertsteam gaste gaeste mannschaft2 "
    "verein2 visitante visitantes equipovisitante equipo2 forastero exterieur equipeexterieur "
    "equipeaexterieur equipealexterieur alexterieur aexterieur visiteur visiteurs "
    "equipevisiteuse equipe2 ospite ospiti squadraospite trasferta intrasferta fuoricasa "
    "squadraintrasferta squadratrasferta squadra2 fora timevisitante equipavisitante timedefora "
    "timefora equipafora forasteiro time2 equipa2".split())
PAIR = frozenset("match fixture game teams spiel begegnung paarung spielpaarung partie partido "
                 "encuentro partita incontro gara rencontre affiche jogo partida".split())
SCORE = frozenset(
    "ft score result results ftscore ftresult finalscore fulltime fulltimescore fulltimeresult "
    "ergebnis endergebnis endstand resultat resultatfinal scorefinal resultado resultadofinal "
    "marcador marcadorfinal placar risultato risultatofinale punteggio tore goals goles gols "
    "buts reti".split())
GOALS = ("ft goals goal score tore tor goles gol gols golos golo reti rete buts but result "
         "ergebnis resultat resultado risultato marcador placar g").split()
PAIRS_ALONE = (("hg", "ag"), ("ht", "gt"), ("gl", "gv"), ("gh", "ga"), ("h", "a"), ("g1", "g2"))
DATE = frozenset("date matchdate gamedate datum spieldatum fecha dia data datapartita jour giorno "
                 "kickoffdate dateutc".split())
KNOWN = frozenset(
    "time uhrzeit zeit anstoss anstosszeit anpfiff kickoff kickofftime ko hora horario heure ora "
    "orario uk localtime round roundnumber roundno matchday md gameweek gw week wk wknd spieltag "
    "runde st jornada journee giornata rodada ronda tour div division league competition "
    "wettbewerb liga season saison temporada stagione epoca country land group gruppe grupo gruppo "
    "groupe stage phase fase venue stadium ground location city ort stadion spielort spielstatte "
    "estadio stade lieu stadio arena cidade ville citta referee schiedsrichter arbitro arbitre "
    "attendance zuschauer publico affluence spettatori day weekday wochentag tag status notes note "
    "notiz bemerkung tv channel sender matchnumber matchno matchid gameid number nr no num id "
    "spielnummer spielnr index link url report matchreport".split())
DIVISIONS = frozenset("div division league liga competition".split())
GROUPS = frozenset("group gruppe grupo gruppo groupe girone poule".split())
SEASONS = frozenset("season saison temporada stagione epoca".split())
# what bookmakers offer, as football-data has it after the matches
ODDS = re.compile(r"^(?:b365|bw|bfe?d?|bmgm|bv|cl|lb|ps?|wh|1xb|iw|vc|max|avg|gb|bs|sb|sj|sy|so|"
                  r"bb(?:mx|av)?)c?(?:[hda]|25|ahh?|aha)$|^(?:bb)?ahc?h?$|^bb\w{2,5}$")


@dataclass
class Columns:
    """Which column has what, counted from 0; -1 where none does.

    `scores` are all columns of scores, `lone` those of the goals of one side alone, `unknown` those
    with a head that is none of these, or with none, and `others` those that are known to be others.
    """

    home: int = -1
    away: int = -1
    pair: int = -1
    date: int = -1
    goals: tuple[int, int] = (-1, -1)
    scores: list[int] = field(default_factory=list)
    lone: list[int] = field(default_factory=list)
    unknown: list[int] = field(default_factory=list)
    others: list[int] = field(default_factory=list)

    @property
    def has_names(self) -> bool:
        """Whether both clubs have a column."""
        return (self.home >= 0 and self.away >= 0) or self.pair >= 0

    @property
    def has_score(self) -> bool:
        """Whether a score has a column, or two."""
        return bool(self.scores) or self.goals[0] >= 0


def plain_head(text: str) -> str:
    """A head in small letters and digits, without accents."""
    opened = unicodedata.normalize("NFKD", text.replace("ß", "ss"))
    return re.sub(r"[^a-z0-9]", "", opened.lower())


def columns_of(heads: list[str]) -> Columns:
    """The columns of a row of heads."""
    plain = [plain_head(head) for head in heads]
    found = Columns(_first(plain, HOME), _first(plain, AWAY))
    if found.home < 0 and found.away < 0:
        found.pair = _first(plain, PAIR)
    taken = {found.home, found.away, found.pair}
    found.date = _first(plain, DATE, taken)
    found.goals = _goal_columns(plain, taken) if found.home >= 0 and found.away >= 0 else (-1, -1)
    taken |= {found.date, *found.goals}
    for number, head in enumerate(plain):
        if number in taken or ODDS.match(head) or head in SEASONS:
            continue
        kind = (found.scores if head in SCORE else found.others if head in KNOWN | DATE else
                found.lone if head in LONE_HEADS else found.unknown)
        kind.append(number)
    return found


def _first(heads: list[str], wanted: frozenset[str], taken: set[int] = frozenset()) -> int:
    """The first column with one of these heads, or -1."""
    return next((number for number, head in enumerate(heads)
                 if head in wanted and number not in taken), -1)


def _goal_heads() -> list[tuple[frozenset[str], frozenset[str]]]:
    """Pairs of heads made of a word for goals and one for a side, `Tore Heim` and `HomeGoals`."""
    sides = (HOME | {"1", "h"}, AWAY | {"2", "a"})
    pairs = [(frozenset(("fthg", "homegoalsft", "homescoreft")),
              frozenset(("ftag", "awaygoalsft", "awayscoreft")))]
    for word in GOALS:
        first, second = (frozenset({word + side for side in names} |
                                   {side + word for side in names}) for names in sides)
        pairs.append((first, second))
    return pairs + [(frozenset((first,)), frozenset((second,))) for first, second in PAIRS_ALONE]


GOAL_HEADS = _goal_heads()
LONE_HEADS = frozenset().union(*(names for pair in GOAL_HEADS[:len(GOALS) + 1] for names in pair))


def _goal_columns(heads: list[str], taken: set[int]) -> tuple[int, int]:
    """The columns of the goals of home and away, or -1 twice; a second `Home, Away` is goals."""
    for first, second in [*GOAL_HEADS, (HOME, AWAY)]:
        places = (_first(heads, first, taken), _first(heads, second, taken))
        if -1 not in places:
            return places
    return (-1, -1)


def is_head_row(cells: list[str]) -> bool:
    """Whether the cells are a row of heads of a table of matches."""
    plain = [plain_head(cell) for cell in cells]
    if not any(head in HOME or head in PAIR for head in plain):
        return False
    columns = columns_of(cells)
    if columns.home >= 0 and columns.away >= 0:
        return True
    others = [plain_head(cell) in DATE | SCORE | KNOWN for cell in cells]
    return columns.pair >= 0 and any(others)


def missing_side(cells: list[str]) -> str:
    """What to say where the cells have a head for one side alone; nothing if they have not."""
    columns = columns_of(cells)
    others = [plain_head(cell) in DATE | SCORE | KNOWN for cell in cells]
    if (columns.home < 0) == (columns.away < 0) or (not any(others) and not columns.has_score):
        return ""
    side, wanted = ("away", "AwayTeam, Away, Gast, Visitante, Extérieur, Ospite or Fora") if (
        columns.away < 0) else (
        "home", "HomeTeam, Home, Heim, Local, Domicile, Casa or Mandante")
    return (f"the heads are {', '.join(cell.strip() for cell in cells)}, and none of them is for "
            f"the {side} side. Call its column one of {wanted}")
