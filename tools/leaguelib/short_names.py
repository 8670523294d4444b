"""Short names that everybody knows, like Spurs and QPR. One is taken only where exactly one club of
the sheet can be meant; `league names` shows them and adds others.
"""

from __future__ import annotations

import re

from .name_words import (CLUB_WORDS, OTHER_TEAMS, core_words, is_short_for, plain_form, words_in)

# the short name, and after the sign the names by which the club may stand in a sheet
TABLE = """\
barca = Barcelona
atleti = Atlético Madrid, Atlético de Madrid
real = Real Madrid
la real = Real Sociedad
betis = Real Betis
depor = Deportivo La Coruña
spurs = Tottenham Hotspur
wolves = Wolverhampton Wanderers
gunners = Arsenal
hammers = West Ham United
toffees = Everton
saints = Southampton
magpies = Newcastle United
foxes = Leicester City
baggies = West Bromwich Albion
west brom = West Bromwich Albion
qpr = Queens Park Rangers
wba = West Bromwich Albion
whu = West Ham United
mufc = Manchester United
mcfc = Manchester City
man u = Manchester United
mk dons = Milton Keynes Dons
sheff utd = Sheffield United
sheff wed = Sheffield Wednesday
boro = Middlesbrough
pompey = Portsmouth
owls = Sheffield Wednesday
blades = Sheffield United
hearts = Heart of Midlothian
hibs = Hibernian
gers = Rangers
bvb = Borussia Dortmund, Dortmund
gladbach = Borussia Mönchengladbach, Mönchengladbach
bmg = Borussia Mönchengladbach, Mönchengladbach
hertha = Hertha BSC, Hertha Berlin
vfb = VfB Stuttgart, Stuttgart
effzeh = 1. FC Köln
hsv = Hamburger SV, Hamburg
fcn = 1. FC Nürnberg
fck = 1. FC Kaiserslautern
juve = Juventus
inter = Internazionale, Inter Milan
milan = AC Milan
samp = Sampdoria
viola = Fiorentina
psg = Paris Saint-Germain, Paris SG
om = Olympique de Marseille, Olympique Marseille, Marseille
ol = Olympique Lyonnais, Olympique Lyon, Lyon
asse = Saint-Étienne, AS Saint-Étienne
losc = Lille
sporting = Sporting CP, Sporting Lisbon
benfica = SL Benfica
ajax = Ajax Amsterdam
psv = PSV Eindhoven
az = AZ Alkmaar
brugge = Club Brugge
gala = Galatasaray
fener = Fenerbahçe
bjk = Beşiktaş
flu = Fluminense
fla = Flamengo
galo = Atlético Mineiro
boca = Boca Juniors
river = River Plate
usa = United States
uae = United Arab Emirates
holland = Netherlands
drc = DR Congo
"""
INITIALS = re.compile(r"^[^\W\d_](?:\.?[^\W\d_]){1,5}\.?$")


def _known_names() -> dict[str, tuple[str, ...]]:
    """The names of clubs by the plain form of a short name."""
    rows = [line.split(" = ") for line in TABLE.splitlines()]
    return {plain_form(short): tuple(full.split(", ")) for short, full in rows}


KNOWN = _known_names()


def is_well_known(typed: str, name: str) -> bool:
    """Whether the table of short names has the typed one for a club, of whose name and that of the
    table one begins the other: Rangers is not Queens Park Rangers, nor Paris FC Paris
    Saint-Germain.
    """
    return any(not (OTHER_TEAMS & set(words_in(name))) and (
        _begins(core_words(full), core_words(name)) or _begins(words_in(name), words_in(full)))
        for full in KNOWN.get(plain_form(typed), ()))


def _begins(words: list[str], longer: list[str]) -> bool:
    """Whether the words are the first of the others, or short for them."""
    return len(words) <= len(longer) and all(map(is_short_for, words, longer))


def has_initials(typed: str, name: str) -> bool:
    """Whether the name has these initials: of all words, without words like FC, or with these
    whole, as in FCB and HSV.
    """
    letters = typed.replace(".", "")
    return bool(INITIALS.match(typed)) and letters.isupper() and letters in initials_of(name)


def initials_of(name: str) -> list[str]:
    """The initials of a name in capitals, in each of these forms, the shortest first."""
    words = [word for word in words_in(name) if word != "&"]
    whole = "".join(word if word in CLUB_WORDS else word[0] for word in words)
    forms = {"".join(word[0] for word in some) for some in (words, core_words(name))} | {whole}
    others = CLUB_WORDS | OTHER_TEAMS
    return sorted((form.upper() for form in forms if len(form) > 1 and form not in others),
                  key=len) if len(words) > 1 else []
