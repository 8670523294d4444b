"""How lists are read: heads in six languages, dates, scores, marks of open matches, cross tables,
tables without heads, and what is said of a line that cannot be read.
"""

from __future__ import annotations

from leaguelib.common import Trouble
from leaguelib.dates import plain_date
from leaguelib.matches import read_matches

from .counting import Counter

# heads of home, away, goals of home, goals of away, date; and home, away, score
HEADS = (
    "HomeTeam,AwayTeam,FTHG,FTAG,Date", "Home,Away,HG,AG,Date", "Team 1,Team 2,Score1,Score2,Date",
    "Home Team,Away Team,Home Goals,Away Goals,Date", "Home,Away,Goals Home,Goals Away,Date",
    "Home,Away,Score Home,Score Away,Date", "Home,Away,FT Home,FT Away,Date",
    "Home,Away,Goals 1,Goals 2,Date", "Home,Away,H,A,Date", "Home,Away,Home,Away,Date",
    "Heim,Gast,Tore Heim,Tore Gast,Datum", "Heimmannschaft,Gastmannschaft,HT,GT,Datum",
    "Heim,Auswärts,Heimtore,Auswärtstore,Datum", "Gastgeber,Gäste,Tore 1,Tore 2,Spieldatum",
    "Local,Visitante,Goles local,Goles visitante,Fecha", "Local,Visitante,GL,GV,Fecha",
    "Equipo local,Equipo visitante,Marcador local,Marcador visitante,Fecha",
    "Domicile,Extérieur,Buts domicile,Buts extérieur,Jour",
    "Équipe domicile,Équipe extérieur,Score domicile,Score extérieur,Date",
    "Casa,Trasferta,Gol casa,Gol trasferta,Data",
    "Squadra di casa,Ospite,Reti casa,Reti ospite,Data",
    "Mandante,Visitante,Gols mandante,Gols visitante,Data",
    "Equipa casa,Equipa fora,Golos casa,Golos fora,Data",
    "Visitado,Visitante,Golos visitado,Golos visitante,Data",
)
HEADS_OF_ONE = (
    "Home,Away,Result", "HomeTeam,AwayTeam,FT", "Home,Away,Score", "Heim,Gast,Ergebnis",
    "Heim,Gast,Endstand", "Heim,Gast,Tore", "Local,Visitante,Resultado", "Local,Visitante,Marcador",
    "Domicile,Extérieur,Score", "Recevant,Visiteur,Résultat", "Casa,Ospite,Risultato",
    "Mandante,Visitante,Placar", "Visitado,Visitante,Resultado", "Home,Away,FT,Result",
)
PAIR_HEADS = ("Match,Result", "Begegnung,Ergebnis", "Partido,Resultado", "Rencontre,Score",
              "Partita,Risultato", "Jogo,Placar")
REFUSED_HEADS = (
    ("Home,Away,HS,AS\nA,B,2,1\n", "What is `2` under `HS` in line 2?"),
    ("Heim;Gast;Punkte\nA;B;2:1\n", "The heads are Heim, Gast, Punkte. What is `2:1` under "
                                    "`Punkte` in line 2? Heads for scores are FTHG and FTAG"),
    ("Home,Away\nA,B,2,1\n", "What is `2` without a head in line 2?"),
    ("Home,,Away\nA,2-1,B\n", "What is `2-1` without a head in line 2?"),
    ("Home,Away,FTHG\nA,B,2\n", "line 2: the goals of one side are missing"),
    ("Home,Away,Time\nA,B,2:1\n", "What is `2:1` under `Time` in line 2?"),
    ("Home,Away,Status\nA,B,FT 2-1\n", "What is `FT 2-1` under `Status` in line 2?"),
    ("Date,Home,Guests,FT\n1.8.2024,A,B,2-1\n", "none of them is for the away side"),
    ("Date,Hosts,Away,FT\n1.8.2024,A,B,2-1\n", "none of them is for the home side"),
)
SCORES = ("2-1", "2:1", "2–1", "2‑1", "2−1", " 2 - 1 ", "2 : 1", "2-1 (1-0)", "2:1 (1:0)", "2–1[a]",
          "2-1*", "2-1 FT", "2-1 (forfait)", "2:1 (s.V.)", "2-1 tavolino",
          "2-1 a tavolino", "2-1 tap. verde", "w.o. 2-1", "W/O 2:1", "forfait 2-1", "2-1 (Wertung)",
          "2-1[1]", "2 x 1", "2-1 awd.", "2-1 (awarded)", "2-1 (aet)", "2-1 n.V.")
OPEN = ("", "-", "–", "- : -", "-:-", "v", "vs", "P-P", "postp.", "Postponed", "abd", "?", "n/a",
        "TBD", "verlegt", "aplazado", "20:45", "15:00", "2-1 abandoned", "2-1 67'", "2-1 (HT)", "HT 2-1", "2-1 half time")
NO_SCORES = (("2", "the goals of one side are missing"), ("100-1", "from 0 to 99"),
             ("2-Jan", "a spreadsheet makes one of a score"), ("2-1-0", "more than one score"),
             ("soon", "this is no score"), ("4-3 pen.", "penalties"),
             ("2-1 HT 1-0", "what follows the score is not understood: `ht`"),
             ("2-1 (abc)", "what follows the score is not understood: `(abc)`"))
LINES = (
    ("Germany 5-1 Scotland", "Germany", "Scotland", (5, 1), ""),
    ("2024-06-14 21:00 Germany 5-1 Scotland", "Germany", "Scotland", (5, 1), "2024-06-14"),
    ("1. FC Köln 2-1 Hannover 96", "1. FC Köln", "Hannover 96", (2, 1), ""),
    ("Schalke 04 - Mainz 05 2:1 (1:0)", "Schalke 04", "Mainz 05", (2, 1), ""),
    ("Hannover 96 - 1. FC Köln", "Hannover 96", "1. FC Köln", None, ""),
    ("12 de Octubre 2-1 Olimpia", "12 de Octubre", "Olimpia", (2, 1), ""),
    ("Sat 17 Aug 2024  Gull 1‑0 Tern", "Gull", "Tern", (1, 0), "2024-08-17"),
    ("Samstag, 17.08.2024 Gull - Tern 1:0", "Gull", "Tern", (1, 0), "2024-08-17"),
    ("Gull–Tern 2–1", "Gull", "Tern", (2, 1), ""), ("Gull 2 x 1 Tern", "Gull", "Tern", (2, 1), ""),
    ("Gull 2-1 Tern (aet)", "Gull", "Tern", (2, 1), ""),
    ("Gull (aet) 2-1 Tern", "Gull", "Tern", (2, 1), ""),
    ("Gull 0-3 awd. Tern", "Gull", "Tern", (0, 3), ""),
    ("Gull 0-3 Tern awd.", "Gull", "Tern", (0, 3), ""),
    ("Gull v Tern", "Gull", "Tern", None, ""), ("Gull - : - Tern", "Gull", "Tern", None, ""),
    ("Gull - Tern -:-", "Gull", "Tern", None, ""), ("Gull v Tern postp.", "Gull", "Tern", None, ""),
    ("Gull P-P Tern", "Gull", "Tern", None, ""), ("Gull 20:45 Tern", "Gull", "Tern", None, ""),
    ("Gull v Tern 3-1 (3-1) @ The Quay", "Gull", "Tern", (3, 1), ""),
    ("Gull  3-1 a.e.t. (1-1, 1-0)  Tern", "Gull", "Tern", (3, 1), ""),
    ("Gull 2-1 Tern 67'", "Gull", "Tern", None, ""),
    ("Gull 2-1 Tern 45+2'", "Gull", "Tern", None, ""),
    ("Gull 2-1 (HT) Tern", "Gull", "Tern", None, ""),
    ("67' Gull 2-1 Tern", "Gull", "Tern", None, ""),
    ("Gull - Tern 2-1 half time", "Gull", "Tern", None, ""),
    ("Gull - Tern HT 2-1", "Gull", "Tern", None, ""),
    ("Gull 1-0 Live Oak", "Gull", "Live Oak", (1, 0), ""),
    ("AZ '67 1-0 Gull", "AZ '67", "Gull", (1, 0), ""),
    ("Gull 3-0* Tern", "Gull", "Tern", (3, 0), ""), ("Gull - Tern 3-0*", "Gull", "Tern", (3, 0), ""),
    ("Gull 3-0[1] Tern", "Gull", "Tern", (3, 0), ""),
    ("Gull - Tern 3-0[1]", "Gull", "Tern", (3, 0), ""),
    ("Gull 0-3 (forfait) Tern", "Gull", "Tern", (0, 3), ""),
    ("Gull - Tern 0-3 (s.V.)", "Gull", "Tern", (0, 3), ""),
    ("Gull - Tern 3-0 a tavolino", "Gull", "Tern", (3, 0), ""),
    ("Gull - Tern 3-0 tap. verde", "Gull", "Tern", (3, 0), ""),
    ("Gull w.o. 3-0 Tern", "Gull", "Tern", (3, 0), ""),
    ("Gull - Tern w.o. 3-0", "Gull", "Tern", (3, 0), ""),
)
NO_LINES = (("Gull - Tern 100-1", "goals are whole numbers from 0 to 99"),
            ("Gull 2-1 Tern 3-2", "it has more than one score"),
            ("Gull - Tern (2-1)", "the only score is in brackets"), ("Gull 2-1", "cannot be read as a match"),
            ("Gull v Tern 4-3 pen.", "penalties"), ("good evening", "cannot be read as a match"))
# each worked out by hand from a calendar: the date and what it is
DATES = (("2024-08-15", "2024-08-15"), ("15/08/24", "2024-08-15"), ("15.08.2024", "2024-08-15"),
         ("2024/08/15", "2024-08-15"), ("Thu Aug/15 2024", "2024-08-15"),
         ("15 August 2024", "2024-08-15"), ("15th Aug 2024", "2024-08-15"),
         ("August 15, 2024", "2024-08-15"), ("Donnerstag, 15.8.2024", "2024-08-15"),
         ("15. März 2024", "2024-03-15"), ("jueves 15 de agosto de 2024", "2024-08-15"),
         ("jeudi 15 août 2024", "2024-08-15"), ("15 dicembre 2024", "2024-12-15"),
         ("15 de fevereiro de 2024", "2024-02-15"), ("2024-08-15T19:00:00Z", "2024-08-15"),
         ("15/08/2024 20:00", "2024-08-15"), ("(Thu) 15 Aug 2024 (33)", "2024-08-15"),
         ("Aug/15", "Aug/15"), ("soon", "soon"))
CROSS = "Home \\ Away\tGUL\tTER\tEBB\nGull\t—\t4–1\t\nTern\t1–0\t—\t3–1[a]\nEbb\t0–4\tppd\t—\n"
CROSS_MATCHES = {("Gull", "Tern"): (4, 1), ("Gull", "Ebb"): None, ("Tern", "Gull"): (1, 0),
                 ("Tern", "Ebb"): (3, 1), ("Ebb", "Gull"): (0, 4), ("Ebb", "Tern"): None}
REFUSED = (
    ("a club has a score against itself", CROSS.replace("Gull\t—", "Gull\t1–1"),
     "line 2: `Gull` has `1–1` against itself"),
    ("the columns stand in another order", CROSS.replace("GUL\tTER", "TER\tGUL"),
     "column 1 is `TER` and row 1 `Gull`"),
    ("columns that nothing divides", CROSS.replace("\t", " "), "line 1: this looks like a cross "
     "table, and its columns cannot be told apart. Paste it with its tabs"),
    ("a row is missing", CROSS.rsplit("Ebb", 1)[0], "2 rows and 3 columns"),
    ("a cell that is no score", CROSS.replace("1–0", "won"), "this is no score"),
    ("three columns of names", "Gull\tTern\tThe Quay\t2-1\nEbb\tDock\tThe Pier\t1-0\n",
     "not clear which columns have the two clubs"),
    ("four numbers", "Gull,Tern,2,1,1,0\nTern,Gull,0,0,0,0\n",
     "not clear which columns have the goals"),
    ("a name is missing", "HomeTeam,AwayTeam,FTHG,FTAG\n,Tern,2,1\n",
     "line 2: the home side's name is missing: `,Tern,2,1`"),
    ("a name and a score are wrong", "HomeTeam,AwayTeam,FTHG,FTAG\nGull,,2,x1\n",
     "line 2: the away side's name is missing: `Gull,,2,x1`\nline 2: goals are whole numbers from "
     "0 to 99: `Gull,,2,x1`"),
    ("a name of digits", "HomeTeam,AwayTeam,FTHG,FTAG\nGull,2,1,0\n", "`2` is no name of a club"),
    ("dates in two orders", "8/15/2024 Gull 2-1 Tern\n15/8/2024 Tern 2-1 Gull\n",
     "some dates have the month first"),
    ("a score in a name", "Date,Home,Away\n1.8.24,Gull,Tern 2-1\n",
     "line 2: there is a score in the away side's name"),
    ("two names in one", "Home,Away,HG,AG\nGull v Ebb,Tern,2,1\n", "there are two names in the home"),
    ("a score that a spreadsheet made a time", "Home,Away,Result\nGull,Tern,03:00\n",
     "a spreadsheet makes one of a score like 3:0"),
    ("such a score in a line", "Gull 03:00 Tern\n", "a spreadsheet makes one of a score like 3:0"),
    ("a row with other signs", "Home;Away;Score\nGull;Tern;3:0\nTern,Gull,2:1\n",
     "line 3: this line is no row of the table around it: `Tern,Gull,2:1`"),
    ("a line among rows", "Home;Away;Score\nGull;Tern;3:0\nTern 2-1 Gull\n", "line 3: this line"),
    ("a match in front of the heads", "Gull 2-1 Tern\nHome,Away,HG,AG\nTern,Gull,0,0\n",
     "line 1: this line is no row of the table around it"),
    ("a sheet", "league,Cup,9\nclub,A,1\n", "this is a sheet already"),
)

# lists as they stand on pages and in programs: two matches between Gull and Tern, 2:1 and open
PASTES = (
    "Wk,Day,Date,Time,Home,xG,Score,xG,Away,Attendance,Venue,Referee,Match Report,Notes\n1,Thu,"
    "2024-08-15,20:00,Gull,1.9,2–1,0.3,Tern,21,The Quay,A Ebb,Match Report,\n,,,,,,,,,,,,,\n"
    "2,Thu,2024-08-22,20:00,Tern,,,,Gull,,The Pier,,Head-to-Head,\n",
    "| Date | Home | Away | Score |\n|---|:--:|---|---|\n| 2024-08-15 | Gull | Tern | 2-1 |\n"
    "| 2024-08-22 | Tern | Gull | |\n",
    "1. Spieltag\nDo 15.08.2024 15:30 Gull - Tern 2:1 (1:1)\n2. Spieltag\nDo 22.08.2024 17:30 "
    "Tern - Gull -:- (-:-)\n",
    "Jornada 1\njueves 15 de agosto de 2024\nGull  2-1  Tern\nJornada 2\njueves 22 de agosto de "
    "2024\nTern  20:45  Gull\n",
    "Round 1 [Aug 15 2024]\n[Aug 15 2024]\nGull        2-1 Tern\nRound 2\n[Aug 22]\nTern    -    "
    "Gull\n",
    "sep=;\nJour;Dom.;Ext.;Buts dom.;Buts ext.\n15/08/2024;Gull;Tern;2;1\n22/08/2024;Tern;Gull;;\n",
    "2024-08-15\tGull\tTern\t2:1\n2024-08-22\tTern\tGull\tabgesagt\n",
    "E0,15/08/2024,20:00,Gull,Tern,2,1\nE0,22/08/2024,20:00,Tern,Gull,,\n",
    "Date,Match,Score\n8/15/2024,Gull vs Tern,2-1\n8/22/2024,Tern vs Gull,TBD\n",
)


def faults_of(text: str, home: str, away: str, score: tuple[int, int] | None,
              date: str = "", days: str = "") -> list[str]:
    """Nothing if a list has this match first."""
    try:
        match = read_matches(text.encode("utf-8"), days=days).matches[0]
    except (Trouble, IndexError) as trouble:
        return [str(trouble)]
    found = (match.home, match.away, match.score, match.date)
    return [] if found == (home, away, score, date) else [f"{found} of {text!r}"]


def last_faults(text: str) -> list[str]:
    """Nothing if the second match of a list, and its last, is open."""
    found = [(match.home, match.away, match.score, match.date)
             for match in read_matches(text.encode("utf-8")).matches[1:]]
    return [] if found == [("Tern", "Gull", None, "2024-08-22")] else [str(found)]


def refusal_faults(text: str, says: str) -> list[str]:
    """Nothing if a list is refused with these words."""
    try:
        return [f"taken: {read_matches(text.encode('utf-8')).matches}"]
    except Trouble as trouble:
        return [] if says in trouble.message else [f"not said: {says}", trouble.message]


def check_lists(counter: Counter) -> None:
    """All ways in which a list can be written."""
    for heads in HEADS:
        for sign in ",;\t":
            text = f"{heads}\nGull,Tern,2,1,15.8.2024\nTern,Gull,,,\n".replace(",", sign)
            counter.check(f"heads {heads!r}, {sign!r}",
                          faults_of(text, "Gull", "Tern", (2, 1), "2024-08-15"))
    for heads in HEADS_OF_ONE:
        counter.check(f"heads {heads!r}", faults_of(f"{heads}\nGull,Tern,2:1\nTern,Gull,\n", "Gull",
                                                    "Tern", (2, 1)))
    for heads in PAIR_HEADS:
        counter.check(f"heads {heads!r}", faults_of(f"{heads}\nGull - Tern,2:1\n", "Gull", "Tern",
                                                    (2, 1)))
    for text, says in REFUSED_HEADS:
        counter.check(f"heads that do not do: {text!r}", refusal_faults(text, says))
    for text, home, away, score, date in LINES:
        counter.check(f"line {text!r}", faults_of(text, home, away, score, date))
    for text, says in NO_LINES:
        counter.check(f"no line {text!r}", refusal_faults(text, says) + refusal_faults(
            text, "line 1: ") + refusal_faults(text, f"`{text}`"))
    for text, wanted in DATES:
        counter.check(f"date {text!r}", [] if plain_date(text) == wanted else [plain_date(text)])
    for name, text, says in REFUSED:
        counter.check(f"list refused: {name}", refusal_faults(text, says))
    for text in PASTES:
        counter.check(f"paste {text[:40]!r}", faults_of(text, "Gull", "Tern", (2, 1), "2024-08-15")
                      + last_faults(text))
    check_scores(counter)
    check_walkovers(counter)
    check_crosses(counter)


def check_walkovers(counter: Counter) -> None:
    """Signs that say who won and no score, in columns and in lines."""
    for sign, winner in (("X:0", "home"), ("0:X", "away"), ("+:-", "home"), ("-:+", "away"),
                         ("x:0", "home"), ("-:-", ""), ("x:x", "")):
        for text in (f"Home,Away,Result\nGull,Tern,{sign}\n", f"Gull - Tern {sign}\n",
                     f"Gull {sign} Tern\n", "Home,Away,HG,AG\nGull,Tern,{},{}\n".format(
                         *sign.split(":")), f"Gull\tTern\t{sign}\nTern\tGull\t2:1\n"):
            match = read_matches(text.encode("utf-8")).matches[0]
            found = (match.home, match.away, match.score, match.winner)
            counter.check(f"walkover {text!r}", [] if found == ("Gull", "Tern", None, winner)
                          else [str(found)])


def check_scores(counter: Counter) -> None:
    """A score in one column, in each spelling; matches that are open; and what is no score."""
    for score in SCORES:
        counter.check(f"score {score!r}", faults_of(f"Home,Away,Result\nGull,Tern,{score}\n",
                                                    "Gull", "Tern", (2, 1)))
    for word in OPEN:
        counter.check(f"open {word!r}", faults_of(f"Home,Away,Result\nGull,Tern,{word}\n", "Gull",
                                                  "Tern", None))
    for text, says in NO_SCORES:
        counter.check(f"no score {text!r}", refusal_faults(
            f"Home,Away,Result\nGull,Tern,{text}\n", says))
    for line, rest, days, date in (
            ("8/15/2024", "8/22/2024,Tern,Gull,0,0\n", "", "2024-08-15"),
            ("8/1/2024", "", "day-first", "2024-01-08"), ("8/1/2024", "", "month-first", "2024-08-01"),
            ("8/1/2024", "8/22/2024,Tern,Gull,0,0\n", "day-first", "2024-08-01"),
            ("8/8/2024", "", "", "2024-08-08")):
        counter.check(f"a date of two orders: {line} {days}", faults_of(
            f"Date,Home,Away,HG,AG\n{line},Gull,Tern,2,1\n{rest}", "Gull", "Tern", (2, 1), date, days))
    for text in ("Date,Home,Away\n8/1/24,Gull,Tern\n", "8/1/2024 Gull - Tern\n"):
        counter.check(f"a date of two orders that nothing tells: {text!r}", refusal_faults(
            text, "Say --days day-first or --days month-first"))


def check_crosses(counter: Counter) -> None:
    """Cross tables, with heads and without, with each sign, among lines that are none of theirs."""
    names = CROSS.replace("GUL\tTER\tEBB", "Gull\tTern\tEbb")
    turned = "x\tEbb\tGull\tTern\nGull\t\t—\t4–1\nTern\t3–1\t1–0\t—\nEbb\t—\t0–4\tppd\n"
    texts = [CROSS, names, CROSS.split("\n", 1)[1], CROSS.replace("Home \\ Away", ""),
             turned.replace("x\t", "Home \\ Away\t"), CROSS.replace("ppd\t—", "ppd"),
             "Results\n\n" + CROSS + "Source: the league\n"]
    texts += [text.replace("\t", sign) for text in texts[:4] for sign in ",;"]
    for text in texts:
        try:
            found = {(match.home, match.away): match.score
                     for match in read_matches(text.encode("utf-8")).matches}
        except Trouble as trouble:
            counter.check(f"cross table {text!r}", [trouble.message])
            continue
        counter.check(f"cross table {text!r}", [] if found == CROSS_MATCHES else [str(found)])
