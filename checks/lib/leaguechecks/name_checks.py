"""Names: which club a name means, alias files, and the names and runs of lines."""

from __future__ import annotations

import tempfile
from pathlib import Path

from leaguelib.aliases import chosen_club, read_aliases
from leaguelib.answers import read_report
from leaguelib.common import Trouble
from leaguelib.feeds import read_input, read_sheet
from leaguelib.line_names import asked_lines, names_in
from leaguelib.lines import joined_answer, joined_report, line_runs, with_lines_of
from leaguelib.names import UnknownName, club_of

from .counting import Counter, called, said, sound_end
from .mistake import SHEET

CLUBS = ("Arsenal FC", "Brighton & Hove Albion FC", "Manchester City FC", "Manchester United FC",
         "Newcastle United FC", "Nottingham Forest FC", "Tottenham Hotspur FC", "1. FC Köln",
         "Bayern München", "Borussia Mönchengladbach", "AC Milan", "Inter", "Real Madrid",
         "São Bento")
MEANT = (
    ("Arsenal", "Arsenal FC"), ("arsenal fc", "Arsenal FC"), (" Arsenal FC ", "Arsenal FC"),
    ("Man City", "Manchester City FC"), ("manchester city fc", "Manchester City FC"),
    ("Man Utd", "Manchester United FC"), ("Manchester Utd.", "Manchester United FC"),
    ("Brighton", "Brighton & Hove Albion FC"), ("Newcastle", "Newcastle United FC"),
    ("Brighton and Hove Albion", "Brighton & Hove Albion FC"),
    ("Nott'm Forest", "Nottingham Forest FC"), ("Nott’m Forest", "Nottingham Forest FC"),
    ("Tottenham", "Tottenham Hotspur FC"), ("Köln", "1. FC Köln"), ("Koln", "1. FC Köln"),
    ("Koeln", "1. FC Köln"), ("FC Bayern", "Bayern München"), ("Bayern Muenchen", "Bayern München"),
    ("M'gladbach", "Borussia Mönchengladbach"), ("Milan", "AC Milan"),
    ("FC Internazionale", "Inter"), ("Real Madrid CF", "Real Madrid"), ("sao bento", "São Bento"),
    ("Spurs", "Tottenham Hotspur FC"), ("Man U", "Manchester United FC"),
    ("Newcastle U", "Newcastle United FC"),
    ("the seagulls", "Brighton & Hove Albion FC"),
)
NOT_MEANT = (
    ("Manchester", "`Manchester City FC` or `Manchester United FC`: write more of the name"),
    ("United", "`Manchester United FC` or `Newcastle United FC`"),
    ("Inter Milano", "`AC Milan` or `Inter`"), ("Arsenl", "the nearest name is `Arsenal FC`"),
    ("Real Madrid B", "no club is called"), ("Bayern München II", "no club is called"),
    ("Man V", "no club is called"), ("M U", "no club is called"), ("Man C", "no club is called"),
    ("Reals", "no club is called"), ("Uniteds", "no club is called"),
    ("Ar", "no club is called"), ("", "no club is called"), ("Wolves", "(--aliases)"),
    ("Gooners", "`Gooners` is an alias of `Harbour Town`, and no club is called"),
)
ALIASES = "# mine\nSpurs,Tottenham Hotspur\nThe Seagulls;Brighton\nGooners\tHarbour Town\n\n"
# short names, and the club of a league that each means; nothing where none or several fit
SHORT_CLUBS = ("Arsenal FC", "Queens Park Rangers", "Tottenham Hotspur FC", "Manchester United FC",
               "Manchester City FC", "Wolverhampton Wanderers", "West Bromwich Albion", "Paris FC",
               "Brighton & Hove Albion FC", "Paris Saint-Germain", "Hamburger SV", "FC Barcelona",
               "FC Basel", "Borussia Dortmund", "L'Étoile d'Évreux", "Dock United")
SHORT = (("QPR", "Queens Park Rangers"), ("Q.P.R.", "Queens Park Rangers"),
         ("qpr", "Queens Park Rangers"), ("Spurs", "Tottenham Hotspur FC"),
         ("Man Utd", "Manchester United FC"), ("MUFC", "Manchester United FC"),
         ("WBA", "West Bromwich Albion"), ("BHA", "Brighton & Hove Albion FC"),
         ("PSG", "Paris Saint-Germain"), ("HSV", "Hamburger SV"), ("BVB", "Borussia Dortmund"),
         ("Barca", "FC Barcelona"), ("Wolves", "Wolverhampton Wanderers"), ("DU", "Dock United"),
         ("Etoile", "L'Étoile d'Évreux"), ("Letoile", "L'Étoile d'Évreux"),
         ("Evreux", "L'Étoile d'Évreux"), ("FCB", ""), ("Gers", ""), ("AFC", ""), ("FC", ""),
         ("United", ""), ("MC", "Manchester City FC"), ("XYZ", ""), ("II", ""), ("Q", ""))
LINED = SHEET.replace("Cup", "Six").replace("line,1\n", "line,2\n# line 2: Cup\n# line 1\n"
                                            "# below line 2: relegated\n")


def check_names(counter: Counter) -> None:
    """What names mean, and which are refused."""
    with tempfile.TemporaryDirectory() as work:
        file = Path(work) / "aliases.csv"
        file.write_text(ALIASES, "utf-8")
        aliases = read_aliases(str(file))
        for typed, club in MEANT:
            found = club_of(typed, CLUBS, aliases)
            counter.check(f"name {typed!r}", [] if found == club else [found])
        wolves = (*CLUBS, "Wolverhampton Wanderers FC")
        found = club_of("Wolves", wolves)
        counter.check("name 'Wolves'", [] if found == wolves[-1] else [found])
        for typed, says in NOT_MEANT:
            counter.check(f"no name {typed!r}", unknown_faults(typed, aliases, says))
        check_short_names(counter, Path(work) / "short.csv")
        check_alias_files(counter, file)
        check_commands(counter, Path(work))


def check_short_names(counter: Counter, sheet: Path) -> None:
    """Short names, how `league names` shows them, and that the sheet keeps others."""
    for typed, club in SHORT:
        try:
            found = club_of(typed, SHORT_CLUBS)
        except UnknownName:
            found = ""
        counter.check(f"short name {typed!r}", [] if found == club else [found])
    text = "league,Cup,9\n" + "".join(f"club,{club},1\n" for club in SHORT_CLUBS) + (
        f"match,{SHORT_CLUBS[0]},{SHORT_CLUBS[1]}\nline,1\nseason\n")
    sheet.write_text(text, "utf-8")
    run = called("names", sheet, "QPR", "man utd", "WW", "Hoops")
    counter.check("names: what each means", sound_end(run) + said(
        run, 2, "QPR: Queens Park Rangers (well known)\nman utd: Manchester United FC (a part of it)"
                "\nWW: Wolverhampton Wanderers (its initials)\nHoops: no club is called `Hoops`"))
    run = called("names", sheet, "--set", "Hoops=QPR", "--set", "Les Bleus = Étoile")
    kept = text.replace("club,Queens Park Rangers,1\n", "club,Queens Park Rangers,1\n# name: Hoops = "
                        "Queens Park Rangers\n").replace("club,L'Étoile d'Évreux,1\n", "club,L'Étoile "
                        "d'Évreux,1\n# name: Les Bleus = L'Étoile d'Évreux\n")
    counter.check("names: the sheet keeps them", sound_end(run) + (
        [] if sheet.read_text("utf-8") == kept else [sheet.read_text("utf-8")]))
    run = called("feed", sheet, data=b"Arsenal 2-1 Hoops\n")
    counter.check("names: a feed knows them", sound_end(run) + said(run, 0, "result,1,2,1\n"))
    counter.check("names: they are shown", said(called("names", sheet), 0, "Queens Park Rangers"
                                                "        Hoops, qpr\n"))
    for words, status, says in ((["--set", "hoops=Arsenal"], 2, "`hoops` means `Queens Park Rangers`"),
                                (["--set", "Arsenal=QPR"], 2, "`Arsenal` means `Arsenal FC`"),
                                (["--set", "Hoops"], 1, "--set is NAME=CLUB"),
                                (["--set", "X=Nobody"], 1, "no club is called `Nobody`"),
                                (["--forget", "X"], 1, "the sheet keeps no name `X`")):
        counter.check(f"names: {words}", said(called("names", sheet, *words), status, says) + (
            [] if sheet.read_text("utf-8") == kept else ["the sheet was changed"]))
    whole = kept + "result,1,2,1\nask\n"
    counter.check("names: a file with its feed", said(
        called("names", "-", "Hoops", data=whole.encode("utf-8")), 0, "Hoops: Queens Park Rangers"))
    called("names", sheet, "--forget", "hoops", "--forget", "les bleus")
    counter.check("names: forgotten", [] if sheet.read_text("utf-8") == text else
                  [sheet.read_text("utf-8")])


def unknown_faults(typed: str, aliases: dict[str, str], says: str) -> list[str]:
    """Nothing if a name is refused with these words."""
    try:
        return [f"taken for {club_of(typed, CLUBS, aliases)}"]
    except UnknownName as unknown:
        return [] if says in unknown.message else [unknown.message]


def check_alias_files(counter: Counter, file: Path) -> None:
    """Alias files that cannot be read."""
    for text, says in (("Spurs\n", "line 1: a line is OTHER NAME,CLUB: `Spurs`"),
                       ("a,b,c\n", "line 1: a line is OTHER NAME,CLUB"),
                       ("a,b\na,c\n", "line 2: `a` is there already, for `b`: `a,c`"),
                       ("PK\x03\x04", "workbook")):
        file.write_text(text, "utf-8")
        try:
            counter.check(f"aliases {text!r}", [str(read_aliases(str(file)))])
        except Trouble as trouble:
            counter.check(f"aliases {text!r}", [] if says in trouble.message else [trouble.message])
    sheet = read_sheet(SHEET.encode("utf-8"))
    chosen = chosen_club("dock", sheet)
    counter.check("a club that was chosen", [] if chosen == "Dock United" else [chosen])


def check_commands(counter: Counter, work: Path) -> None:
    """Parts of names and aliases in feed and sheet, and the names of lines that a sheet keeps."""
    sheet, aliases = work / "sheet.csv", work / "other.csv"
    sheet.write_text(SHEET, "utf-8")
    aliases.write_text("The Cathedral,Köln\n", "utf-8")
    run = called("feed", sheet, "--aliases", aliases, data=b"anchor 2-1 the cathedral\n")
    counter.check("feed: a part of a name and an alias", sound_end(run) + said(
        run, 0, "names taken for clubs of the sheet: anchor = Anchor; the cathedral = Köln") + (
        [] if run.stdout == b"result,1,2,1\n" else [run.stdout.decode()]))
    run = called("feed", sheet, data=b"Wolves 2-1 Anchor\nSpurs 1-0 Anchor\n")
    counter.check("feed: all clubs are named once", sound_end(run) + said(
        run, 2, "line 2, `Spurs 1-0 Anchor`: no club is called `Spurs`\nleague: the clubs are "
                "Anchor, Köln, Dock United. Other names") + (
        [] if run.stderr.count(b"Dock United") == 1 else ["more than once"]))
    run = called("feed", sheet, data=b"Wolves 2-1 Ancor\n")
    counter.check("feed: two mistakes in a line", sound_end(run) + said(
        run, 2, "no club is called `Wolves`\nleague: standard input, line 1, `Wolves 2-1 Ancor`: "
                "no club is called `Ancor`; the nearest name is `Anchor`"))
    run = called("feed", sheet, "--aliases", work / "nothing", data=b"")
    counter.check("feed: aliases that are not there", sound_end(run) + said(
        run, 4, "cannot be read"))
    words = ["--name", "Cup", "--lines", "1,2", "--order", "head_first"]
    lists = "Anchor - Köln\nThe Cathedral - Dock\nDock - Anchor\n".encode("utf-8")
    run = called("sheet", "-", *words, "--aliases", aliases, "--line-name", "2=Upper half",
                 "--relegated", data=lists)
    counter.check("sheet: names of lines", sound_end(run) + said(
        run, 0, "line,1\nline,2\n# line 2: Upper half\n# below line 2: relegated\nseason\n"))
    for name, more, status, says in (
            ("a name of no line", ["--line-name", "3=Last"], 1, "no line 3 is asked for"),
            ("a name without a line", ["--line-name", "Last"], 1, "--line-name is K=NAME")):
        run = called("sheet", "-", *words, *more, "--aliases", aliases, data=lists)
        counter.check("sheet: " + name, sound_end(run) + said(run, status, says))
    six = "".join(f"C{home} - C{away}\n" for home in range(1, 8) for away in range(1, home))
    words[3] = "1,2,3,4,5,6"
    run = called("sheet", "-", *words, "--line-name", "5=Cup", data=six.encode("utf-8"))
    counter.check("sheet: six lines", sound_end(run) + said(
        run, 0, "line,4\n# line 5: Cup\n# line 6\nseason\n"))
    words[3] = "1,2,3,4,5,9"
    run = called("sheet", "-", *words, data=six.encode("utf-8"))
    counter.check("sheet: a line out of range", sound_end(run) + said(run, 2, "from 1 to 6"))


def check_line_runs(counter: Counter) -> None:
    """Lines that comments have, runs of them, and the answers of the runs in one."""
    data = LINED.encode("utf-8") + b"ask\n"
    sheet, names = read_input(data).sheet, names_in(data)
    places = [names.place(1), names.place(2), names.outside(2), names.outside(1)]
    counter.check("names of lines", [] if places == [
        "first place", "Cup (top 2)", "relegated", ""] else [str(places)])
    counter.check("lines of a sheet", [] if asked_lines(data, sheet) == [1, 2] else ["other lines"])
    runs = line_runs([1, 2, 4, 5, 6, 17])
    counter.check("runs of lines", [] if runs == [[1, 2, 4, 5], [6, 17]] and line_runs([]) == [[]]
                  else [str(runs)])
    ask = data.count(b"\n")
    for lines in ([1], [2, 1], []):
        made = with_lines_of(data, lines)
        found = read_input(made)
        counter.check(f"an input with the lines {lines}", [] if found.sheet.lines == lines and (
            made.count(b"\n"), found.entries[0].line) == (ask, ask) else [repr(made)])
    added = with_lines_of(SHEET.encode("utf-8") + b"ask\n", [2, 1])
    counter.check("an input with more lines", [] if added.endswith(b"line,2\nline,1\nseason\nask\n")
                  else [repr(added)])
    first, second = (read_report(text.encode("utf-8")) for text in (
        "ask,0\nverdict,2,A,lost\nask,1\nverdict,2,A,clinched\n",
        "ask,0\nverdict,1,A,possible\nask,1\nverdict,1,A,lost\n"))
    words = [[(one.places, one.word) for one in answer.verdicts]
             for answer in joined_report([first, second]).answers]
    counter.check("answers in one", [] if words == [[(1, "possible"), (2, "lost")], [
        (1, "lost"), (2, "clinched")]] else [str(words)])
    try:
        joined_answer([first.answers[0], second.answers[1]])
        counter.check("answers to different asks", ["joined"])
    except ValueError:
        counter.check("answers to different asks", [])
