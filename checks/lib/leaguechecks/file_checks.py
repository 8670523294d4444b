"""The files of checks/lists: three leagues that were made up, each in the exact form of the files
that football-data, openfootball and an encyclopedia have, each with the names of its maker.
"""

from __future__ import annotations

import csv
import tempfile
import time
from pathlib import Path

from leaguelib.feeds import read_sheet

from .counting import HOME, Counter, called, said, sound_end
from .mistake import SHEET

LISTS = HOME / "checks" / "lists"
LEAGUES = {"coast": "E0.csv", "rhein": "D1.csv", "costa": "SP1.csv"}
WORDS = ["--name", "Made up", "--lines", "1", "--order", "head_first"]


def rows_of(file: Path) -> list[dict[str, str]]:
    """The rows of a file of football-data, as a reader of tables that is not ours has them."""
    with open(file, encoding="utf-8-sig", newline="") as opened:
        return list(csv.DictReader(opened))


def check_files(counter: Counter) -> None:
    """Each league: one sheet, and one feed from whichever file it is made."""
    with tempfile.TemporaryDirectory() as work:
        for folder, played in LEAGUES.items():
            check_league(counter, LISTS / folder, played, Path(work) / "sheet.csv")


def check_bounds(counter: Counter) -> None:
    """Lists that are far too long, in lines or in one of them, are refused within seconds."""
    with tempfile.TemporaryDirectory() as work:
        made, sheet = Path(work) / "made", Path(work) / "sheet.csv"
        sheet.write_text(SHEET, "utf-8")
        for name, text, says in (("27 MB", b"Anchor 2-1 Dock..\n" * 1_500_000, "1,500,000 lines"),
                                 ("a line of 40 MB", b"A" * 40_000_000, "40,000,000 bytes"),
                                 ("a line of 3 MB", b"A - B " * 500_000, "a line of this list")):
            made.write_bytes(text)
            begun = time.process_time()
            for words in (["sheet", made, *WORDS], ["feed", sheet, made],
                          ["sheet", sheet, *WORDS, "--aliases", made]):
                counter.check(f"bounds: {name}, {words[0]}", said(called(*words), 8, says))
            took = time.process_time() - begun
            counter.check(f"bounds: {name}, the time", [f"{took:.1f} s"] if took > 3 else [])


def check_league(counter: Counter, folder: Path, played: str, sheet: Path) -> None:
    """The sheet of the two tables, and the feed of the tables, the text and the cross table."""
    name = folder.name
    tables = [folder / played, folder / "fixtures.csv"]
    rows = [row for table in tables for row in rows_of(table)]
    run = called("sheet", *tables, *WORDS)
    sheet.write_bytes(run.stdout)
    wanted = [(row["HomeTeam"], row["AwayTeam"]) for row in rows]
    found = read_sheet(run.stdout).fixtures if run.returncode == 0 else []
    counter.check(f"{name}: the sheet", sound_end(run) + (
        [] if [(one.home, one.away) for one in found] == wanted else [run.stderr.decode()]))
    results = [f"result,{number},{row['FTHG']},{row['FTAG']}" for number, row in enumerate(rows, 1)
               if row.get("FTHG")]
    for files in ([folder / played], tables, tables[::-1], [folder / "openfootball.txt"],
                  [folder / "cross-table.txt"]):
        run = called("feed", sheet, *files)
        lines = run.stdout.decode("utf-8").split()
        counter.check(f"{name}: the feed of {[file.name for file in files]}", sound_end(run) + (
            [] if sorted(lines) == sorted(results) else [str(lines), run.stderr.decode("utf-8")]))
    for file in ("openfootball.txt", "cross-table.txt"):
        run = called("sheet", folder / file, *WORDS)
        counter.check(f"{name}: the sheet of {file}", sound_end(run) + said(
            run, 0, "6 clubs, 30 matches"))
