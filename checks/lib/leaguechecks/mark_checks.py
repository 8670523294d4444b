"""A feed belongs to its sheet: the list of a season that is sorted again with one new date, which
used to put every later result at another match.

Anchor, Köln, Dock and Tern meet once; the match Köln - Dock of the first day is postponed after all
others, so that all but the first match move up by one. The tables that are wanted do not depend on
numbers: they are those of the results by names.
"""

from __future__ import annotations

import hashlib
import tempfile
from pathlib import Path

from .counting import Counter, league, said

DAYS = ("2025-08-01,Anchor,Tern", "2025-08-01,Köln,Dock", "2025-08-08,Anchor,Köln",
        "2025-08-08,Dock,Tern", "2025-08-15,Tern,Köln", "2025-08-15,Dock,Anchor")
LATER = (DAYS[0], *DAYS[2:], "2025-09-01,Köln,Dock")
HEADS = "Date,Home,Away\n"
RESULTS = "Anchor 2-0 Tern\nAnchor 1-1 Köln\nDock 3-1 Tern\n"
WORDS = ["--name", "T", "--lines", "1", "--order", "head_first"]
MOVED = "match 2 was Köln - Dock and is now Anchor - Köln (4 other matches moved too)"
PARTS = (["lint"], ["ask"], ["table"], ["scores"], ["tonight"], ["places"], ["board"], ["explain"],
         ["save"], ["live"])


class Season:
    """A folder with a list, its sheet and its feed."""

    def __init__(self, folder: str, is_marked: bool = True) -> None:
        self.list, self.sheet, self.feed, self.week = (
            Path(folder) / name for name in ("plan.csv", "sheet.csv", "feed.csv", "week.txt"))
        self.sheet.unlink(missing_ok=True)
        self.feed.unlink(missing_ok=True)
        self.sort(DAYS)
        self.week.write_text(RESULTS, "utf-8")
        league("sheet", self.list, *WORDS, "-o", self.sheet)
        league("feed", self.sheet, self.week, "--log", self.feed, "--append", "--ask")
        if not is_marked:
            rows = self.feed.read_text("utf-8").splitlines(keepends=True)
            self.feed.write_text("".join(row for row in rows if row[0] != "#"), "utf-8")

    def sort(self, days: tuple[str, ...]) -> None:
        """Writes the list in this order."""
        self.list.write_text(HEADS + "\n".join(days) + "\n", "utf-8")

    def table(self) -> list[str]:
        """The rows of the table, or what is said in its place."""
        run = league("table", "--rows", self.sheet, self.feed)
        return (run.stdout or run.stderr).decode("utf-8").splitlines()[1:]


def check_marks(counter: Counter) -> None:
    """The mark itself, each part that compares it, and sheets that take the place of others."""
    with tempfile.TemporaryDirectory() as folder:
        season = Season(folder)
        wanted = season.table()
        _check_mark(counter, season)
        _check_parts(counter, season)
        for is_marked in (True, False):
            _check_overwriting(counter, Season(folder, is_marked), wanted, is_marked)
        _check_updating(counter, Season(folder), wanted)
        _check_days(counter, folder)
        _check_rewriting(counter, Season(folder), wanted)


def _check_mark(counter: Counter, season: Season) -> None:
    """The mark is what its module says, and is written once."""
    pairs = "".join(day.partition(",")[2] + "\n" for day in DAYS)
    word = hashlib.sha256(pairs.encode("utf-8")).hexdigest()[:12]
    wanted = [f"# sheet {word}: 4 clubs, 6 matches (`league` compares this: leave it in)",
              "# sheet clubs,Anchor,Tern,Köln,Dock", "# sheet matches,1-2,3-4,1-3,4-2,2-3,4-1"]
    found = season.feed.read_text("utf-8").splitlines()
    counter.check("mark: as it is described", [] if found[:3] == wanted else found)
    league("feed", season.sheet, "-", "--log", season.feed, "--append", data=b"Tern 0-0 K\xc3\xb6ln\n")
    text = season.feed.read_text("utf-8")
    counter.check("mark: written once", [] if text.count("# sheet clubs") == 1 else [text])


def _check_parts(counter: Counter, season: Season) -> None:
    """Each part says what moved, and does nothing else; a feed without a mark is taken."""
    other = season.sheet.with_name("other.csv")
    season.sort(LATER)
    league("sheet", season.list, *WORDS, "-o", other)
    before = season.feed.read_bytes()
    for words in PARTS:
        run = league(*words, other, season.feed)
        counter.check(f"mark: {words[0]}", said(run, 3, MOVED))
    run = league("feed", other, season.week, "--log", season.feed, "--append")
    counter.check("mark: feed", said(run, 3, MOVED) + (
        [] if season.feed.read_bytes() == before else ["the feed was changed"]))
    run = league("ask", data=other.read_bytes() + before)
    counter.check("mark: one input", said(run, 3, MOVED))
    season.feed.write_bytes(before.replace(b"1-2,", b"2-1,", 1))
    run = league("lint", other, season.feed)
    counter.check("mark: one that is not whole", said(run, 3, "is not whole"))
    run = league("lint", Season(str(season.sheet.parent), False).sheet, season.feed)
    counter.check("mark: none", said(run, 0, "nobody can tell"))
    other.unlink()


def _check_overwriting(counter: Counter, season: Season, wanted: list[str],
                       is_marked: bool) -> None:
    """The list sorted again does not take the place of a sheet that a feed stands on."""
    season.sort(LATER)
    kept = season.sheet.read_bytes()
    run = league("sheet", season.list, *WORDS, "-o", season.sheet)
    name = "with a mark" if is_marked else "without a mark"
    counter.check(f"overwriting {name}", said(run, 2, f"stands on it, and {MOVED}") + (
        [] if season.sheet.read_bytes() == kept and season.table() == wanted else
        ["the sheet was changed"]))
    run = league("sheet", season.list, *WORDS, "-o", season.feed)
    counter.check(f"overwriting the feed {name}", said(run, 2, "cannot be read as a sheet"))
    season.sort(DAYS)
    run = league("sheet", season.list, *WORDS[:3], "1,2", *WORDS[4:], "-o", season.sheet)
    counter.check(f"overwriting {name} with other lines", said(run, 0, "") + (
        [] if b"line,2" in season.sheet.read_bytes() else ["it was not written"]))


def _check_updating(counter: Counter, season: Season, wanted: list[str]) -> None:
    """New dates, and new matches after the old ones; the table stays."""
    season.sort((*LATER, "2025-09-08,Tern,Anchor"))
    run = league("sheet", season.list, "--update", season.sheet)
    counter.check("update: a match too often", said(run, 2, "too often in the list (home - away): Anchor - Tern"))
    run = league("sheet", season.list, "--update", season.sheet, "--as-is")
    faults = said(run, 0, "match 2, Köln - Dock, is on 2025-09-01 now (it was on 2025-08-01)")
    faults += said(run, 0, "new: match 7, Tern - Anchor, on 2025-09-08")
    text = season.sheet.read_text("utf-8")
    if "# 2025-09-01\nmatch,Köln,Dock\n# 2025-08-08\nmatch,Anchor,Köln\n" not in text:
        faults.append(text)
    counter.check("update: dates and matches", faults)
    counter.check("update: the table", [] if season.table()[:1] == wanted[:1] else season.table())
    run = league("sheet", season.list, "--update", season.sheet, "--as-is")
    counter.check("update: nothing new", said(run, 0, "nothing is new") + (
        [] if season.sheet.read_text("utf-8") == text else ["it was changed"]))


def _check_days(counter: Counter, folder: str) -> None:
    """An update reads 05/04 as the sheet was made: as the fourth of May."""
    dates, sheet = Path(folder) / "dates.txt", Path(folder) / "dates.csv"
    dates.write_text("03/04/2025\nA - B\n04/04/2025\nB - A\n", "utf-8")
    league("sheet", dates, *WORDS, "--days", "month-first", "-o", sheet)
    dates.write_text("05/04/2025\nA - B\n04/04/2025\nB - A\n", "utf-8")
    run = league("sheet", dates, "--update", sheet)
    counter.check("update: days as before", said(run, 0, "A - B, is on 2025-05-04 now (it was on "
                                                          "2025-03-04)"))


def _check_rewriting(counter: Counter, season: Season, wanted: list[str]) -> None:
    """The feed gets the new numbers once they were shown, and is kept as it was."""
    season.sort(LATER)
    before = season.feed.read_bytes()
    words = ["sheet", season.list, *WORDS, "-o", season.sheet, "--rewrite", season.feed]
    run = league(*words)
    faults = said(run, 2, "match 3 becomes match 2: Anchor - Köln")
    counter.check("rewrite: shown first", faults + (
        [] if season.feed.read_bytes() == before else ["it was written"]))
    run = league(*words, "--yes")
    rows = [row for row in season.feed.read_text("utf-8").splitlines() if row[0] != "#"]
    kept = season.feed.with_name("feed.csv.old")
    faults = said(run, 0, "kept as") + ([] if kept.read_bytes() == before else ["not kept"])
    if rows != ["result,1,2,0", "result,2,1,1", "result,3,3,1", "ask"]:
        faults.append(str(rows))
    counter.check("rewrite: by names", faults + (
        [] if season.table() == wanted else season.table()))
