"""A clerk's week: the same list again, a score in it that has changed, three rounds without dates,
matches that were awarded without a score, names that are too long, and what is said of it all.
"""

from __future__ import annotations

import tempfile
from pathlib import Path

from .counting import Counter, called, said, sound_end

MADE = ["--name", "Cup", "--lines", "1", "--order", "head_first"]
CLUBS = "league,Cup,9\nclub,Gull,1\nclub,Tern,1\nclub,Ebb,1\n"
SHEET = CLUBS + "match,Gull,Tern\nmatch,Ebb,Gull\nmatch,Tern,Ebb\nmatch,Tern,Gull\nline,1\nseason\n"
LIST = "Home,Away,Score\nGull,Tern,2-1\nEbb,Gull,{}\nTern,Ebb,0-0\nTern,Gull,postp.\n"
KEPT = "result,1,2,1\nresult,2,3,1\n"
ROUNDS = ("Gull - Tern\nEbb - Gull\nTern - Ebb\nTern - Gull\nGull - Ebb\nEbb - Tern\nGull - Tern\n"
          "Ebb - Gull\nTern - Ebb\n")
LONG = "Спортивный клуб Динамо"


def check_week(counter: Counter) -> None:
    """All looks at a week."""
    with tempfile.TemporaryDirectory() as work:
        sheet, feed = Path(work) / "sheet.csv", Path(work) / "feed.csv"
        sheet.write_text(SHEET, "utf-8")
        feed.write_text(KEPT, "utf-8")
        _check_changed(counter, ["feed", sheet, "--log", feed])
        _check_counts(counter, ["feed", sheet])
        _check_rounds(counter, sheet)
        _check_walkovers(counter, sheet)
        _check_days(counter, sheet)
        _check_hints(counter, sheet)
    _check_long_names(counter)


def _wrote(run, wanted: str) -> list[str]:
    """Nothing if these lines were written."""
    text = run.stdout.decode("utf-8")
    return sound_end(run) + ([] if text == wanted else [text, run.stderr.decode("utf-8")])


def _check_changed(counter: Counter, words: list) -> None:
    """Another score than that of the feed holds nothing back, and counts only if it is meant."""
    first = "league: 1 result added; 2 were there already\nleague: "
    run = called(*words, data=LIST.format("3-1").encode("utf-8"))
    counter.check("week: what was added comes first", _wrote(run, "result,3,0,0\n") + said(
        run, 0, first + "standard input: skipped: 1 match without a score (postp.) (line 5"))
    run = called(*words, data=LIST.format("2-1").encode("utf-8"))
    counter.check("week: a changed score is not taken, the rest is", _wrote(
        run, "result,3,0,0\n") + said(
            run, 3, "league: 1 result added; 1 was there already\nleague: standard input, line 3: "
                    "Ebb - Gull is 2-1 here and 3-1 in the feed: not taken. `correct Ebb 2-1 Gull` "
                    "takes it, or --correct"))
    run = called(*words, "--correct", data=LIST.format("2-1").encode("utf-8"))
    counter.check("week: --correct", _wrote(run, "fix,2,2,1\nresult,3,0,0\n") + said(
        run, 0, "league: 1 result and 1 correction added; 1 was there already\nleague: corrected: "
                "Ebb 2-1 Gull (it had 3-1)"))
    run = called(*words, "--correct", data=b"Tern 1-0 Ebb\nTern 2-0 Ebb\n")
    counter.check("week: two scores in one list", said(run, 2, "Tern - Ebb (match 3) has the result "
                                                               "1-0 already"))


def _check_counts(counter: Counter, words: list) -> None:
    """At most ten lines, however much there is to say."""
    lines = "".join(f"2025-08-{day:02} Gull {10 + day}-0 Tern\n" for day in range(1, 2))
    heads = "".join(f"Matchday {number}\n" for number in range(1, 30))
    run = called(*words, data=(heads + lines + "Tern - Gull postp.\nEbb - Gull verl.\n").encode())
    counter.check("week: ten lines at most", [] if len(run.stderr.splitlines()) <= 10 and all(
        len(line) < 300 for line in run.stderr.splitlines()) else [run.stderr.decode()])
    run = called(*words, data=b"Gull 2-1 Tern\ncorrect Gull 2-2 Tern\nannul Gull - Tern\n"
                              b"deduct Ebb 3\npostpone Ebb - Gull\naward Tern 3-0 Ebb\n"
                              b"undo award Tern - Ebb\n")
    counter.check("week: what was added, by kind", said(
        run, 0, "1 result, 1 correction, 1 annulment, 1 deduction, 1 award and 1 new date added, 1 "
                "ruling taken back"))


def _check_rounds(counter: Counter, sheet: Path) -> None:
    """Three rounds without dates: a whole list goes by its order, a part of it is not clear."""
    run = called("sheet", "-", *MADE, data=ROUNDS.encode("utf-8"))
    counter.check("week: a sheet of three rounds", sound_end(run) + said(run, 0, "9 matches"))
    kept = sheet.read_bytes()
    sheet.write_bytes(run.stdout)
    played = ROUNDS.replace("Gull - Tern", "Gull 2-1 Tern", 1)[::-1].replace(
        "nreT - lluG", "nreT 0-3 lluG", 1)[::-1]
    run = called("feed", sheet, data=played.encode("utf-8"))
    counter.check("week: three rounds go by their order", _wrote(
        run, "result,1,2,1\nresult,7,3,0\n"))
    run = called("feed", sheet, data=b"Gull 2-1 Tern\n")
    counter.check("week: one match of two", said(
        run, 2, "comes 2 times in the sheet. Write the date before it, or one of these: "
                "`result,1,2,1` (open), `result,7,2,1` (open)"))
    dated = b"2025-09-02 Gull 2-1 Tern\n2025-09-01 Gull 0-0 Tern\n"
    counter.check("week: dates in another order than the list", said(
        called("feed", sheet, data=dated), 2, "comes 2 times in the sheet"))
    sheet.write_bytes(kept)


def _check_walkovers(counter: Counter, sheet: Path) -> None:
    """Signs that tell no score wait for one, which the sheet may keep."""
    for text in ("Home,Away,Score\nGull,Tern,+:-\nEbb,Gull,0:X\n", "Gull +:- Tern\nEbb - Gull -:+\n"):
        run = called("feed", sheet, data=text.encode("utf-8"))
        counter.check("week: signs without a score", said(
            run, 2, "the signs say who won and not the score: write the score that counts, like "
                    "3-0, or give --walkover 3-0"))
        run = called("feed", sheet, "--walkover", "2-0", data=text.encode("utf-8"))
        counter.check("week: --walkover", _wrote(run, "result,1,2,0\nresult,2,0,2\n"))
    kept = sheet.read_text("utf-8")
    sheet.write_text("# walkover: 3-0\n" + kept, "utf-8")
    run = called("feed", sheet, data=text.encode("utf-8"))
    counter.check("week: a sheet keeps it", _wrote(run, "result,1,3,0\nresult,2,0,3\n"))
    sheet.write_text(kept, "utf-8")
    run = called("feed", sheet, "--walkover", "0-3", data=b"")
    counter.check("week: a walkover that is lost", said(run, 1, "no score of the side that wins"))


def _check_days(counter: Counter, sheet: Path) -> None:
    """Days that can be read in two ways are asked about once."""
    games = "03/04/2026 Gull - Tern\n05/04/2026 Tern - Gull\n"
    run = called("sheet", "-", *MADE, data=games.encode("utf-8"))
    counter.check("week: days in two orders", said(
        run, 2, "is the day or the month first in 03/04/2026? No date of the list tells it. Say "
                "--days day-first or --days month-first"))
    made = called("sheet", "-", *MADE, "--days", "month-first", data=games.encode("utf-8"))
    counter.check("week: days as they are told", said(
        made, 0, "# days: month-first\n") + said(made, 0, "# 2026-03-04\nmatch,Gull,Tern\n"))
    kept = sheet.read_bytes()
    sheet.write_bytes(made.stdout)
    run = called("feed", sheet, data=b"05/04/2026 Tern 1-0 Gull\n")
    counter.check("week: the sheet keeps the days", _wrote(run, "result,2,1,0\n") + said(
        run, 0, "1 result added"))
    shown = called("sheet", "-", *MADE, data=games.replace("05/04", "15/04").encode("utf-8"))
    counter.check("week: days that the list tells are kept", said(shown, 0, "# days: day-first\n"))
    sheet.write_bytes(kept)


def _check_hints(counter: Counter, sheet: Path) -> None:
    """Dates of open matches that a list has otherwise than the sheet are said, not taken."""
    games = "2026-03-01 Gull - Tern\n2026-03-02 Tern - Gull\n"
    kept = sheet.read_bytes()
    sheet.write_bytes(called("sheet", "-", *MADE, data=games.encode("utf-8")).stdout)
    for text, says in (
            ("2026-03-01 Gull - Tern verl.\n", "1 open match is marked as postponed and kept on the "
             "day of the sheet: `postpone Gull - Tern` takes it from there"),
            ("2026-05-01 Gull - Tern\n2026-05-02 Tern - Gull\n", "2 open matches are on another day in "
             "the list: `postpone Gull - Tern 2026-05-01` takes it; so with the other")):
        run = called("feed", sheet, data=text.encode("utf-8"))
        counter.check(f"week: a hint at {text!r}", _wrote(run, "") + said(run, 0, says))
    moved = "postpone Gull - Tern\npostpone Tern - Gull 2026-05-02\n".encode("utf-8")
    log = sheet.with_name("moved.csv")
    log.write_bytes(called("feed", sheet, data=moved).stdout)
    for text in ("2026-03-01 Gull - Tern verl.\n", "2026-05-02 Tern - Gull\n"):
        run = called("feed", sheet, "--log", log, data=text.encode("utf-8"))
        counter.check(f"week: no hint at {text!r}", _wrote(run, "") + (
            [run.stderr.decode()] if b"postpone" in run.stderr.replace(b"postponed", b"") else []))
    sheet.write_bytes(kept)


def _check_long_names(counter: Counter) -> None:
    """A name that is too long: how long it is, and what to do. It has 20 letters of two bytes."""
    games = f"Gull - {LONG}\n{LONG} - Gull\n".encode("utf-8")
    run = called("sheet", "-", *MADE, data=games)
    counter.check("week: a long name", said(
        run, 2, f"`{LONG}` has 42 bytes (22 letters; one that is none of a to z takes 2 to 4): "
                "shorten it; a line LONG NAME,SHORT NAME in a file for --aliases lets your lists "
                "keep it"))
    with tempfile.TemporaryDirectory() as work:
        aliases = Path(work) / "aliases.csv"
        aliases.write_text(f"{LONG},Динамо\n", "utf-8")
        run = called("sheet", "-", *MADE, "--aliases", aliases, data=games)
        counter.check("week: an alias of a long name", said(run, 0, "match,Gull,Динамо\n"))
