"""Several lists of one league in any order, cross tables of one round, forms that are no list."""

from __future__ import annotations

import tempfile
from itertools import permutations
from pathlib import Path

from .counting import Counter, called, said, sound_end

WORDS = ["--name", "Cup", "--lines", "1", "--order", "head_first"]
PLAYED = "Date,Home,Away,Score\n2024-08-15,Gull,Tern,2-1\n2024-08-22,Tern,Ebb,0-0\n"
TO_COME = "Date,Home,Away\n2024-08-29,Ebb,Gull\n2024-09-05,Tern,Gull\n2024-09-12,Ebb,Tern\n"
LATER = "2024-09-19 Gull - Ebb\n"
WHOLE = ("# 2024-08-15\nmatch,Gull,Tern\n# 2024-08-22\nmatch,Tern,Ebb\n# 2024-08-29\n"
         "match,Ebb,Gull\n# 2024-09-05\nmatch,Tern,Gull\n# 2024-09-12\nmatch,Ebb,Tern\n"
         "# 2024-09-19\nmatch,Gull,Ebb\n")
TEXT = "= Cup\n[Aug/15]\nGull  2-1  Tern\n[Aug/22]\nTern  0-0  Ebb\n"
HALF = "Home \\ Away\tGUL\tTER\tEBB\nGull\t—\t4–1\t2–0\nTern\t\t—\t3–1\nEbb\t\t\t—\n"
# a second list beside PLAYED: more words, the status, and what is said or written
SECOND = (
    ("another score", "Date,Home,Away,Score\n2024-08-15,Gull,Tern,2-2\n", ["--as-is"], 2,
     "Gull - Tern is 2-1 in one, line 2, and 2-2 in two, line 2. Take one of the two out"),
    ("another day, open there", "Date,Home,Away\n2024-08-16,Gull,Tern\n", ["--as-is"], 0,
     "is under 2024-08-15 in one, line 2 and under 2024-08-16 in two, line 2"),
    ("another day, and played on both", "Date,Home,Away,Score\n2025-02-15,Gull,Tern,2-1\n",
     ["--as-is"], 0, "match,Gull,Tern\n# 2024-08-22\nmatch,Tern,Ebb\n# 2025-02-15\n"
     "match,Gull,Tern\n"),
    ("the same days without a year", TEXT, ["--as-is"], 0, "2 matches"),
    ("a list that cannot be read", "Home,Away,Score\nGull,,2-1\n", ["--as-is"], 2,
     "two, line 2: the away side's name is missing"),
    ("a list that is no text", "PK\x03\x04", ["--as-is"], 2, "workbook"),
)


def check_several(counter: Counter) -> None:
    """What several lists give together."""
    with tempfile.TemporaryDirectory() as work:
        one, two, three = (Path(work) / name for name in ("one", "two", "three"))
        for file, text in ((one, PLAYED), (two, TO_COME), (three, LATER)):
            file.write_text(text, "utf-8")
        for files in permutations((one, two, three)):
            run = called("sheet", *files, *WORDS)
            counter.check(f"sheet of {[file.name for file in files]}",
                          sound_end(run) + said(run, 0, WHOLE))
        for name, text, more, status, says in SECOND:
            two.write_text(text, "utf-8")
            run = called("sheet", one, two, *WORDS, *more)
            text = (run.stdout + run.stderr).replace(work.encode() + b"/", b"")
            run.stdout, run.stderr = text, b""
            counter.check(f"two lists: {name}", sound_end(run) + said(run, status, says))
    check_alone(counter)


def check_alone(counter: Counter) -> None:
    """Cross tables of which one half is empty, JSON, and standard input named twice."""
    for more, status, says in (([], 0, "give --rounds 1"), (["--rounds", "2"], 0, "6 matches"),
                               (["--rounds", "1"], 0, "match,Gull,Tern\nmatch,Gull,Ebb\nmatch,Tern,"
                                                      "Ebb\nline,1\n")):
        run = called("sheet", "-", *WORDS, *more, data=HALF.encode("utf-8"))
        counter.check(f"half of a cross table {more}", sound_end(run) + said(run, status, says))
    run = called("sheet", "-", *WORDS, data=b'[{"team1":"Gull","team2":"Tern","score":[2,1]}]')
    counter.check("a list in JSON", sound_end(run) + said(run, 2, "this is JSON"))
    run = called("sheet", "-", "-", *WORDS, data=PLAYED.encode("utf-8"))
    counter.check("sheet: standard input twice", sound_end(run) + said(run, 1, "give `-` once"))
    run = called("sheet", "-", *WORDS, "--as-is", "--no-comments", "--relegated",
                 data=PLAYED.encode("utf-8"))
    counter.check("sheet: names without comments", sound_end(run) + said(run, 1, "--no-comments"))
    run = called("sheet", "-", *WORDS, "--as-is", "--no-comments", data=PLAYED.encode("utf-8"))
    missing = called("sheet", "-", *WORDS, data=PLAYED.encode("utf-8"))
    counter.check("sheet: one match is missing", said(missing, 2, "Missing is 1 match: Gull - Ebb"))
    counter.check("sheet: no comments", sound_end(run) + said(run, 0, "match,Gull,Tern") + (
        ["a comment"] if b"#" in run.stdout else []))
