#!/usr/bin/env python3
"""A program in place of futmax that answers cups: by trying every finish. It answers each `ask` at
once; its `groups_check` accepts what it is given. With a budget of 1 what is possible is unsettled.
"""

import csv
import random
import sys
from pathlib import Path

sys.dont_write_bytecode = True
HERE = Path(__file__).resolve().parent
sys.path[:0] = [str(HERE), str(HERE.parent)]
from cup_reference import Cup, Ends, ends_of, record_of, rows_at, take, words_of  # noqa: E402
from cup_writer import (  # noqa: E402
    Finish, example_lines, finishes_of, refuted_lines, text_of, way_of)
import reference  # noqa: E402


def lines_below(cup: Cup, every: list[list[Finish]], ends: list[Ends], number: int,
                word: str, has_proofs: bool) -> list[str]:
    """What follows the row of a club: two examples, or a proof if one is wanted."""
    at, club = cup.clubs()[number]
    if word in ("clinched", "lost"):
        return refuted_lines(cup, ends, at, club, word, random.Random(0)) if has_proofs else []
    inside = example_lines(cup, "inside", way_of(cup, every, at, club, True))
    if word == "unsettled":
        spent = ["group_spent", "below", number + 1]
        return [*inside, *map(text_of, (spent, ["new_leaf", "count"]))]
    return inside + example_lines(cup, "outside", way_of(cup, every, at, club, False))


def answer_of(cup: Cup, has_proofs: bool) -> list[str]:
    """The rows of an ask, each with what follows it."""
    every, ends = [[part(group) for group in cup.groups] for part in (finishes_of, ends_of)]
    words = [("unsettled" if cup.budget == 1 and word == "possible" else word)
             for word in words_of(cup, ends)]
    rows = [",".join(map(str, row)) for row in rows_at(cup, words)]
    return rows[:1] + [line for number, (row, word) in enumerate(zip(rows[1:], words))
                       for line in [row, *lines_below(cup, every, ends, number, word, has_proofs)]]


def checked(lines: list[str]) -> str:
    """The row on a report, which is believed."""
    at = lines.index("proofs\n")
    rows = [line for line in lines[at:] if line.startswith("verdict,")]
    return f"accepted,{len(rows)},{sum('unsettled' in row for row in rows)}"


def main() -> int:
    """Answers as the words say."""
    mode, *words = sys.argv[1:] or [""]
    if mode == "groups_check":
        print(checked(list(sys.stdin)))
        return 0
    if mode not in ("groups", "table"):
        print("usage,futmax MODE [--workers N] [--proofs] [--seed N]")
        return 1
    cup, league = Cup(), reference.League()
    for record in filter(None, (record_of(line.rstrip("\n")) for line in sys.stdin)):
        if mode == "table" and reference.take(league, record):
            print(f"ask,{league.events}")
            csv.writer(sys.stdout, lineterminator="\n").writerows(reference.table_rows(league))
        elif mode == "groups" and take(cup, record):
            print("\n".join(answer_of(cup, "--proofs" in words)), flush=True)
    return 0


if __name__ == "__main__":
    sys.exit(main())
