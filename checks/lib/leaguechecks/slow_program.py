#!/usr/bin/env python3
"""Stands in for futmax with the rows of checks/reference.py, which tries every finish: fit for small
leagues with a small goal limit. Behind `possible` stand two finishes without scores.
"""

import csv
import sys
from pathlib import Path

sys.dont_write_bytecode = True
sys.path.insert(0, str(Path(__file__).resolve().parents[2]))
import reference  # noqa: E402  (the folder of the checks is set above)


def rows_for(mode: str, league: reference.League, record: list[str]) -> list[list]:
    """The rows that a record earns: those of an ask, or of a `when`; none for any other."""
    is_ask = reference.take(league, record)
    if mode == "whatif":
        return reference.when_rows(league, int(record[1]) - 1) if record[0] == "when" else []
    rows = reference.table_rows(league) if is_ask and mode == "table" else (
        reference.verdict_rows(league, reference.blocks_of) if is_ask else [])
    return [["ask", league.events], *rows] if is_ask else []


def main() -> int:
    """Answers each ask or `when` of standard input, in three modes; it has no proofs."""
    if sys.argv[1] not in ("verdicts", "whatif", "table") or "--proofs" in sys.argv:
        print("usage,futmax MODE [--workers N] [--proofs] [--seed N]")
        return 1
    league = reference.League()
    writer = csv.writer(sys.stdout, lineterminator="\n")
    for line in sys.stdin:
        text = line.rstrip("\r\n")
        if not text or text.startswith("#"):
            continue
        rows = rows_for(sys.argv[1], league, next(csv.reader([text])))
        lots = list(range(1, len(league.clubs) + 1))
        for row in rows:
            writer.writerow(row)
            if row[-1] == "possible":
                for claim in ("inside", "outside"):
                    print(f'["finish","{claim}"]\n["lots",{lots}]'.replace(", ", ","))
        sys.stdout.flush()
    return 0


if __name__ == "__main__":
    sys.exit(main())
