"""What `league feed` says of its work: first how much it added and knew, then what it skipped."""

from __future__ import annotations

from collections import Counter

from .feed_lines import Made
from .ledger import AWARDED, UNDO_IN_FRONT
from .sheet_dates import NEW_DATE
from .wording import counted, listed

MOST_LINES, MOST_CHANGED = 10, 5
KINDS = {"result": "result", "fix": "correction", "void": "annulment", "deduct": "deduction",
         "award": "award", "day": "new date", "undo": "ruling"}


def report_of(made: Made) -> list[str]:
    """The sentences, ten at most; where something was refused, the notes alone."""
    if made.wrong or made.refused:
        return made.notes
    changed = made.changed[:MOST_CHANGED]
    if len(made.changed) > MOST_CHANGED:
        changed.append(f"and {len(made.changed) - MOST_CHANGED} more that "
                       f"{'were corrected' if made.is_correcting else 'were not taken'}")
    said = [added_text(made), *changed, *made.notes]
    return said if len(said) <= MOST_LINES else [*said[:MOST_LINES - 1],
                                                 f"and {len(said) - MOST_LINES + 1} more remarks"]


def added_text(made: Made) -> str:
    """How much was added, and how much stood there already."""
    counts = _counts(made.lines)
    parts = [counted(counts[kind], word) for kind, word in KINDS.items()
             if counts[kind] and kind != "undo"]
    text = listed(parts) + " added" if parts else ""
    if counts["undo"]:
        back = counted(counts["undo"], "ruling") + " taken back"
        text = f"{text}, {back}" if text else back
    known = counted(made.known, "was", "were")
    return (text or "nothing new") + (f"; {known} there already" if made.known else "")


def _counts(lines: list[str]) -> Counter:
    """How many lines of each kind; what takes a ruling back counts as that alone, and the record
    below an award as one award.
    """
    counts: Counter = Counter()
    above = ""
    for line in lines:
        if UNDO_IN_FRONT.match(line) or AWARDED.match(line):
            counts["undo" if UNDO_IN_FRONT.match(line) else "award"] += 1
        elif NEW_DATE.match(line) and not UNDO_IN_FRONT.match(above):
            counts["day"] += 1
        elif not line.startswith("#") and not (UNDO_IN_FRONT.match(above) or AWARDED.match(above)):
            counts[line.split(",")[0]] += 1
        above = line
    return counts
