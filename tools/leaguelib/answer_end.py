"""Where an answer ends, told from its lines alone: it can be read while the program runs."""

from __future__ import annotations

import json

from .records import fields_of

PARTS_BEHIND = {"possible": 2, "unsettled": 2, "clinched": 0, "lost": 0}


class AnswerEnd:
    """Takes the lines of one answer, and says of each whether it was the last. Of a cup it has to
    know how many clubs each group has.
    """

    def __init__(self, clubs: int, lines: int, mode: str, has_proofs: bool = False,
                 sizes: tuple[int, ...] = ()) -> None:
        self.rows = clubs if mode == "table" else clubs * lines
        self.has_proofs = has_proofs
        # the proof of a cup's row has two trees about its club, and one about each club of the
        # groups that it lists
        self.trees = 2 if sizes else 1
        self.sizes = sizes
        self.parts = 0
        self.branches = 0
        self.fault: tuple[str, ...] = ()

    def take(self, raw: bytes) -> bool:
        """Takes a line without its end; whether the answer ends with it."""
        if raw.startswith(b"["):
            self._take_proof_line(raw)
        else:
            self._take_row(fields_of(raw))
        return bool(self.fault) or (self.rows == 0 and self.parts == 0)

    def _take_row(self, fields: list[str]) -> None:
        """A row; what has to follow it is counted in parts."""
        kind = fields[0] if fields else ""
        if kind in ("fault", "usage"):
            self.fault = tuple(fields)
        elif kind in ("verdict", "place", "score"):
            self.rows = max(0, self.rows - 1)
            self.parts = self._parts_behind(kind, fields)
            self.branches = 0

    def _parts_behind(self, kind: str, fields: list[str]) -> int:
        """How many examples and trees follow a row."""
        if kind == "score":
            return sum(".." in part for part in fields[3:5])
        word = fields[3] if kind == "verdict" and len(fields) > 3 else ""
        if word in ("clinched", "lost") and self.has_proofs:
            return self.trees
        return PARTS_BEHIND.get(word, 0)

    def _take_proof_line(self, raw: bytes) -> None:
        """A line of an example or of a tree."""
        try:
            parts = json.loads(raw)
            word = parts[0]
            if word == "groups":
                self.parts += sum(self.sizes[group - 1] for group in parts[1])
        except (ValueError, IndexError, TypeError, RecursionError):
            return
        if word in ("tree", "spent", "group_tree", "group_spent"):
            self.branches = 1
        elif word in ("split", "new_split"):
            self.branches += 1
        elif word in ("leaf", "new_leaf", "open"):
            self.branches -= 1
            self.parts -= self.branches == 0
        elif word == "lots":
            self.parts -= 1
