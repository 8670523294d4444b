"""The sentences of the page in one language: a file `board.LANGUAGE.txt` each, a sentence a key."""

from __future__ import annotations

import re
from pathlib import Path

from .line_names import RELEGATED, LineNames
from .marks import name_of, safe

HERE = Path(__file__).resolve().parent
USUAL = "en"
ROUND = re.compile(r"(?:matchday|round|gameweek) (\d+)", re.IGNORECASE)
ISO = re.compile(r"(\d{4})-(\d{2})-(\d{2})")


class Phrases:
    """Sentences by their keys; `text` gives them as HTML, whose values have to be safe already."""

    def __init__(self, language: str = USUAL) -> None:
        self.language = language
        self.sentences = _read(HERE / f"board.{language}.txt")

    def plain(self, key: str, **values: object) -> str:
        """A sentence as text."""
        return self.sentences[key].format(**values)

    def text(self, key: str, **values: object) -> str:
        """A sentence as HTML."""
        return safe(self.sentences[key]).format(**values)

    def counted(self, key: str, count: int, **values: object) -> str:
        """A sentence on one, or on many."""
        return self.text(f"{key}.{'one' if count == 1 else 'many'}", **{"count": count, **values})

    def listed(self, names: list[str], word: str = "and") -> str:
        """Names that are safe already, in a row."""
        if len(names) <= 1:
            return "".join(names)
        return self.text(word, first=", ".join(names[:-1]), last=names[-1])

    def date(self, day: str) -> str:
        """A day as people of this language write it; another text as it is."""
        round_number = ROUND.fullmatch(day)
        if round_number:
            return f"{self.text('chart.day')} {round_number.group(1)}"
        found = ISO.fullmatch(day)
        months = self.sentences["months"].split(", ")
        if not found or not 1 <= int(found.group(2)) <= 12:
            return safe(day)
        return self.text("date", day=int(found.group(3)), month=months[int(found.group(2)) - 1],
                         year=found.group(1))

    def line(self, names: LineNames, places: int, size: int) -> str:
        """What the first places of a line are called."""
        if names.is_cup:
            return self.text("line.cup")
        if places in names.inside:
            return name_of(names.inside[places])
        if names.below.get(places) == RELEGATED and places < size:
            return self.text("line.safety")
        return self.text("line.first") if places == 1 else self.text("line.top", places=places)

    def below(self, names: LineNames, places: int) -> str:
        """What those are called that miss a line."""
        told = names.outside(places)
        if told == RELEGATED:
            return self.text("relegated")
        return safe(told) if told else self.text("below", places=places)


def languages() -> list[str]:
    """The languages that have a file."""
    return sorted(path.name.split(".")[1] for path in HERE.glob("board.*.txt"))


def _read(path: Path) -> dict[str, str]:
    """The sentences of a file: `key = sentence`, and comments after `#`."""
    found = {}
    for row in path.read_text("utf-8").splitlines():
        key, sign, sentence = row.partition("=")
        if sign and not row.startswith("#"):
            found[key.strip()] = sentence.strip()
    return found
