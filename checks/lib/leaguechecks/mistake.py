"""An everyday mistake in a sheet or a feed: an input, the row with which the program ends, and what
`league lint` has to say about it, among it the line to write instead.

`fault` is the row of the program, nothing if it takes the input. `writes` are the lines that
lint offers in place of the wrong one; `LEAVE_OUT` where it says that the line can be left out.
"""

from __future__ import annotations

from dataclasses import dataclass

LEAVE_OUT = "nothing; leave the line out"
CLUBS = "league,Cup,9\nclub,Anchor,1\nclub,Köln,1\nclub,Dock United,1\n"
MATCHES = "match,Anchor,Köln\nmatch,Köln,Dock United\nmatch,Dock United,Anchor\n"
SHEET = CLUBS + MATCHES + "line,1\nseason\n"
FEED = SHEET + "result,1,2,1\n"


@dataclass(frozen=True)
class Mistake:
    """A mistake: its name, the input, the row of the program, and what lint says."""

    name: str
    data: str | bytes
    fault: str
    says: tuple[str, ...]
    writes: tuple[str, ...] = ()

    @property
    def input(self) -> bytes:
        """The input as bytes."""
        return self.data if isinstance(self.data, bytes) else self.data.encode("utf-8")


def in_league(line: str) -> str:
    """An input with this line in place of the `league` record."""
    return line + "\n" + SHEET.split("\n", 1)[1] + "ask\n"


def in_clubs(line: str) -> str:
    """An input with this line after three clubs, and a whole sheet and feed after it."""
    return CLUBS + line + "\n" + MATCHES + "line,1\nseason\nask\n"


def in_matches(line: str) -> str:
    """An input with this line in place of the third match."""
    matches = MATCHES.rsplit("match", 1)[0]
    return CLUBS + matches + line + "\nline,1\nseason\nask\n"


def in_feed(line: str) -> str:
    """An input with this line after a result of the first fixture."""
    return FEED + line + "\nask\n"
