"""Small words that the steps of a proof share, and what stops a step that does not add up."""

from __future__ import annotations

from .wording import listed, shown
from .zones import Zone


class DoesNotAddUp(Exception):
    """A step that the checker accepted, and whose sums come out otherwise here."""


def hold(condition: bool) -> None:
    """Stops where a step does not come out as the checker says."""
    if not condition:
        raise DoesNotAddUp


def names_of(zone: Zone, clubs: list[int]) -> str:
    """Clubs by their names."""
    return listed([shown(zone.name(club)) for club in clubs])


def is_are(clubs: list[int]) -> str:
    """The verb after so many clubs."""
    return "is" if len(clubs) == 1 else "are"


def from_place(place: int, size: int) -> str:
    """This place or a later one, where there is one."""
    return f"place {place} or further down" if place < size else f"place {place}"


def up_to_place(place: int) -> str:
    """This place or a better one, where there is one."""
    return f"place {place} or higher" if place > 1 else f"place {place}"
