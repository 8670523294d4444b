"""What the parts of a board's page share: safe text, names, and where things stand."""

from __future__ import annotations

from html import escape
from typing import TYPE_CHECKING

from .answers import Verdict
from .texts import Fixture

if TYPE_CHECKING:
    from .board import Board

LONG_WORD = 16


def safe(text: str) -> str:
    """Text as HTML shows it, whatever signs are in it."""
    return escape(text.encode("utf-8", "replace").decode("utf-8"), quote=True)


def name_of(text: str) -> str:
    """A name, kept apart from the direction of what is around it.

    It breaks at blanks alone; one with a very long word may break where it has to.
    """
    is_long = any(len(word) > LONG_WORD for word in text.split())
    return f'<bdi{" class=" + chr(34) + "long" + chr(34) if is_long else ""}>{safe(text)}</bdi>'


def capital(text: str) -> str:
    """HTML with a capital letter in front, also where an element begins it."""
    at = text.index(">") + 1 if text.startswith("<bdi") else 0
    return text[:at] + text[at:at + 1].upper() + text[at + 1:]


def match_of(fixture: Fixture) -> str:
    """A match by the names of its clubs."""
    return f"{name_of(fixture.home)} – {name_of(fixture.away)}"


def club_anchor(board: Board, club: str) -> str:
    """Where the reasons of a club stand."""
    return f"why-club-{board.sheet.club_named(club).number}"


def anchor(board: Board, verdict: Verdict) -> str:
    """Where the reasons of a mark stand."""
    return f"why-{verdict.places}-{board.sheet.club_named(verdict.club).number}"
