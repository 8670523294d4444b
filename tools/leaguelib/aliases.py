"""Other names of clubs, in a file of two columns: the other name, and the club that it means.

    Spurs,Tottenham Hotspur
    Wolves,Wolverhampton Wanderers

Commas, semicolons or tabs stand between the two; lines that begin with `#` are passed over.
"""

from __future__ import annotations

import argparse

from . import common
from .files import examine, without_mark
from .list_settings import settings_in
from .name_words import plain_form, tidy
from .names import UnknownName, club_of, shown
from .records import fields_of
from .texts import Sheet


def add_alias_argument(parser: argparse.ArgumentParser) -> None:
    """The option `--aliases`."""
    parser.add_argument("--aliases", metavar="FILE",
                        help="lines OTHER NAME,CLUB: other names that clubs go by")


def read_aliases(path: str | None) -> dict[str, str]:
    """The clubs by the plain form of their other names; raises `Trouble` with each wrong line."""
    if path is None:
        return {}
    examined = examine(common.test_list(common.read_bytes(path), path))
    if not examined.is_readable:
        raise common.Trouble(f"{path}: {examined.messages[0]}")
    aliases: dict[str, str] = {}
    wrong: list[str] = []
    for number, raw in enumerate(without_mark(examined.data).splitlines(), 1):
        if not raw.strip() or raw.startswith(b"#"):
            continue
        reason = _take(aliases, [tidy(part) for part in _columns(raw)])
        if reason:
            wrong.append(f"{path}, line {number}: {reason}: "
                         f"{shown(raw.decode('utf-8', 'surrogateescape'))}")
    if wrong:
        raise common.Trouble("\n".join(wrong))
    return aliases


def _columns(raw: bytes) -> list[str]:
    """The columns of a line, whichever sign stands between them."""
    for sign in (b"\t", b";"):
        if sign in raw:
            return raw.decode("utf-8", "surrogateescape").split(sign.decode())
    return fields_of(raw)


def _take(aliases: dict[str, str], columns: list[str]) -> str:
    """Takes a line; gives what is wrong with it, or nothing."""
    if len(columns) != 2 or not all(columns):
        return "a line is OTHER NAME,CLUB"
    form = plain_form(columns[0])
    if aliases.get(form, columns[1]) != columns[1]:
        return f"{shown(columns[0])} is there already, for {shown(aliases[form])}"
    aliases[form] = columns[1]
    return ""


def all_aliases(sheet: bytes, path: str | None) -> dict[str, str]:
    """The other names that a sheet keeps in its comments, and those of a file."""
    return {**settings_in(sheet).names, **read_aliases(path)}


def chosen_club(name: str, sheet: Sheet, aliases: dict[str, str] | None = None) -> str:
    """The club of the sheet that a word of the command line means; raises `Trouble` if none."""
    try:
        return club_of(name, [club.name for club in sheet.clubs], aliases)
    except UnknownName as unknown:
        raise common.Trouble(unknown.message, common.BAD_WORDS) from unknown
