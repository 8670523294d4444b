"""Other names of the clubs of a sheet. Without a NAME it shows the short names by which each club is
found; with some, which club each of them means. --set keeps another name in the sheet, as a comment
that futmax passes over, so that every part of `league` knows it.
"""

from __future__ import annotations

import argparse

from . import common
from .aliases import add_alias_argument, chosen_club, read_aliases
from .bookkeeper import Bookkeeper
from .list_settings import NAME, settings_in
from .many_asks import front_of
from .name_words import plain_form, tidy
from .names import UnknownName, WAYS, club_of, is_same_club, shown
from .records import record_of
from .several import file_name
from .short_names import KNOWN, initials_of, is_well_known
from .texts import Sheet
from .wording import shown as printed


def add_arguments(parser: argparse.ArgumentParser) -> None:
    """The words of `league names`."""
    parser.add_argument("sheet", metavar="SHEET", help="the sheet, or a file that begins with it")
    parser.add_argument("names", nargs="*", metavar="NAME", help="say which club this name means")
    parser.add_argument("--set", action="append", default=[], metavar="NAME=CLUB",
                        help="keep another name of a club in the sheet; once for each")
    parser.add_argument("--forget", action="append", default=[], metavar="NAME",
                        help="take such a name out of the sheet")
    add_alias_argument(parser)


def run(arguments: argparse.Namespace) -> int:
    """Shows names, or keeps some."""
    data = common.read_bytes(arguments.sheet)
    sheet = Bookkeeper(front_of(data), sheet_name=file_name(arguments.sheet)).sheet
    if arguments.set or arguments.forget:
        if arguments.sheet == "-" or arguments.names:
            raise common.Trouble("--set and --forget change the file SHEET: name it alone",
                                 common.BAD_WORDS)
        for name in arguments.forget:
            data = _without(data, name)
        for text in arguments.set:
            data = _with(data, sheet, text)
        common.write_text(data.decode("utf-8", "surrogateescape"), arguments.sheet)
        return common.DONE
    kept = {**settings_in(data).names, **read_aliases(arguments.aliases)}
    if not arguments.names:
        common.write_text(_table(data, sheet, kept))
        return common.DONE
    found = [_meaning(name, sheet, kept) for name in arguments.names]
    common.write_text("".join(line + "\n" for line, _ in found))
    return common.DONE if all(is_known for _, is_known in found) else common.TO_MEND


def _meaning(name: str, sheet: Sheet, kept: dict[str, str]) -> tuple[str, bool]:
    """Which club a name means and why, in a line; and whether it means one."""
    names = [club.name for club in sheet.clubs]
    try:
        club = club_of(name, names, kept)
    except UnknownName as unknown:
        return f"{name}: {unknown.message}", False
    if plain_form(tidy(name)) in kept and club != name:
        return f"{name}: {printed(club)} (kept name)", True
    way = next((text for text, is_meant in WAYS.items() if is_meant(tidy(name), club)), "")
    return f"{name}: {printed(club)} ({way})", True


def _table(data: bytes, sheet: Sheet, kept: dict[str, str]) -> str:
    """Each club with the short names by which it is found."""
    names = [club.name for club in sheet.clubs]
    width = max(map(len, names), default=0)
    lines = []
    for club in names:
        known = [one for one in KNOWN if is_well_known(one, club)]
        short = [one for one in (*_kept_in(data), *known, *initials_of(club))
                 if _is_for(one, club, names, kept)]
        texts = {plain_form(one): one for one in reversed(short)}
        lines.append(f"{printed(club).ljust(width)}  {', '.join(reversed(list(texts.values())))}"
                     .rstrip() + "\n")
    return "".join(lines)


def _kept_in(data: bytes) -> list[str]:
    """The other names that a sheet keeps, as they are written."""
    found = [NAME.match(line) for line in data.decode("utf-8", "surrogateescape").splitlines()]
    return [one.group(1) for one in found if one]


def _is_for(name: str, club: str, names: list[str], kept: dict[str, str]) -> bool:
    """Whether a short name means this club and is not its name."""
    try:
        return name != club and club_of(name, names, kept) == club
    except UnknownName:
        return False


def _with(data: bytes, sheet: Sheet, text: str) -> bytes:
    """The sheet with another name below the record of its club."""
    name, sign, wanted = (tidy(part) for part in text.partition("="))
    if not (sign and name and wanted):
        raise common.Trouble(f"--set is NAME=CLUB, and not {shown(text)}", common.BAD_WORDS)
    names, kept = [club.name for club in sheet.clubs], settings_in(data).names
    club = chosen_club(wanted, sheet, kept)
    own = next((one for one in names if is_same_club(name, one)), None)
    taken = own or kept.get(plain_form(name))
    if taken == club:
        return data
    if taken:
        raise common.Trouble(f"{shown(name)} means {shown(taken)} already" + (
            "" if own else f": `league names SHEET --forget {name}` takes that out"))
    lines = data.split(b"\n")
    place = next(number for number, raw in enumerate(lines) if _is_club(raw, club))
    lines.insert(place + 1, f"# name: {name} = {club}".encode("utf-8", "surrogateescape"))
    return b"\n".join(lines)


def _is_club(raw: bytes, club: str) -> bool:
    """Whether a line is the record of a club."""
    record = record_of(1, raw.rstrip(b"\r"))
    return record is not None and record.fields[:2] == ["club", club]


def _without(data: bytes, name: str) -> bytes:
    """The sheet without another name."""
    lines = data.split(b"\n")
    found = [NAME.match(raw.decode("utf-8", "surrogateescape").rstrip("\r")) for raw in lines]
    kept = [raw for raw, one in zip(lines, found)
            if one is None or plain_form(one.group(1)) != plain_form(name)]
    if len(kept) == len(lines):
        raise common.Trouble(f"the sheet keeps no name {shown(name)}", common.BAD_WORDS)
    return b"\n".join(kept)
