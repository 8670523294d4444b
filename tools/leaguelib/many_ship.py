"""The command `league` and the program in one file, for machines where neither is installed:

    league many --ship league.pyz
    python3 league.pyz ask sheet.csv feed.csv

The machine needs Python 3.8. The file unpacks the program once, into a folder of the user's own.
"""

from __future__ import annotations

import hashlib
import io
import os
import stat
import tempfile
import zipfile
from pathlib import Path

from . import common, writing

MEMBER = "futmax"
MAIN = """import sys
sys.dont_write_bytecode = True
from leaguelib import many_ship
sys.exit(many_ship.run_shipped())
"""
DAY = (1980, 1, 1, 0, 0, 0)


def shipped_bytes(program: str, has_main: bool = True) -> bytes:
    """The one file; the same bytes where the tools and the program are the same.

    Without its main part it is a package that other Pythons import, for Dask.
    """
    members = [("__main__.py", MAIN.encode())] if has_main else []
    members += [(MEMBER, common.read_bytes(program)), *_modules()]
    data = io.BytesIO()
    data.write(b"#!/usr/bin/env python3\n")
    with zipfile.ZipFile(data, "a", zipfile.ZIP_DEFLATED) as archive:
        for name, content in members:
            archive.writestr(zipfile.ZipInfo(name, DAY), content, zipfile.ZIP_DEFLATED)
    return data.getvalue()


def _modules() -> list[tuple[str, bytes]]:
    """The modules of the command, from their folder or from the one file."""
    if archive_path():
        with zipfile.ZipFile(archive_path()) as archive:
            return [(name, archive.read(name)) for name in archive.namelist()
                    if name.startswith("leaguelib/")]
    home = Path(__file__).resolve().parent
    return [(f"leaguelib/{path.name}", path.read_bytes()) for path in sorted(home.iterdir())
            if path.is_file()]


def write_shipped(program: str, path: str, has_main: bool = True) -> None:
    """Writes the one file."""
    writing.replace(path, shipped_bytes(program, has_main), 0o755)


def archive_path() -> str:
    """The one file that this module was read from; nothing if it was read from a folder."""
    return getattr(__spec__.loader, "archive", "")


def unpacked_program() -> str:
    """The program out of the one file, unpacked where it is not yet."""
    with zipfile.ZipFile(archive_path()) as archive:
        data = archive.read(MEMBER)
    folder = Path(tempfile.gettempdir()) / f"futmax-{os.getuid()}"
    folder.mkdir(mode=0o700, exist_ok=True)
    facts = folder.lstat()
    if facts.st_uid != os.getuid() or not stat.S_ISDIR(facts.st_mode) or facts.st_mode & 0o022:
        raise common.Trouble(f"{folder}: another user may write here; set TMPDIR to a folder of "
                             "your own.", common.NO_PROGRAM)
    path = folder / f"futmax-{hashlib.sha256(data).hexdigest()[:16]}"
    if not path.exists() or path.read_bytes() != data:
        writing.put_whole(str(path), [data], 0o755, is_synced=False)
    return str(path)


def run_shipped() -> int:
    """Runs `league` out of the one file."""
    from .cli import main  # pylint: disable=import-outside-toplevel
    try:
        os.environ.setdefault("FUTMAX", unpacked_program())
    except (OSError, common.Trouble) as fault:
        common.say(f"league: the program cannot be unpacked: {fault}")
        return common.NO_PROGRAM
    return main()
