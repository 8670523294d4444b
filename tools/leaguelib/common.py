"""What every part of `league` shares: exit statuses, messages, and reading and writing of files."""

from __future__ import annotations

import os
import re
import subprocess
import sys
from pathlib import Path

from .records import MOST_INPUT_BYTES

DONE = 0
BAD_WORDS = 1
TO_MEND = 2
DOUBTFUL = 3
FEED_REFUSED = 3
CANNOT_READ = 4
CANNOT_WRITE = 5
NO_PROGRAM = 6
TOO_LONG = 8
OWN_FAULT = 70
INTERRUPTED = 130

MOST_LIST_BYTES, MOST_LIST_LINES, MOST_LIST_LINE = 4_000_000, 20_000, 65_536

STATUS_TABLE = """\
exit statuses; those with a star are of ask, table, scores, tonight, check, save and resume, as
futmax has them:
  0    done: nothing to fix, every ask is answered, or the report is accepted
  1    wrong arguments
  2    something in the input must be fixed; the messages say what
  2 *  a line of the sheet is refused
  3    the input can be used, but something looks wrong, is unsettled or was not checked; or the
       feed is of another sheet, and nothing was done
  3 *  a line of the feed, or of a saved text, is refused; answers before it are good
  4    a file, or standard input, cannot be read
  5    the output cannot be written
  6    the program futmax cannot be run, or it ended with a fault
  6 *  out of memory
  7 *  the report is no proof
  8    a list is too long
  8 *  a line has more than 1,024 bytes, or the input more than 67,108,864
  70   a fault of league itself
  70 * the program futmax is not there or cannot be run
  130  stopped by hand (Ctrl-C)
"""


def version() -> str:
    """The version that the file VERSION beside the folder of these tools names."""
    try:
        path = Path(__file__).resolve().parents[2] / "VERSION"
        return path.read_text("utf-8").strip() or "without a version"
    except (OSError, ValueError):
        return "without a version"


class Trouble(Exception):
    """Ends the command with a message for people and an exit status."""

    def __init__(self, message: str, status: int = TO_MEND) -> None:
        super().__init__(message)
        self.message = message
        self.status = status


# control signs but tab and line end, also those behind ASCII, and signs that turn the direction
STEERING = re.compile(r"[\x00-\x08\x0b-\x1f\x7f-\x9f\u061c\u200e\u200f\u202a-\u202e\u2066-\u2069]")


def visible(text: str) -> str:
    """A text for a terminal: signs that would steer it, or turn the order of others, written out."""
    return STEERING.sub(lambda found: f"<U+{ord(found.group()):04X}>", text)


def say(message: str) -> None:
    """Writes a message to standard error, whatever signs are in it."""
    if sys.stderr is None:
        return
    data = (visible(message) + "\n").encode("utf-8", "backslashreplace")
    sys.stderr.flush()
    sys.stderr.buffer.write(data)
    sys.stderr.buffer.flush()


def read_bytes(path: str) -> bytes:
    """The bytes of a file, or of standard input where the path is `-`."""
    try:
        if path == "-":
            if sys.stdin is None:
                raise Trouble("standard input is closed", CANNOT_READ)
            data = sys.stdin.buffer.read(MOST_INPUT_BYTES + 1)
        else:
            with open(path, "rb") as file:
                data = file.read(MOST_INPUT_BYTES + 1)
    except (OSError, ValueError) as fault:
        reason = getattr(fault, "strerror", None) or str(fault)
        raise Trouble(f"{path}: cannot be read: {reason}. Look at its name and at your rights, or "
                      "name another file", CANNOT_READ) from fault
    if len(data) > MOST_INPUT_BYTES:
        raise Trouble(f"{path}: this has more than {MOST_INPUT_BYTES:,} bytes, the most that "
                      "futmax takes")
    return data


def test_list(data: bytes, name: str = "") -> bytes:
    """The bytes of a list, or `Trouble` if it is far longer than any of one season is."""
    front = f"{name}: " if name else ""
    lines = data.count(b"\n") + data.count(b"\r")
    if len(data) > MOST_LIST_BYTES or lines > MOST_LIST_LINES:
        raise Trouble(f"{front}this list has {len(data):,} bytes in {lines:,} lines. A season has "
                      f"600 matches at most, and a list {MOST_LIST_BYTES:,} bytes in "
                      f"{MOST_LIST_LINES:,} lines: keep the lines of this season alone", TOO_LONG)
    longest = max(map(len, data.replace(b"\r", b"\n").split(b"\n")))
    if longest > MOST_LIST_LINE:
        raise Trouble(f"{front}a line of this list has {longest:,} bytes, and {MOST_LIST_LINE:,} "
                      "are the most: is it a list with a match a line?", TOO_LONG)
    return data


def write_text(text: str, path: str = "-") -> None:
    """Writes text to a file, or to standard output where the path is `-`."""
    if path == "-" and sys.stdout is not None and sys.stdout.isatty():
        text = visible(text)
    data = text.encode("utf-8", "surrogateescape")
    if path == "-":
        if sys.stdout is None:
            raise Trouble("standard output is closed", CANNOT_WRITE)
        sys.stdout.buffer.write(data)
        sys.stdout.buffer.flush()
        return
    from . import writing  # pylint: disable=import-outside-toplevel
    writing.replace(path, data)


def program_path(given: str | None = None) -> str:
    """Where the program futmax stands: as told, by FUTMAX, beside these tools, or on the PATH."""
    if given:
        return given
    if os.environ.get("FUTMAX"):
        return os.environ["FUTMAX"]
    home = Path(__file__).resolve().parents[2]
    built = str(home / "crates" / "futmax" / "out" / "futmax")
    if not os.path.exists(built):
        built = _take_kept(home / "tools" / "prebuilt") or built
    if os.access(built, os.X_OK):
        return built
    for folder in os.environ.get("PATH", "").split(os.pathsep):
        if folder and os.access(os.path.join(folder, "futmax"), os.X_OK):
            return os.path.join(folder, "futmax")
    raise Trouble("the program futmax is not built yet: run ./futmax once, or give --program PATH",
                  NO_PROGRAM)


def _take_kept(script: Path) -> str:
    """Where the program that is kept in a clone can be run; nothing if it does not fit here."""
    if not script.is_file():
        return ""
    try:
        done = subprocess.run([sys.executable, str(script), "take"], stdin=subprocess.DEVNULL,
                              stdout=subprocess.PIPE, check=False)
    except OSError:
        return ""
    return os.fsdecode(done.stdout.strip())
