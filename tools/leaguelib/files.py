"""Files that are no plain text as the program reads it, and several files one after the other."""

from __future__ import annotations

import codecs
from dataclasses import dataclass

from .records import BYTE_ORDER_MARK

NOT_TEXT = (
    (b"PK\x03\x04", "this is a workbook (Excel, LibreOffice) or another ZIP file. Open it and save "
                    "it as `CSV UTF-8`"),
    (b"%PDF", "this is a PDF file. The program reads plain text, one record a line"),
    (b"\x1f\x8b", "this file is compressed. Unpack it first (gunzip)"),
    (b"\xd0\xcf\x11\xe0", "this is an old Excel workbook. Open it and save it as `CSV UTF-8`"),
)


@dataclass
class Examined:
    """A file in UTF-8, what was wrong with the whole of it, and whether it can be read on."""

    data: bytes
    messages: list[str]
    is_readable: bool = True


def examine(data: bytes) -> Examined:
    """Looks at a file as a whole, and puts right what is wrong with all of it."""
    for front, message in NOT_TEXT:
        if data.startswith(front):
            return Examined(b"", [message], False)
    if data.lstrip()[:15].lower().startswith((b"<!doctype", b"<html", b"<?xml")):
        return Examined(b"", ["this is a page from the web or XML. The program reads plain text, "
                              "one record a line"], False)
    messages: list[str] = []
    data = _as_utf8(data, messages)
    if b"\n" not in data and data.rstrip(b"\r").count(b"\r") > 0:
        messages.append("the lines end with a carriage return alone, as on old Macs. Save the file "
                        "with the line ends of Unix (LF) or Windows (CR LF)")
        data = data.replace(b"\r", b"\n")
    return Examined(data, messages)


def _as_utf8(data: bytes, messages: list[str]) -> bytes:
    """The data in UTF-8, where it is UTF-16 or UTF-32."""
    for mark, name in ((codecs.BOM_UTF32_LE, "utf-32"), (codecs.BOM_UTF16_LE, "utf-16"),
                       (codecs.BOM_UTF16_BE, "utf-16")):
        if data.startswith(mark):
            return _converted(data, name, messages)
    front = data[:400]
    if len(front) > 3 and front.count(0) * 3 > len(front):
        return _converted(data, "utf-16-le" if front[1] == 0 else "utf-16-be", messages)
    return data


def _converted(data: bytes, encoding: str, messages: list[str]) -> bytes:
    """The data in UTF-8, with a message on the encoding that it had."""
    messages.append(f"this file is stored as {encoding[:6].upper()} (some programs call it "
                    "`Unicode`). Save it as `CSV UTF-8`")
    return data.decode(encoding, "replace").encode("utf-8")


@dataclass
class Joined:
    """Several files one after the other, as `cat` joins them, and where each begins.

    A start is the name of a file, the line of the whole in which its first own line stands, and the
    number of that line in the file: 2 where its first line is glued to the last of the file before.
    """

    data: bytes
    starts: list[tuple[str, int, int]]
    lines: int

    def origin(self, line: int) -> str:
        """The file and the line in it, for a line of the whole, from 1."""
        found = [start for start in self.starts if start[1] <= min(line, max(self.lines, 1))]
        if not found:
            return f"line {line}"
        name, first, number = found[-1]
        if line > self.lines:
            return f"{name}, after line {self.lines - first + number}"
        return f"{name}, line {line - first + number}"


def joined(files: list[tuple[str, bytes]]) -> Joined:
    """The files one after the other; a line that two files share belongs to the first."""
    starts: list[tuple[str, int, int]] = []
    parts: list[bytes] = []
    lines = 0
    is_ended = True
    for name, data in files:
        if data:
            starts.append((name, lines + 1, 1 if is_ended else 2))
            lines += data.count(b"\n") + (not data.endswith(b"\n")) - (not is_ended)
            is_ended = data.endswith(b"\n")
        parts.append(data)
    return Joined(b"".join(parts), starts, lines)


def without_mark(data: bytes) -> bytes:
    """The data without a byte order mark at its start."""
    return data[len(BYTE_ORDER_MARK):] if data.startswith(BYTE_ORDER_MARK) else data
