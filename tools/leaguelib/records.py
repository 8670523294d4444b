"""Lines and records, as docs/formats.md has them: the parts that sheet, feed and answer share."""

from __future__ import annotations

from dataclasses import dataclass
from typing import Iterator

BYTE_ORDER_MARK = b"\xef\xbb\xbf"
MOST_LINE_BYTES = 1_024
MOST_INPUT_BYTES = 67_108_864
MOST_NAME_BYTES = 40
TOO_LONG = ("line_too_long", "input_too_long")


class Refused(Exception):
    """A line that the program refuses: its number, the code, and the field at fault.

    Fields count from 1, and 0 is none of them. `where` is `sheet`, `feed` or `input`.
    """

    def __init__(self, line: int, code: str, field: int = 0, where: str = "input") -> None:
        super().__init__(f"fault,{line},{code}")
        self.line = line
        self.code = code
        self.field = field
        self.where = where

    @property
    def status(self) -> int:
        """The exit status with which the program ends at this line."""
        if self.code in TOO_LONG:
            return 8
        return 2 if self.where == "sheet" else 3


@dataclass(frozen=True)
class Record:
    """One line that counts: its number from 1, its bytes without the end, and its fields."""

    line: int
    raw: bytes
    fields: list[str]
    has_return: bool

    @property
    def kind(self) -> str:
        """The first field, or nothing if a carriage return makes the line no record."""
        return "" if self.has_return or not self.fields else self.fields[0]


def lines_of(data: bytes) -> Iterator[tuple[int, bytes]]:
    """The lines with their numbers, without their ends and without the byte order mark in front."""
    start = 0
    number = 0
    while start < len(data):
        number += 1
        found = data.find(b"\n", start)
        end = len(data) if found < 0 else found
        after = end if found < 0 else end + 1
        _test_length(number, start, end, after)
        raw = data[start:end]
        if number == 1 and raw.startswith(BYTE_ORDER_MARK):
            raw = raw[len(BYTE_ORDER_MARK):]
        yield number, raw[:-1] if raw.endswith(b"\r") else raw
        start = after


def _test_length(number: int, start: int, end: int, after: int) -> None:
    """Refuses a line that is too long, or in which the input becomes too long."""
    line_breaks_at = start + MOST_LINE_BYTES
    is_line_too_long = end > line_breaks_at
    is_input_too_long = after > MOST_INPUT_BYTES
    if is_line_too_long and (not is_input_too_long or line_breaks_at <= MOST_INPUT_BYTES):
        raise Refused(number, "line_too_long")
    if is_input_too_long:
        raise Refused(number, "input_too_long")


def count_lines(data: bytes) -> int:
    """The number of lines; a last line without an end counts."""
    return data.count(b"\n") + (1 if data and not data.endswith(b"\n") else 0)


def fields_of(raw: bytes) -> list[str]:
    """The comma separated fields of one line, read alone; empty fields at its end are dropped.

    Bytes that are no UTF-8 are kept as lone surrogates, so that nothing is lost.
    """
    if raw.startswith(BYTE_ORDER_MARK):
        raw = raw[len(BYTE_ORDER_MARK):]
    if b'"' in raw:
        pieces = _pieces_of(raw)
    else:
        pieces = raw.split(b",")
    texts = [piece.decode("utf-8", "surrogateescape") for piece in pieces]
    while texts and texts[-1] == "":
        texts.pop()
    return texts


def _pieces_of(raw: bytes) -> list[bytes]:
    """The fields of a line that has double quotes."""
    fields: list[bytearray] = [bytearray()]
    state = "start"
    for byte in raw:
        state = _take_byte(fields, state, byte)
    return [bytes(field) for field in fields]


def _take_byte(fields: list[bytearray], state: str, byte: int) -> str:
    """Adds one byte to the last field, and gives the state after it."""
    is_quote = byte == 0x22
    if state == "quoted":
        if is_quote:
            return "quote_seen"
        fields[-1].append(byte)
        return state
    if is_quote and state == "start":
        return "quoted"
    if is_quote and state == "quote_seen":
        fields[-1].append(byte)
        return "quoted"
    if byte == 0x2C:
        fields.append(bytearray())
        return "start"
    fields[-1].append(byte)
    return "plain"


def record_of(number: int, raw: bytes) -> Record | None:
    """The record of a line, or none if the line is passed over."""
    if raw == b"" or raw.startswith(b"#"):
        return None
    has_return = b"\r" in raw
    fields = fields_of(raw)
    if not fields and not has_return:
        return None
    return Record(number, raw, fields, has_return)


def records_of(data: bytes) -> Iterator[Record]:
    """The records of an input in order; raises `Refused` if a line or the input is too long."""
    for number, raw in lines_of(data):
        record = record_of(number, raw)
        if record is not None:
            yield record


def number_of(text: str) -> int | None:
    """The number that 1 to 6 ASCII digits stand for, or none."""
    if 1 <= len(text) <= 6 and text.isascii() and text.isdigit():
        return int(text)
    return None


def is_name(text: str) -> bool:
    """Whether the text is a name: 1 to 40 bytes of UTF-8, no control character among them."""
    try:
        data = text.encode("utf-8")
    except UnicodeEncodeError:
        return False
    return 1 <= len(data) <= MOST_NAME_BYTES and not any(b < 32 or b == 127 for b in data)


def field_text(text: str) -> str:
    """One field as a row has it: in quotes where it holds a comma, a quote or a line break."""
    if text == "" or any(sign in text for sign in ',"\r\n'):
        return '"' + text.replace('"', '""') + '"'
    return text


def row_text(*fields: object) -> str:
    """A row with its line end."""
    return ",".join(field_text(str(field)) for field in fields) + "\n"
