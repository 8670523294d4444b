"""What is wrong with a report as a whole, where `futmax check` refused a line of it: it is another
file, it belongs to another feed, or it was made without proofs.
"""

from __future__ import annotations

import re
from typing import Iterator

from .records import Refused, fields_of
from .wording import counted

FEED_KINDS = ("result", "fix", "void", "deduct")
PROOFS = re.compile(rb"^proofs,*\r?(?:\n|\Z)", re.MULTILINE)
PROVED = re.compile(rb"^verdict,[^\n]*,(?:clinched|lost),*\r?\n\[", re.MULTILINE)


def kind_of(data: bytes) -> str:
    """What a file looks like by its first record: sheet, feed, report, saved text, or none."""
    for fields in _rows(data):
        if fields[0] in ("league", "cup"):
            return "sheet"
        if fields[0] in FEED_KINDS or fields == ["ask"]:
            return "feed"
        if fields[0] in ("saved", "saved_end"):
            return "saved text"
        return "report" if fields[0] == "ask" and len(fields) == 2 else ""
    return ""


def fault_of(data: bytes) -> str:
    """A sentence on the report after the record `proofs`; nothing if none fits."""
    mark = PROOFS.search(data)
    front, report = (data[:mark.start()], data[mark.end():]) if mark else (data, b"")
    mode = "groups" if next(_rows(front), [""])[0] == "cup" else "verdicts"
    make = f"`futmax {mode} --proofs` on sheet and feed makes one"
    if not report.strip():
        return f"The report is empty: {make}. "
    if kind_of(report) != "report":
        return ("This is no report of proofs, as `league ask` and others write none: "
                f"{make}. ")
    asks = sum(fields == ["ask"] for fields in _rows(front))
    rows = list(_rows(report))
    found = sum(fields[0] == "ask" for fields in rows)
    if found != asks:
        return (f"{counted(found, 'ask')} in the report, {asks} in the feed: they do not belong "
                "together. ")
    claims = any(fields[0] == "verdict" and fields[-1] in ("clinched", "lost") for fields in rows)
    if claims and not PROVED.search(report):
        return f"The report was made without --proofs: run `futmax {mode} --proofs`. "
    return ""


def _rows(data: bytes) -> Iterator[list[str]]:
    """The rows of names and numbers in a file, without comments and lines of proofs."""
    start = 0
    while start < len(data):
        end = data.find(b"\n", start)
        raw = data[start:] if end < 0 else data[start:end]
        start = len(data) if end < 0 else end + 1
        try:
            fields = [] if raw[:1] in (b"", b"#", b"[") else fields_of(raw.rstrip(b"\r"))
        except Refused:
            fields = [raw[:40].decode("utf-8", "replace")]
        if fields and fields != [""]:
            yield fields
