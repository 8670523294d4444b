"""Saved texts, from which `futmax resume` goes on: where one stands in an input, what it holds, and
what is wrong with a line of it that futmax refuses.
"""

from __future__ import annotations

import re
from dataclasses import dataclass

from .given import Given
from .records import fields_of
from .texts import Sheet

SAVED_KINDS = ("saved", "saved_end")
PROOFS = re.compile(rb'^(?:\xef\xbb\xbf)?(?:proofs|"proofs"),*\r?$', re.MULTILINE)
END = re.compile(rb'^(?:\xef\xbb\xbf)?(?:saved_end|"saved_end"),*\r?$', re.MULTILINE)
AGAIN = "Make it again with `league save`"


@dataclass(frozen=True)
class SavedPart:
    """Where the saved text of an input stands: the lines of `proofs` and `saved_end`, from 1.

    A line that the input does not have is 0.
    """

    proofs: int
    end: int


def saved_part(data: bytes) -> SavedPart:
    """Where the saved text of an input stands."""
    begun = PROOFS.search(data)
    if begun is None:
        return SavedPart(0, 0)
    ended = END.search(data, begun.end())
    return SavedPart(data.count(b"\n", 0, begun.start()) + 1,
                     data.count(b"\n", 0, ended.start()) + 1 if ended else 0)


def without_saved(data: bytes) -> bytes:
    """The input with empty lines in place of its saved text, so that every line keeps its number;
    without `saved_end` nothing is left after `proofs`."""
    begun = PROOFS.search(data)
    if begun is None:
        return data
    ended = END.search(data, begun.end())
    last = ended.end() if ended else len(data)
    return data[:begun.start()] + b"\n" * data.count(b"\n", begun.start(), last) + data[last:]


def parted(text: bytes) -> tuple[bytes, bytes]:
    """The lines up to `saved_end`, or all if there is none, and those after it."""
    ended = END.search(text)
    after = text.find(b"\n", ended.end()) + 1 if ended else len(text)
    return text[:after], text[after:]


def holds_text(text: bytes) -> tuple[int, int]:
    """How many questions a saved text has, and how many of them have no open case."""
    items = re.split(rb"^saved,", text, flags=re.MULTILINE)[1:]
    return len(items), sum(b'["open"]' not in item for item in items)


def bad_save_text(given: Given, line: int, last: int, sheet: Sheet | None) -> str:
    """What is wrong with a line that futmax refuses as `bad_save`; `last` is the last line of the
    saved text, and 0 if the input has none."""
    quoted = given.quoted(line)
    place = given.origin(line) + (f": {quoted}" if quoted else "")
    if last == 0:
        return (f"{place}: the input has no `proofs`, after which the saved text comes "
                "(`bad_save`). `league resume` puts files together by itself.")
    if line > last:
        return (f"{given.origin(last)}: the saved text ends here without `saved_end`: it was cut "
                f"off (`bad_save`). {AGAIN}.")
    fields = fields_of(given.text_of(line).encode("utf-8", "surrogateescape"))
    return f"{place}: {_words(fields, sheet)} (`bad_save`). {AGAIN}."


def _words(fields: list[str], sheet: Sheet | None) -> str:
    """Why a line may not come here in a saved text."""
    if fields[:1] == ["saved"] and len(fields) == 4 and sheet is not None:
        if fields[1] not in [str(places) for places in sheet.lines]:
            return f"the sheet does not ask for the first {fields[1]} places: it is another sheet"
        if sheet.club_named(fields[2]) is None:
            return "the sheet has no club of this name: it is another sheet"
        return ("this question comes twice or in another order than the sheet's, or the tree "
                "before it is not whole")
    if fields[:1] == ["saved_end"]:
        return "the tree before `saved_end` is not whole"
    return ("no saved text has this line here: the file was changed, or it belongs to another "
            "sheet")
