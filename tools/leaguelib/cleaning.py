"""Slips of form in one line: other separators, quotes, spaces, cases, letters. Each is put right in
turn, and said, so that the rest of the line can be looked at.
"""

from __future__ import annotations

import re
from dataclasses import dataclass, field

from .name_words import SPACES, tidy
from .records import fields_of

KINDS = ("league", "club", "match", "line", "season", "result", "fix", "void", "deduct", "ask",
         "when", "cup", "group")
OTHER_WORDS = {
    "team": "club", "teams": "club", "clubs": "club", "verein": "club", "equipo": "club",
    "matches": "match", "game": "match", "games": "match", "fixture": "match",
    "fixtures": "match", "lines": "line", "place": "line", "places": "line", "top": "line",
    "results": "result", "score": "result", "scores": "result", "played": "result",
    "correct": "fix", "correction": "fix", "change": "fix", "fixed": "fix",
    "annul": "void", "annulled": "void", "cancel": "void", "cancelled": "void",
    "canceled": "void", "abandoned": "void", "postponed": "void", "delete": "void",
    "deduction": "deduct", "deducted": "deduct", "penalty": "deduct", "minus": "deduct",
    "answer": "ask", "verdicts": "ask", "table": "ask", "question": "ask", "asks": "ask",
    "cups": "cup", "groups": "group",
    "leagues": "league", "competition": "league", "start": "season", "seasons": "season",
}
ROUND_QUOTES = "“”„‟«»"


@dataclass
class Cleaned:
    """A line whose form was put right: its fields, and in words what was put right."""

    fields: list[str]
    reasons: list[str] = field(default_factory=list)


def decoded(raw: bytes, reasons: list[str]) -> str:
    """The text of a line; bytes that are no UTF-8 are read as Western European letters."""
    try:
        return raw.decode("utf-8")
    except UnicodeDecodeError:
        reasons.append("the letters with accents are not stored as UTF-8 (Latin-1 or Windows-1252, "
                       "it seems): save the file as `CSV UTF-8`")
        return raw.decode("cp1252", "replace")


def cleaned_steps(raw: bytes) -> list[Cleaned]:
    """The line after each step that changed something, from the smallest change to the whole."""
    reasons: list[str] = []
    text = decoded(raw, reasons)
    steps = [Cleaned(_fields(text), list(reasons))]
    for change in (_quotes, _separators):
        changed, reason = change(text)
        if changed != text:
            text = changed
            reasons.append(reason)
            steps.append(Cleaned(_fields(text), list(reasons)))
    for change in (_without_spaces, _without_comment, _kind_in_lower_case, _other_word):
        fields, reason = change(list(steps[-1].fields), text)
        if fields != steps[-1].fields:
            reasons.append(reason)
            steps.append(Cleaned(fields, list(reasons)))
    return steps


def _fields(text: str) -> list[str]:
    return fields_of(text.encode("utf-8", "surrogateescape"))


def _quotes(text: str) -> tuple[str, str]:
    """Round quotes, as text programs put them."""
    changed = "".join('"' if sign in ROUND_QUOTES else sign for sign in text)
    if re.search(r",'[^',]*,[^']*'", changed):
        changed = re.sub(r"(^|,)'([^']*)'(?=,|$)", r'\1"\2"', changed)
    return changed, 'only the straight double quote `"` keeps a name with a comma together'


def _separators(text: str) -> tuple[str, str]:
    """Semicolons, tabs or bars between the fields."""
    for sign, name in ((";", "semicolons"), ("\t", "tabs"), ("|", "bars")):
        if sign not in text or tidy(_fields(text)[0]).lower() in KINDS:
            continue
        parts = [tidy(part) for part in text.split(sign)]
        if parts[0].lower() in KINDS or parts[0].lower() in OTHER_WORDS:
            quoted = [part if part.startswith('"') or "," not in part else f'"{part}"'
                      for part in parts]
            return ",".join(quoted), f"fields are separated by commas, not by {name}"
    words = text.split()
    if words and "," not in text and words[0].lower() in KINDS and len(words) > 1:
        if words[0].lower() in ("line", "void", "league", "result", "fix"):
            return ",".join(words), "fields are separated by commas, not by spaces"
    return text, ""


def _without_spaces(fields: list[str], text: str) -> tuple[list[str], str]:
    """Spaces and invisible signs beside the commas."""
    if re.search(r',[ \t]+"', text):
        joined = re.sub(r',[ \t]+"', ',"', re.sub(r'"[ \t]+,', '",', text))
        fields = _fields(joined)
    changed = [tidy(part) for part in fields]
    while changed and changed[-1] == "":
        changed.pop()
    hidden = any(sign in part for part in fields for sign in SPACES[2:])
    if hidden:
        return changed, "there is an invisible character beside a field: type the field again"
    return changed, "leave out spaces beside a comma and at the beginning or end of the line"


def _without_comment(fields: list[str], text: str) -> tuple[list[str], str]:
    """A comment after the record."""
    for number, part in enumerate(fields):
        found = re.search(r"\s*(#|//).*$", part)
        if number > 0 and found:
            kept = fields[:number] + [part[:found.start()]]
            while kept and kept[-1] == "":
                kept.pop()
            return kept, "a comment takes a line of its own, which begins with `#`"
    return fields, ""


def _kind_in_lower_case(fields: list[str], text: str) -> tuple[list[str], str]:
    """The first word in capitals."""
    if fields and fields[0].lower() in KINDS and fields[0] not in KINDS:
        word = fields[0].lower()
        return [word] + fields[1:], f"the first word is written in small letters: `{word}`"
    return fields, ""


def _other_word(fields: list[str], text: str) -> tuple[list[str], str]:
    """Another word for a record."""
    word = OTHER_WORDS.get(fields[0].lower().rstrip(":")) if fields else None
    if word is None and fields and fields[0].lower().rstrip(":") in KINDS:
        word = fields[0].lower().rstrip(":")
    if word is None or fields[0] in KINDS:
        return fields, ""
    return [word] + fields[1:], f"the word for this record is `{word}`"
