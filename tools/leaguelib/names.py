"""Names as people type them: the club that is meant, the same name in another spelling, and the
nearest name.

`club_of` says for the whole of `league` which club a name means. A part of a name, a short name that
everybody knows and initials are taken only where one club alone has them; nothing is guessed from
how a name looks.
"""

from __future__ import annotations

import difflib
import re
import unicodedata
from typing import Iterable, Mapping

from .name_words import (INVISIBLE, OTHER_TEAMS, core_words, is_short_for, plain_form, tidy,
                         words_in)
from .short_names import has_initials, is_well_known

ALL_CLUBS = "; the clubs are "
class UnknownName(Exception):
    """A name that means no club, or several: what to say, and the clubs that may be meant."""

    def __init__(self, message: str, candidates: list[str]) -> None:
        super().__init__(message)
        self.message = message
        self.candidates = candidates


def club_of(name: str, names: Iterable[str], aliases: Mapping[str, str] | None = None) -> str:
    """The club that a name means: the name itself, an alias, another spelling, or a part of it.

    `aliases` has names by the plain form of another name. Raises `UnknownName` if no club is
    meant, or where more than one may be.
    """
    every = list(names)
    typed = tidy(name)
    if name in every or typed in every:
        return name if name in every else typed
    alias = (aliases or {}).get(plain_form(typed))
    if alias is not None:
        return _club_of_alias(typed, alias, every)
    for is_meant in WAYS.values():
        found = [other for other in every if is_meant(typed, other)]
        if len(found) == 1:
            return found[0]
        if found:
            raise UnknownName(f"{shown(typed)} can be {listed_or(found)}: write more of the name",
                              found)
    near = nearest_name(typed, every)
    hint = f"the nearest name is {shown(near)}" if near else (
        ", ".join(every) + ". Other names can be in a file (--aliases), or in the "
        "sheet (`league names`)")
    sign = "; " if near else ALL_CLUBS
    raise UnknownName(f"no club is called {shown(typed)}{sign}{hint}", [near] if near else [])


def _club_of_alias(typed: str, alias: str, names: list[str]) -> str:
    """The club of an alias, whose own name may be written in another way."""
    try:
        return club_of(alias, names)
    except UnknownName as unknown:
        raise UnknownName(f"{shown(typed)} is an alias of {shown(alias)}, and {unknown.message}",
                          unknown.candidates) from unknown


def listed_or(names: list[str]) -> str:
    """Names of which one may be meant: `A`, `B` or `C`."""
    texts = [shown(name) for name in names]
    return ", ".join(texts[:-1]) + " or " + texts[-1] if len(texts) > 1 else "".join(texts)


def _is_same(typed: str, name: str) -> bool:
    return plain_form(typed) != "" and plain_form(typed) == plain_form(name)


def is_same_club(typed: str, name: str) -> bool:
    """Whether two names are one but for words like FC, and for an umlaut written as two letters."""
    first, second = " ".join(core_words(typed)), " ".join(core_words(name))
    return first != "" and (first == second or _without_umlauts(first) == _without_umlauts(second))


def _without_umlauts(text: str) -> str:
    return re.sub(r"([aou])e", r"\1", text)


def _is_part(typed: str, name: str) -> bool:
    """Whether the typed words stand in the name in this order, whole or as their beginnings."""
    words = core_words(typed)
    if sum(len(word) for word in words) < 3:
        return False
    return _stand_in(words, core_words(name)) or _stand_in(words, words_in(name))


def _has_part(typed: str, name: str) -> bool:
    """Whether the name's words stand in what was typed, which names no other team of the club."""
    words, core = words_in(typed), core_words(name)
    if sum(len(word) for word in core) < 3:
        return False
    return not (OTHER_TEAMS & set(words)) - set(words_in(name)) and _stand_in(core, words)


def _stand_in(words: list[str], longer: list[str]) -> bool:
    """Whether each word is, in order, one of the others or short for it."""
    place = 0
    for word in words:
        while place < len(longer) and not is_short_for(word, longer[place]):
            place += 1
        if place == len(longer):
            return False
        place += 1
    return bool(words)


def _is_shortened(typed: str, name: str) -> bool:
    """Whether the typed words are short for the name's in a way that only speech has: `Wolves` for
    Wolverhampton, `Man U` for Manchester United. A letter for another team, as in `Athletic B`, is
    none.
    """
    words, core = core_words(typed), core_words(name)
    if max(map(len, words), default=0) < 3 or OTHER_TEAMS & set(words):
        return False
    place = 0
    for word in words:
        while place < len(core) and not (is_short_for(word, core[place])
                                         or _is_spoken_for(word, core[place])):
            place += 1
        place += 1
    return place <= len(core)


def _is_spoken_for(word: str, whole: str) -> bool:
    """Whether a word is a letter that begins the other, or five letters of its begin and an `s`."""
    if len(word) == 1:
        return whole.startswith(word)
    return len(word) > 5 and word.endswith("s") and whole.startswith(word[:-1]) and (
        word[:-1] != whole)


WAYS = {"the same name": _is_same, "the same club": is_same_club, "a part of it": _is_part,
        "more than it": _has_part, "well known": is_well_known, "its initials": has_initials,
        "short for it": _is_shortened}


def same_name(name: str, names: Iterable[str]) -> str | None:
    """The one name that is the same but for case, accents, spaces or points; none if two are."""
    form = plain_form(name)
    found = [other for other in names if form and plain_form(other) == form]
    return found[0] if len(found) == 1 else None


def nearest_name(name: str, names: Iterable[str]) -> str | None:
    """The name that looks most like this one, or none if none looks like it."""
    forms: dict[str, str] = {}
    for other in names:
        forms.setdefault(plain_form(other), other)
    form = plain_form(name)
    if not form:
        return None
    if form in forms:
        return forms[form]
    found = difflib.get_close_matches(form, forms, n=1, cutoff=0.6)
    if found:
        return forms[found[0]]
    parts = [key for key in forms if len(form) > 2 and (form in key.split() or key in form.split())]
    return forms[parts[0]] if len(parts) == 1 else None


def are_alike(first: str, second: str) -> bool:
    """Whether two names are likely one, with a slip of the fingers in it."""
    forms = (plain_form(first), plain_form(second))
    return difflib.SequenceMatcher(None, *forms).ratio() > 0.85


def shown(text: str) -> str:
    """A text as a message shows it: in quotes, with signs that cannot be seen written out."""
    signs = []
    for sign in text:
        code = ord(sign)
        if sign == "\t":
            signs.append("<TAB>")
        elif 0xDC80 <= code <= 0xDCFF:
            signs.append(f"<byte {code - 0xDC00}>")
        elif sign in INVISIBLE or sign == "\u00a0" or unicodedata.category(sign) in ("Cc", "Cs"):
            signs.append(f"<U+{code:04X}>")
        else:
            signs.append(sign)
    return "`" + "".join(signs) + "`"
