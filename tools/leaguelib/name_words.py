"""The words of a club's name, in a form in which it can be compared with what people type."""

from __future__ import annotations

import re
import unicodedata

INVISIBLE = "\u200b\u200c\u200d\u2060\ufeff\u00ad"
SPACES = " \t\u00a0\u2007\u202f\u3000" + INVISIBLE
APOSTROPHES = "'’‘ʼ´`"
DASHES = "-\u2010\u2011\u2012\u2013\u2014\u2015\u2212\ufe58\ufe63\uff0d"
LETTERS = str.maketrans({"ø": "o", "Ø": "o", "ł": "l", "Ł": "l", "đ": "d", "Đ": "d", "ı": "i",
                         "æ": "ae", "Æ": "ae", "œ": "oe", "Œ": "oe", "ð": "d", "þ": "th"})
CLUB_WORDS = frozenset("fc afc cf sc sv ac as fk sk nk if bk ff cd ud sd club the & and und 1"
                       .split())
ELIDED = re.compile(rf"\b[ld][{APOSTROPHES}]", re.IGNORECASE)
OTHER_TEAMS = frozenset("ii iii iv b c 2 3 u17 u18 u19 u20 u21 u23 women ladies girls frauen "
                        "femenino femminile feminines youth reserves".split())


def tidy(text: str) -> str:
    """The text without spaces and invisible signs at its ends."""
    return text.strip(SPACES)


def plain_form(name: str) -> str:
    """A form in which names are the same that differ in case, accents, spaces or points alone."""
    opened = unicodedata.normalize("NFKD", name.translate(LETTERS))
    kept = [sign for sign in opened if not unicodedata.combining(sign) and sign not in INVISIBLE]
    apart = ".,_/" + APOSTROPHES + DASHES
    words = "".join(" " if sign in apart else sign for sign in kept).casefold().split()
    return " ".join(words)


def words_in(name: str) -> list[str]:
    """The words of a name in their plain form; an apostrophe divides none."""
    return plain_form("".join(sign for sign in name if sign not in APOSTROPHES)).split()


def core_words(name: str) -> list[str]:
    """The words of a name without those that many clubs have, like FC, and without the `L'` of
    L'Etoile; all if none is left.
    """
    every = words_in(ELIDED.sub("", name))
    return [word for word in every if word not in CLUB_WORDS] or every


def is_short_for(word: str, whole: str) -> bool:
    """Whether a word begins the other, or leaves out letters of its middle, as `Utd` does."""
    if word == whole or (len(word) > 1 and whole.startswith(word)):
        return True
    if len(word) < 3 or len(word) > 0.6 * len(whole):
        return False
    letters = iter(whole)
    return (word[0], word[-1]) == (whole[0], whole[-1]) and all(sign in letters for sign in word)
