"""Matches that were awarded, as lines of text have them: words beside the score, in one or two
words and before it or after it, and signs that say who won without a score.
"""

from __future__ import annotations

import re

from .score_texts import GOALS, WALKOVER

NOTED = re.compile(r"(?<=\d)(?:\s?\[[a-z0-9]{1,3}\]|[*†‡])+(?=\s|$)", re.IGNORECASE)
WORDS_OF_AWARD = re.compile(r"(?<=\s)(?:a tavolino|tap\.? verde|tapis vert|by forfeit|"
                            r"par forfait)(?=\s|$)", re.IGNORECASE)
AWARD_IN_FRONT = re.compile(r"(?<=\s)(?:w\.o\.?|w/o|walkover|awd\.?|awarded|wertung|forfait|"
                            r"forfeit|tavolino):?\s+(" + GOALS + r")(?=\s|$)", re.IGNORECASE)


def plain_awards(text: str) -> str:
    """The text without footnotes at its score, and with one word after it for an award."""
    return AWARD_IN_FRONT.sub(r"\1 awd.", WORDS_OF_AWARD.sub("awd.", NOTED.sub("", text)))


def without_walkover(text: str) -> tuple[str, str]:
    """The side to which a match is awarded by signs like `+:-`, and the text with a score there."""
    found = WALKOVER.search(text)
    if found is None or " " in found.group():
        return "", text
    is_home = bool(found.group(1))
    score = "1-0" if is_home else "0-1"
    return "home" if is_home else "away", text[:found.start()] + score + text[found.end():]
