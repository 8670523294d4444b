"""How many points are enough for a place among the first k, and how many are too few, in words.

Files are a sheet and one feed or several; the end of a feed without an `ask` counts as one. Early
in a season this takes long; it is of use once a few rounds are left.
"""

from __future__ import annotations

import argparse

from .answers import Place, Score
from .asking import Outcome, budget_note, run_mode, with_asks
from .enough import score_words
from .front import add_budget_argument, add_front_arguments, answered, place_of_ask, season_sheet
from .given import Given
from .line_names import names_in
from .objects import to_come
from .running import report_of
from .screen import state_text
from .texts import Season, Sheet
from .wording import counted, listed, paragraph, shown


def add_arguments(parser: argparse.ArgumentParser) -> None:
    """The words of this part."""
    add_front_arguments(parser)
    add_budget_argument(parser)


def run(arguments: argparse.Namespace) -> int:
    """Prints the scores in words, and gives the exit status."""
    return answered(arguments, "scores", _told)


def _told(given: Given, outcome: Outcome, path: str) -> str:
    """The scores of each line for people, the clubs in the order of the table."""
    ask, sheet = season_sheet(outcome)
    data = with_asks(given.data, outcome.league, [ask.position])
    table = report_of(run_mode(path, "table", data)).answers[0].table
    names, parts = names_in(given.data), [state_text(sheet, ask.season,
                                                     place_of_ask(given, ask.line))]
    scores = {(score.places, score.club): score for score in ask.answer.scores}
    for places in dict.fromkeys(score.places for score in ask.answer.scores):
        title = names.place(places)
        parts += ["", f"{title[:1].upper()}{title[1:]}"]
        parts += _line_texts(sheet, ask.season, table,
                             {club: score for (line, club), score in scores.items()
                              if line == places})
    parts += ["", paragraph(budget_note(ask))] if budget_note(ask) else []
    return "\n".join(parts) + "\n"


def _line_texts(sheet: Sheet, season: Season, table: list[Place],
                scores: dict[str, Score]) -> list[str]:
    """The clubs of a line: a sentence for each that hangs on its points, names for the others."""
    texts, sure = [], {"in": [], "out": []}
    for place in table:
        left = to_come(sheet, season, place.club) // 3
        words = score_words(scores[place.club], place.points, left)
        if words.partition(",")[0] in sure:
            sure[words.partition(",")[0]].append(shown(place.club))
            continue
        has = f"{counted(place.points, 'point')}, {counted(left, 'match', 'matches')} to play"
        texts.append(paragraph(f"{shown(place.club)} ({has}): {words}", 2))
    return texts + [paragraph(f"{word.capitalize()} with any number of points: {listed(clubs)}.", 2)
                    for word, clubs in sure.items() if clubs]
