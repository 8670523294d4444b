"""What is still open on a board's page, line by line, with what each club needs."""

from __future__ import annotations

from typing import TYPE_CHECKING

from .answers import Score
from .enough import next_total
from .marks import capital, name_of
from .objects import range_of
from .page_zones import in_order, word_of

if TYPE_CHECKING:
    from .board import Board

MOST_TOLD = 6
WIN = 3


def still_open(board: Board) -> list[str]:
    """The open clubs of each line with what they need; many of them as a number."""
    if not board.verdicts:
        return []
    say, parts = board.phrases, []
    for places in in_order(board):
        clubs = [place for place in board.table
                 if word_of(board, places, place.club) in ("open", "not settled")]
        if not clubs:
            continue
        title = capital(say.line(board.names, places, len(board.table)))
        if len(clubs) > MOST_TOLD:
            parts.append(f"<div><h3>{title}: {say.text('still.many', count=len(clubs))}</h3></div>")
            continue
        items = [f"<li>{name_of(place.club)} ({place.points}){_need(board, places, place.club)}"
                 "</li>" for place in clubs]
        parts += [f"<div><h3>{title}</h3>", "<ul>", *items, "</ul></div>"]
    return ['<section class="open-ones">', f"<h2>{say.text('still')}</h2>", "<div>",
            *(parts or [f"<p>{say.text('still.none')}</p>"]), "</div>", "</section>"]


def _need(board: Board, places: int, club: str) -> str:
    """What a club needs, after a colon; nothing if it is not known."""
    texts = need_texts(board, places, club)
    if word_of(board, places, club) == "not settled":
        texts = [board.phrases.text("unsettled")]
    return (": " + "; ".join(texts)) if texts else ""


def need_texts(board: Board, places: int, club: str) -> list[str]:
    """How many points more are enough, and without how many the club is out; only what is sure."""
    score = board.scores.get((places, club))
    if score is None:
        return []
    now = next(place.points for place in board.table if place.club == club)
    left = sum(club in (it.home, it.away) for it in board.season.open_fixtures(board.sheet))
    return [text for text in (_enough(board, score, now, left), _least(board, score, now, left))
            if text]


def _enough(board: Board, score: Score, now: int, left: int) -> str:
    """How many points more are enough whatever the others do."""
    say, found = board.phrases, range_of(score.guaranteed)
    least, most = (next_total(found[end], now, left) - now for end in ("least", "most"))
    if most <= 0 or not left:
        return ""
    if least > WIN * left:
        return say.text(f"need.others.{'one' if left == 1 else 'many'}", count=WIN * left)
    if most > WIN * left:
        return ""
    if left == 1:
        return say.text("need.draw" if most == 1 else "need.win")
    return say.counted("need.enough", most)


def _least(board: Board, score: Score, now: int, left: int) -> str:
    """With how few points more the club is out whatever the others do."""
    say, found = board.phrases, range_of(score.possible)
    if found is None or not left:
        return ""
    least = next_total(found["least"], now, left) - now
    if least <= 0:
        return ""
    if left == 1:
        return say.text("need.least.draw" if least == 1 else "need.least.win")
    return say.counted("need.least", least)
