"""The reasons on a board's page, folded: a part for each club, a section for each mark.

Reasons that have no sentence in the language of the page stand in English.
"""

from __future__ import annotations

from typing import TYPE_CHECKING

from .answers import Verdict
from .changes import SHORT
from .marks import anchor, capital, club_anchor, name_of, safe
from .page_open import need_texts
from .page_zones import word_text
from .phrases import USUAL
from .reasons import MOST_NAMED, Reason
from .sentences import USUAL_STEPS, proof_steps, unsettled_texts
from .wording import score_text

if TYPE_CHECKING:
    from .board import Board

MOST_TOLD = 30
FOREIGN = ' lang="en"'


def reasons(board: Board) -> list[str]:
    """A part for each club, in the order of the table."""
    if not board.verdicts:
        return []
    parts = ['<section class="why">', f"<h2>{board.phrases.text('reasons')}</h2>",
             '<div class="clubs">']
    for place in board.table:
        marks = [it for it in board.verdicts.values() if it.club == place.club]
        parts += [f'<details id="{club_anchor(board, place.club)}">',
                  f"<summary>{name_of(place.club)}</summary>",
                  *[text for it in marks for text in _mark(board, it)], "</details>"]
    return [*parts, "</div>", "</section>"]


def _mark(board: Board, verdict: Verdict) -> list[str]:
    """One line of a club, with its reasons."""
    say = board.phrases
    title = say.text("reason.mark", word=word_text(board, SHORT[verdict.word]),
                     places=say.line(board.names, verdict.places, len(board.table)))
    return [f'<div id="{anchor(board, verdict)}">', f"<h3>{capital(title)}</h3>",
            *_reason(board, verdict), "</div>"]


def _reason(board: Board, verdict: Verdict) -> list[str]:
    """What stands after a mark: a sentence and a proof, or finishes."""
    mark = (verdict.places, verdict.club)
    if mark in board.told:
        return [f"<p{FOREIGN}>{safe(text)}</p>" for text in board.told[mark]]
    if verdict.word in ("clinched", "lost"):
        return _decided(board, verdict)
    if verdict.word == "unsettled":
        return _unsettled(board, verdict)
    needs = need_texts(board, *mark)
    told = [f"<p>{board.phrases.text('reason.open', club=name_of(verdict.club))}</p>"]
    if needs:
        return [*told, f"<p>{capital('; '.join(needs))}.</p>"]
    if len(board.season.open_fixtures(board.sheet)) > MOST_TOLD:
        return told
    return [part for claim, key in (("inside", "reaches"), ("outside", "misses"))
            if claim in verdict.examples
            for part in _finish(board, verdict, claim, key)] or told


def _unsettled(board: Board, verdict: Verdict) -> list[str]:
    """That the search gave up."""
    if board.phrases.language == USUAL:
        return [f"<p>{safe(' '.join(text.lstrip(' -').split()))}</p>"
                for text in unsettled_texts(board.sheet, verdict, board.budget)]
    text = board.phrases.text("reason.unsettled", budget=board.budget, club=name_of(verdict.club))
    return [f"<p>{text}</p>"]


def _decided(board: Board, verdict: Verdict) -> list[str]:
    """A short reason, or the steps of a proof that was accepted."""
    mark = (verdict.places, verdict.club)
    if mark in board.reasons:
        return [_short(board, verdict, board.reasons[mark])]
    if mark in board.proved:
        claim = "outside" if verdict.word == "clinched" else "inside"
        steps = proof_steps(board.sheet, board.season, board.proved[mark], claim, USUAL_STEPS)
        items = [f"<li>{safe(' '.join(step.split()))}</li>" for step in steps]
        return [f"<p{FOREIGN}>Points alone do not show it. The steps of the proof:</p>",
                f"<ul{FOREIGN}>", *items, "</ul>"]
    return [f"<p{FOREIGN}>Points alone do not show it, and no proof of it was checked here.</p>"]


def _short(board: Board, verdict: Verdict, reason: Reason) -> str:
    """A short reason; where points alone are it, in the language of the page."""
    say = board.phrases
    if say.language == USUAL or reason.kind != "points":
        return f"<p{FOREIGN}>{safe(reason.text)}</p>"
    rivals = say.listed([name_of(club) for club in reason.rivals]) if (
        len(reason.rivals) <= MOST_NAMED) else say.text("reason.rivals", count=len(reason.rivals))
    key = "reason.in" if verdict.word == "clinched" else "reason.out"
    return f"<p>{say.text(key, club=name_of(verdict.club), bound=reason.bound, rivals=rivals)}</p>"


def _finish(board: Board, verdict: Verdict, claim: str, key: str) -> list[str]:
    """One finish that shows a place reached, or missed."""
    example = verdict.examples[claim]
    scores = [f"<li>{safe(score_text(board.sheet.fixture(number), score))}</li>"
              for number, score in sorted(example.scores.items())]
    intro = board.phrases.text(f"reason.{key}", club=name_of(verdict.club))
    return [f"<p>{intro}</p>", "<ul>", *scores, "</ul>"] if scores else []
