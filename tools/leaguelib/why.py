"""Why a club is in, out or open, line by line: the shortest reason first, and how it can still go.

Reasons are added up before they are told (`reasons.py`), ways are tried by the program
(`ways.py`), and steps are those of a proof that the program's check accepted (`proofs.py`).
"""

from __future__ import annotations

from dataclasses import dataclass, field

from .answers import Answer, Score, Verdict
from .asking import FEW_OPEN, MIDDLE_BUDGET, run_mode, with_asks, with_budget
from .cup_why import CupWhy
from .enough import score_words
from .lines import with_lines_of
from .news import plain
from .proved import Told, own_report, proved_row
from .reasons import Points, short_reason
from .running import report_of
from .screen import SHORT
from .sentences import proof_steps, unsettled_texts
from .texts import MOST_BUDGET
from .trial import Trial, trial_data
from .unless import can_draw_be_enough, unless_text
from .view import View
from .ways import Way, way_of, way_text
from .wording import counted, paragraph, shown

USUAL_STEPS = 100
# with so many matches open at most, scores are asked for with the greatest budget, and trials with
# that of the sheet; with more of them a trial has a small one, and a way may be longer then
LAST_OPEN = 20
TRIAL_BUDGET = 300


@dataclass
class Why:
    """What the reasons of one ask need, and what was asked for them so far."""

    view: View
    path: str
    told: Told | None = None
    most_steps: int = USUAL_STEPS
    wants_proof: bool = False
    scores: dict[int, list[Score]] = field(default_factory=dict)
    proofs: dict[int, Told] = field(default_factory=dict)

    def __post_init__(self) -> None:
        self.points = Points(self.view.sheet, self.view.season)

    def data_for(self, places: int) -> bytes:
        """The input up to this ask, with this line alone."""
        view = self.view
        rows = view.given.data.split(b"\n")[:view.ask.line]
        front = b"".join(raw + b"\n" for raw in rows)
        return with_lines_of(with_asks(front, view.league, [view.ask.position]), [places])

    def trial_data(self, places: int) -> bytes:
        """The input with which trials of this line begin."""
        data = trial_data(self.data_for(places))
        few = len(self.points.open) <= LAST_OPEN
        return data if few else with_budget(data, min(TRIAL_BUDGET, self.view.sheet.budget))

    def proof_of(self, verdict: Verdict) -> Verdict | None:
        """The verdict with its proof, where the program's check accepted it."""
        told = self.told or self._own_report(verdict.places)
        answer: Answer = told.report.answers[-1 if self.told is None else self.view.ask.position]
        return proved_row(answer, verdict) if told.is_checked else None

    def _own_report(self, places: int) -> Told:
        """The program's own report of this line."""
        if places not in self.proofs:
            data = with_budget(self.data_for(places), self.view.ask.budget)
            self.proofs[places] = own_report(self.path, data, self.view.league)
        return self.proofs[places]

    def score_of(self, club: str, places: int) -> Score | None:
        """The qualification scores of a club, where few matches are open."""
        if not 0 < len(self.points.open) <= FEW_OPEN:
            return None
        if places not in self.scores:
            budget = MOST_BUDGET if len(self.points.open) <= LAST_OPEN else MIDDLE_BUDGET
            data = with_budget(self.data_for(places), budget)
            self.scores[places] = report_of(run_mode(self.path, "scores", data)).answers[0].scores
        return next((it for it in self.scores[places] if it.club == club), None)


def why_text(why: Why, club: str, lines: list[int]) -> str:
    """The reasons of one club, line by line."""
    view = why.view
    row = next(place for place in view.table if place.club == club)
    place = str(row.best) if row.best == row.worst else f"{row.best} to {row.worst}, by lots"
    left = why.points.left[club]
    place += f" of {view.sheet.group_of(club).title}" if view.sheet.is_cup else ""
    head = (f"{shown(club)}: place {place}, {counted(row.points, 'point')} from "
            f"{counted(row.played, 'match', 'matches')}")
    head += f", {counted(left, 'match', 'matches')} to play." if left else ", all played."
    parts = [paragraph(head)]
    for verdict in view.ask.answer.verdicts:
        if verdict.club == club and verdict.places in lines:
            parts += ["", *_line_texts(why, verdict)]
    return "\n".join(parts) + "\n"


def _line_texts(why: Why, verdict: Verdict) -> list[str]:
    """One line: the word, and after it the reason or the ways."""
    view = why.view
    title = view.names.place(verdict.places)
    word = SHORT[verdict.word]
    below = why.view.names.outside(verdict.places)
    word += f" ({below})" if below and verdict.word == "lost" else ""
    parts = [f"{title[:1].upper()}{title[1:]}: {word}."]
    if view.sheet.is_cup:
        told = CupWhy(why.path, view.given.data, view.league, view.ask.position, view.table,
                      view.ask.budget, why.proof_of)
        return parts + [paragraph(text, 2) for text in told.sentences(verdict)]
    if verdict.word == "unsettled":
        return parts + unsettled_texts(why.view.sheet, verdict, why.view.ask.budget)
    if verdict.word == "possible":
        return parts + _open_texts(why, verdict)
    return parts + _decided_texts(why, verdict)


def _decided_texts(why: Why, verdict: Verdict) -> list[str]:
    """The shortest reason that holds, or the steps of the proof."""
    view, is_in = why.view, verdict.word == "clinched"
    reason = short_reason(why.points, view.table, verdict.club, verdict.places, is_in)
    parts = [paragraph(reason.text, 2)] if reason is not None else []
    if reason is not None and not why.wants_proof:
        return parts
    found = why.proof_of(verdict)
    if found is None:
        return parts or [paragraph("Points alone do not show it, and no proof of it was checked "
                                   "here.", 2)]
    intro = "" if reason else "Points alone do not show it. "
    claim = "outside" if is_in else "inside"
    if len(found.proofs[claim].lines) > why.most_steps:
        return [*parts, paragraph(f"{intro}The proof has {len(found.proofs[claim].lines):,} "
                                  f"lines, too many to show here; the program's check accepts "
                                  f"it.", 2)]
    return [*parts, paragraph(f"{intro}The proof, which the program's check accepts, in steps:", 2),
            *proof_steps(view.sheet, view.season, found, claim, why.most_steps)]


def _open_texts(why: Why, verdict: Verdict) -> list[str]:
    """How many points are enough, and a way in and a way out."""
    view, club = why.view, verdict.club
    now, left = why.points.now[club], why.points.left[club]
    parts = []
    score = why.score_of(club, verdict.places)
    with Trial(why.path, why.trial_data(verdict.places), view.sheet, view.season,
               verdict.places) as trial:
        ways = {claim: way_of(trial, club, example)
                for claim, example in verdict.examples.items()}
        if score is not None:
            words = score_words(score, now, left, _is_own(view, club, ways.get("inside")))
            if left == 1 and can_draw_be_enough(score, now):
                own = next(it for it in why.points.open if club in (it.home, it.away))
                words += " " + unless_text(trial, club, own)
            parts.append(paragraph(plain(words.strip()), 2))
        for claim, verb in (("inside", "It is in"), ("outside", "It is out")):
            if claim in ways:
                parts.append(paragraph(way_text(view.sheet, view.season, ways[claim], verb), 2))
    return parts


def _is_own(view: View, club: str, way: Way | None) -> bool:
    """Whether a way holds for sure by the club's own matches alone."""
    if way is None or not way.is_for_sure:
        return False
    fixtures = [view.sheet.fixture(number) for number in way.scores]
    return bool(fixtures) and all(club in (it.home, it.away) for it in fixtures)
