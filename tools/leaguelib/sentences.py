"""An answer in sentences: what is decided, how the rest can still go, and what was not settled.

Every sentence on a decided place names the goal limit on which it rests.
"""

from __future__ import annotations

from . import common
from .answers import Example, Verdict
from .proofs import DoesNotAddUp, steps_of
from .texts import MOST_BUDGET, Season, Sheet
from .wording import counted, listed, lots_phrase, paragraph, place_phrase, score_text, shown

USUAL_STEPS = 100


def decided_text(group: list[Verdict], word: str, limit: str) -> str:
    """The sentence on clubs that have one place for sure, or miss it for sure."""
    names = listed([shown(verdict.club) for verdict in group])
    place = place_phrase(group[0].places)
    if word == "clinched":
        has = "has" if len(group) == 1 else "have"
        return f"{names} {has} clinched {place}: sure to reach it {limit}."
    return f"{names} can no longer reach {place} (`lost`): sure to miss it {limit}."


def proof_steps(sheet: Sheet, season: Season, verdict: Verdict, claim: str,
                most_steps: int) -> list[str]:
    """The steps of a proof that was accepted, as paragraphs; a longer one is only counted."""
    proof = verdict.proofs[claim]
    if len(proof.lines) > most_steps:
        return [paragraph(f"The proof has {len(proof.lines)} lines, too many to show here. The "
                          "checker has accepted it.", 4)]
    try:
        return steps_of(sheet, season, verdict, proof)
    except DoesNotAddUp as fault:
        raise common.Trouble(f"the checker accepts the proof after line {verdict.line} of the "
                             "report, and its sums come out differently here. One of the two is "
                             "wrong: please tell the maintainers.", common.NO_PROGRAM) from fault
    except (IndexError, KeyError, TypeError, ValueError, AttributeError) as fault:
        raise common.Trouble(f"the proof after line {verdict.line} of the report has not the "
                             "form of a proof.") from fault


def way_text(sheet: Sheet, example: Example, club: str) -> str:
    """A finish and its lots in words."""
    scores = [score_text(sheet.fixture(number), score)
              for number, score in sorted(example.scores.items())]
    lots = lots_phrase(sheet, example.lots, club)
    if not scores:
        return lots
    ends = "the match ends" if len(scores) == 1 else "the matches end"
    return f"{ends} {listed(scores)}, and, {lots}"


def unsettled_texts(sheet: Sheet, verdict: Verdict, budget: int | None = None) -> list[str]:
    """What the program found out before its budget was spent."""
    name, place = shown(verdict.club), place_phrase(verdict.places)
    budget = sheet.budget if budget is None else budget
    parts = [paragraph(f"- {name} and {place}: not settled. The program stopped when its budget of "
                       f"{budget:,} steps was spent; this says nothing for or against the club.")]
    for claim, verb, other in (("inside", "reach", "has clinched it"),
                               ("outside", "miss", "can still reach it")):
        if claim in verdict.examples:
            way = way_text(sheet, verdict.examples[claim], verdict.club)
            parts.append(paragraph(f"It can {verb} it, for example, if {way}. What is not known is "
                                   f"whether it {other}, with at most "
                                   f"{counted(sheet.goal_limit, 'goal')} a side.", 4))
    parts.append(paragraph(budget_text(budget), 4))
    return parts


def budget_text(spent: int, record: str = "league") -> str:
    """Which budget to try next, and in which record it stands."""
    if spent >= MOST_BUDGET:
        return "The budget is the greatest there is; ask again when more matches are played."
    budget = min(MOST_BUDGET, 10 * spent)
    return (f"Try the budget {budget}: the fourth field of the record `{record}` "
            f"(at most {MOST_BUDGET}).")
