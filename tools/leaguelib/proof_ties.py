"""The step of a proof in which each match has its outcome, and the criteria place the rivals."""

from __future__ import annotations

from .answers import Verdict
from .proof_words import from_place, hold, is_are, names_of, up_to_place
from .standing import Standing
from .texts import Fixture
from .wording import counted, listed, match_text, shown
from .zones import Zone


def tie_text(zone: Zone, verdict: Verdict, is_inside: bool) -> str:
    """Each match has its outcome, and the criteria place the rivals."""
    standing = Standing(zone)
    outcomes = [_outcome_text(zone, fixture) for fixture in zone.season.open_fixtures(zone.sheet)]
    club = shown(verdict.club)
    text = f"Here it is settled who wins: {listed(outcomes)}." if outcomes else "All is played."
    text += f" {club} ends on {counted(standing.points[zone.club], 'point')}."
    found = {rival.number: standing.judge(rival.number) for rival in zone.sheet.clubs
             if rival.number != zone.club}
    for is_before, sure, words in ((False, "above", "was supposed not to be ahead, and is"),
                                   (True, "below", "was supposed to be ahead, and is behind")):
        for rival in zone.marked(is_before):
            if found[rival][0] == sure:
                where = _rival_text(zone, rival, found)
                return f"{text} {where} But {names_of(zone, [rival])} {words}."
    return f"{text} {_tie_count_text(zone, verdict, is_inside, found)}"


def _tie_count_text(zone: Zone, verdict: Verdict, is_inside: bool,
                    found: dict[int, tuple[str, str]]) -> str:
    """Rivals that are supposed or surely on one side, as many as shut the case."""
    sure = "above" if is_inside else "below"
    marked = zone.marked(is_inside)
    settled = [rival for rival in found if found[rival][0] == sure and rival not in marked]
    size, all_of_them = len(zone.sheet.clubs), len(marked) + len(settled)
    hold(all_of_them >= (verdict.places if is_inside else size - verdict.places))
    text = " ".join(_rival_text(zone, rival, found) for rival in settled)
    if marked:
        text += f" {names_of(zone, marked)} {is_are(marked)} supposed to be " + (
            "ahead." if is_inside else "not ahead.")
    place = from_place(all_of_them + 1, size) if is_inside else (
        up_to_place(size - all_of_them))
    return f"{text} So {shown(verdict.club)} is in {place}.".strip()


def _rival_text(zone: Zone, rival: int, found: dict[int, tuple[str, str]]) -> str:
    """Where a rival surely stands, and by which criterion."""
    place = "ahead of" if found[rival][0] == "above" else "behind"
    name, club = names_of(zone, [rival]), names_of(zone, [zone.club])
    return f"{name} is {place} {club} ({found[rival][1]})."


def _outcome_text(zone: Zone, fixture: Fixture) -> str:
    """The one outcome that the scores of a match have."""
    home, away = zone.options(fixture)[0]
    if home == away:
        return f"{match_text(fixture)} is drawn"
    return f"{shown(fixture.home if home > away else fixture.away)} wins {match_text(fixture)}"
