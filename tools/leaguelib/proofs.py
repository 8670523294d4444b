"""A proof in steps that a reader can add up: each supposes something and shows it cannot be.

Nothing here tests a proof: that is the work of the program's modes `check` and `decide_check`. Only
proofs which one of them has accepted are put into words.
"""

from __future__ import annotations

from dataclasses import dataclass

from .answers import Proof, Verdict
from .proof_levels import level_text
from .proof_ties import tie_text
from .proof_words import DoesNotAddUp, from_place, hold, is_are, names_of, up_to_place
from .texts import Fixture, Season, Sheet
from .wording import listed, match_text, paragraph, place_phrase, shown
from .zones import Zone

__all__ = ["DoesNotAddUp", "steps_of"]
DEEPEST_INDENT = 10


@dataclass
class Case:
    """A case that is still to be shut: how deep it lies, and the words that lead to it."""

    zone: Zone
    depth: int
    lead: str


def steps_of(sheet: Sheet, season: Season, verdict: Verdict, proof: Proof) -> list[str]:
    """The steps of a proof, a paragraph each, with the sentence that opens and closes it."""
    club = sheet.club_named(verdict.club).number
    name, place = shown(verdict.club), place_phrase(verdict.places)
    is_inside = proof.claim == "inside"
    supposed = f"ended in {place}" if is_inside else f"missed {place}"
    opening = f"Suppose that {name} {supposed}. The steps take every way that can be."
    cases = [Case(Zone(sheet, season, club), 0, "")]
    steps: list[str] = []
    lines = [line.parts for line in proof.lines]
    position = 0
    while position < len(lines):
        case, parts, number = cases.pop(), lines[position], len(steps) + 1
        rivals = _rivals_too_many(lines, position) if is_inside else []
        if len(rivals) > 1:
            steps.append(_step(number, case.depth, _too_many_text(case, verdict, rivals)))
            cases.append(_none_ahead(case, rivals))
            position += 2 * len(rivals)
            continue
        position += 1
        if parts[0] in ("leaf", "new_leaf"):
            text = f"{case.lead} {reason_text(case.zone, verdict, is_inside, parts[1:])}"
            steps.append(_step(number, case.depth, text))
            continue
        test = parts[1:]
        yes, no = test_texts(case.zone, test)
        shuts_at_once = lines[position][0] in ("leaf", "new_leaf")
        if shuts_at_once:
            lead = f"{case.lead} Suppose that {yes}.".strip()
            inner = Case(case.zone.supposed(test, True), case.depth, lead)
            outer = f"So {no}."
        else:
            text = f"{case.lead} There are two cases. The first is that {yes}."
            steps.append(_step(number, case.depth, text))
            inner = Case(case.zone.supposed(test, True), case.depth + 1, "")
            outer = f"The other case of step {number} is that {no}."
        cases += [Case(case.zone.supposed(test, False), case.depth, outer), inner]
    end = f"No case is left. So {name} {'cannot reach' if is_inside else 'has'} {place}."
    return [paragraph(opening, 4), *steps, paragraph(end, 4)]


def _rivals_too_many(lines: list[list], position: int) -> list[int]:
    """The rivals, one split after the other, each of whom ahead would be one too many."""
    rivals: list[int] = []
    while position + 1 < len(lines) and lines[position][1:2] == ["rival"] and (
            lines[position + 1][1:] == ["count"]):
        rivals.append(lines[position][2])
        position += 2
    return rivals


def _too_many_text(case: Case, verdict: Verdict, rivals: list[int]) -> str:
    """Several rivals in one step: any one of them ahead is one too many."""
    zone, club, size = case.zone, shown(verdict.club), len(case.zone.sheet.clubs)
    ahead = zone.marked(True)
    hold(len(ahead) + 1 >= verdict.places)
    names = listed([shown(zone.name(rival)) for rival in rivals], "or")
    also = f"{names_of(zone, ahead)} and " if ahead else ""
    return (f"{case.lead} Suppose that {names} ends ahead of {club}. With {also}one of these "
            f"ahead, {club} is in {from_place(len(ahead) + 2, size)}, and not in "
            f"{place_phrase(verdict.places)}. That cannot be.")


def _none_ahead(case: Case, rivals: list[int]) -> Case:
    """The case in which none of these rivals ends ahead."""
    zone = case.zone
    for rival in rivals:
        zone = zone.supposed(["rival", rival], False)
    return Case(zone, case.depth, f"So none of these ends ahead of {shown(zone.name(zone.club))}.")


def _step(number: int, depth: int, text: str) -> str:
    indent = 4 + 2 * min(depth, DEEPEST_INDENT)
    return paragraph(f"Step {number}. {text.strip()}", indent)


def test_texts(zone: Zone, test: list) -> tuple[str, str]:
    """A test in words, where it holds and where it does not."""
    club = shown(zone.name(zone.club))
    if test[0] == "rival":
        rival = shown(zone.name(test[1]))
        return f"{rival} ends ahead of {club}", f"{rival} does not end ahead of {club}"
    fixture = zone.sheet.fixture(test[1])
    home, away, match = shown(fixture.home), shown(fixture.away), match_text(fixture)
    if test[0] == "home":
        return f"{home} wins {match}", f"{home} does not win {match}"
    if test[0] == "draw":
        return f"{match} is drawn", f"{match} is not drawn"
    side = home if test[0] == "hg" else away
    return (f"{side} scores at most {test[2]} in {match}",
            f"{side} scores at least {test[2] + 1} in {match}")


def reason_text(zone: Zone, verdict: Verdict, is_inside: bool, reason: list) -> str:
    """Why a case cannot be."""
    kind = reason[0]
    if kind == "count":
        text = _count_text(zone, verdict, is_inside)
    elif kind == "low":
        text = _low_text(zone, reason[1])
    elif kind == "high":
        text = _high_text(zone, reason[1])
    elif kind == "tie":
        text = tie_text(zone, verdict, is_inside)
    elif kind == "near":
        text = _near_text(zone, reason[1])
    else:
        text = f"The points that are supposed of {shown(zone.name(zone.club))} cannot be reached."
    return text + " That cannot be."


def _count_text(zone: Zone, verdict: Verdict, is_inside: bool) -> str:
    """Too many rivals ahead for a place inside the line, or too few for one outside."""
    club, size = shown(verdict.club), len(zone.sheet.clubs)
    if is_inside:
        ahead = zone.marked(True)
        hold(len(ahead) >= verdict.places)
        return (f"With {names_of(zone, ahead)} ahead, {club} is in "
                f"{from_place(len(ahead) + 1, size)}, and not in {place_phrase(verdict.places)}.")
    behind = zone.marked(False)
    hold(len(behind) >= size - verdict.places)
    left, where = size - 1 - len(behind), up_to_place(size - len(behind))
    others = f"at most {left} of the other {size - 1} clubs can be" if left else "no club is"
    return (f"Then {names_of(zone, behind)} {is_are(behind)} not ahead of {club}, so {others}, and "
            f"{club} is in {where}: it does not miss {place_phrase(verdict.places)}.")


def _low_text(zone: Zone, clubs: list[int]) -> str:
    """Rivals that must stay at the club's most points, and have more."""
    club, most = shown(zone.name(zone.club)), zone.points([zone.club], True)
    hold(set(clubs) <= set(zone.marked(False)))
    hold(zone.points(clubs, False) > len(clubs) * most)
    each = "" if len(clubs) == 1 else "Each of "
    return (f"{each}{names_of(zone, clubs)}, not being ahead of {club}, ends with at most as many "
            f"points as {club}. "
            f"{sum_text(zone, [zone.club], True)} {_bound_text(zone, clubs, most, 'at most')} "
            f"But {sum_text(zone, clubs, False)} {zone.points(clubs, False)} is more than "
            f"{len(clubs) * most}.")


def _high_text(zone: Zone, clubs: list[int]) -> str:
    """Rivals that must come up to the club's least points, and have fewer."""
    club, least = shown(zone.name(zone.club)), zone.points([zone.club], False)
    hold(set(clubs) <= set(zone.marked(True)))
    hold(zone.points(clubs, True) < len(clubs) * least)
    each = "" if len(clubs) == 1 else "Each of "
    return (f"{each}{names_of(zone, clubs)}, being ahead of {club}, ends with at least as many "
            f"points as {club}. {sum_text(zone, [zone.club], False)} "
            f"{_bound_text(zone, clubs, least, 'at least')} But {sum_text(zone, clubs, True)} "
            f"{zone.points(clubs, True)} is less than {len(clubs) * least}.")


def _near_text(zone: Zone, rival: int) -> str:
    """A rival that would have to end level with the club, and cannot."""
    is_behind = rival in zone.marked(False)
    hold(is_behind or rival in zone.marked(True))
    points, ends = zone.points([zone.club], is_behind), zone.points([rival], not is_behind)
    hold(ends >= points if is_behind else ends <= points)
    club, name = shown(zone.name(zone.club)), shown(zone.name(rival))
    ahead, most = ("not being ahead", "at most") if is_behind else ("being ahead", "at least")
    text = (f"{name}, {ahead} of {club}, ends with {most} as many points as {club}. "
            f"{sum_text(zone, [zone.club], is_behind)} {sum_text(zone, [rival], not is_behind)}")
    if ends != points:
        return f"{text} {ends} is {'more' if is_behind else 'less'} than {points}."
    return f"{text} {level_text(zone, points, rival)}"


def _bound_text(zone: Zone, clubs: list[int], bound: int, word: str) -> str:
    """What the rivals have to keep to, together."""
    if len(clubs) == 1:
        return f"So {names_of(zone, clubs)} has {word} {bound}."
    return (f"So the {len(clubs)} have together {word} {len(clubs)} times {bound}, "
            f"which is {len(clubs) * bound}.")


def sum_text(zone: Zone, clubs: list[int], most: bool) -> str:
    """Points now, and what the open matches give at least or at most."""
    word, together = "at most" if most else "at least", " together" if len(clubs) > 1 else ""
    names = {zone.name(club) for club in clubs}
    now = [f"{shown(zone.name(club))} has {zone.points_now(club)}" for club in clubs]
    gains = [f"{gain} from {match_text(fixture)}{_shared(fixture, names, gain, most)}"
             for fixture, gain in zone.gains(clubs, most) if gain]
    gets = "gets" if len(clubs) == 1 else "they get"
    more = f"{gets} {word} {listed(gains)}" if gains else "need not get any more"
    if most and not gains:
        more = f"{gets} no more"
    noun = "point" if len(clubs) == 1 and zone.points_now(clubs[0]) == 1 else "points"
    return f"{listed(now)} {noun} now and {more}: {word} {zone.points(clubs, most)}{together}."


def _shared(fixture: Fixture, names: set[str], gain: int, most: bool) -> str:
    """Why a match between two clubs of a set gives them two points at least."""
    if most or gain != 2 or not {fixture.home, fixture.away} <= names:
        return ""
    return " (a draw gives each a point, a win gives the winner three)"
