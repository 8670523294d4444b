"""An evening in sentences: what each result of a match decides, who is in or out by one result
alone, and what no single result decides.
"""

from __future__ import annotations

from dataclasses import dataclass

from .answers import OUTCOMES
from .asking import Asked
from .changes import Change, Words
from .line_names import RELEGATED, LineNames
from .outlook import Given, Outlook, decided
from .news import plain
from .screen import MOST_LISTED, state_text
from .texts import MOST_BUDGET, Fixture, Sheet
from .wording import counted, listed, match_text, paragraph, shown

WAYS = {("home",): "wins", ("draw",): "draws", ("away",): "loses",
        ("home", "draw"): "wins or draws", ("draw", "away"): "draws or loses",
        ("home", "away"): "does not draw"}
TURNED = {"home": "away", "draw": "draw", "away": "home"}


@dataclass
class Evening:
    """An ask, the matches that are looked at, and the words given each of their outcomes.

    `order` has the clubs as the table has them, `place` says where the ask stands.
    """

    sheet: Sheet
    ask: Asked
    place: str
    fixtures: list[Fixture]
    now: Words
    given: Given
    budget: int
    order: list[str]
    names: LineNames
    days: dict[int, str]

    @property
    def found(self) -> list[Outlook]:
        """The outcomes that decide something."""
        return decided(self.now, self.given, self.fixtures)

    @property
    def unsettled(self) -> int:
        """How many words are missing, now or given an outcome."""
        words = [word for words in [self.now, *self.given.values()] for word in words.values()]
        return words.count("unsettled")

    def open_clubs(self, places: int) -> list[str]:
        """The clubs for which a line is open, in the order of the table."""
        return [club for club in self.order if self.now.get((places, club)) == "possible"]


def evening_text(evening: Evening) -> str:
    """The whole for people."""
    parts = [state_text(evening.sheet, evening.ask.season, evening.place), ""]
    if not evening.fixtures:
        return "\n".join([*parts, "No match is open, so nothing is left to decide."]) + "\n"
    goals = counted(evening.sheet.goal_limit, "goal")
    count = len(evening.fixtures)
    matches = "this match" if count == 1 else f"these {count} matches"
    parts += [paragraph(f"What each result of {matches} decides by itself: whatever its score (up "
                        f"to {goals} a side), however the other open matches end, and however lots "
                        "are drawn."), ""]
    parts += [*_match_texts(evening), *_line_texts(evening)]
    if evening.unsettled:
        advice = "wait for the next results" if evening.budget >= MOST_BUDGET else (
            f"--budget N takes up to {MOST_BUDGET:,}")
        parts += ["", paragraph(f"{counted(evening.unsettled, 'word is', 'words are')} unsettled "
                                f"(with the budget {evening.budget:,}): nothing is said for or "
                                f"against the club; {advice}.")]
    return "\n".join(parts) + "\n"


def _match_texts(evening: Evening) -> list[str]:
    """What each outcome of each match decides; matches that decide nothing come together."""
    texts, quiet = [], []
    for fixture in evening.fixtures:
        its = [one for one in evening.found if one.fixture == fixture]
        if not its:
            quiet.append(match_text(fixture))
            continue
        day = evening.days.get(fixture.number, "")
        texts.append(match_text(fixture) + (f" ({day})" if day else ""))
        texts += [paragraph(f"If {_outcome_text(fixture, one.outcome)}: "
                            f"{_decided_text(evening, one)}.", 2) for one in its]
        missing = [outcome for outcome in OUTCOMES if outcome not in [one.outcome for one in its]]
        if missing:
            ways = listed([_outcome_text(fixture, outcome) for outcome in missing], "or")
            texts.append(paragraph(f"If {ways}, that decides nothing by itself.", 2))
    if quiet:
        rest = f"of {listed(quiet)}" if len(quiet) <= MOST_LISTED else (
            f"of the other {len(quiet)} matches" if texts else "of these matches")
        texts.append(paragraph(f"No result {rest} decides anything by itself."))
    return texts


def _outcome_text(fixture: Fixture, outcome: str) -> str:
    """An outcome after `if`."""
    if outcome == "draw":
        return "it is a draw"
    return f"{shown(fixture.home if outcome == 'home' else fixture.away)} wins"


def _decided_text(evening: Evening, one: Outlook) -> str:
    """What an outcome decides, line after line."""
    texts = []
    changes = [it for it in one.changes if not _is_implied(it, one.changes)]
    for places, word in dict.fromkeys((change.places, change.now) for change in changes):
        clubs = [shown(club) for club in evening.order
                 if (places, club, word) in {(it.places, it.club, it.now) for it in changes}]
        names = listed(clubs) if len(clubs) <= MOST_LISTED else f"{len(clubs)} clubs"
        texts.append(f"{names} {_fate_text(evening.names, places, word, len(clubs))}")
    return "; ".join(texts)


def _fate_text(names: LineNames, places: int, word: str, count: int) -> str:
    """What is decided of so many clubs, as people say it: relegated, safe, or sure of a place."""
    verb, below = "is" if count == 1 else "are", names.outside(places)
    if below == RELEGATED and (word == "lost" or places not in names.inside):
        return f"{verb} {'safe' if word == 'clinched' else below}"
    place = names.place(places)
    if places == 1 and places in names.inside:
        place = f"first place ({names.inside[places]})"
    if word == "clinched":
        return f"{verb} sure of {place}"
    return f"can no longer reach {place}" + (f" ({below})" if below else "")


def _is_implied(change: Change, changes: tuple[Change, ...]) -> bool:
    """Whether another line says more: sure of the top 2 is sure of the top 3 as well."""
    return any(other.club == change.club and other.now == change.now and (
        other.places < change.places if change.now == "clinched"
        else other.places > change.places) for other in changes)


def _line_texts(evening: Evening) -> list[str]:
    """For each line that is open: who is in or out by one result, and who stays open."""
    texts = ["", "By one result alone"]
    for places in dict.fromkeys(places for places, _ in evening.now):
        still = evening.open_clubs(places)
        if not still:
            continue
        texts.append("  " + plain(evening.names.place(places)))
        told = {club: _ways_text(evening, places, club) for club in still}
        texts += [paragraph(f"{shown(club)}: {text}.", 4) for club, text in told.items() if text]
        rest = [shown(club) for club, text in told.items() if not text]
        if rest:
            names = listed(rest) if len(rest) <= MOST_LISTED or len(rest) < len(still) else (
                f"all {len(rest)} clubs that can still go either way")
            texts.append(paragraph(f"Open whatever one match brings: {names}.", 4))
    if len(texts) == 2:
        return ["", "Every line is decided already."]
    return texts


def _ways_text(evening: Evening, places: int, club: str) -> str:
    """By which results a club is in, and by which out, its own first; nothing if by none."""
    texts = []
    fixtures = sorted(evening.fixtures, key=lambda it: club not in (it.home, it.away))
    for word, short in (("clinched", "in"), ("lost", "out")):
        ways = []
        for fixture in fixtures:
            outcomes = [outcome for outcome in OUTCOMES
                        if evening.given[fixture.number, outcome].get((places, club)) == word]
            if outcomes:
                ways.append(_way_text(fixture, outcomes, club))
        if ways:
            texts.append(f"{short} {listed(ways, 'or')}")
    return "; ".join(texts)


def _way_text(fixture: Fixture, outcomes: list[str], club: str) -> str:
    """Outcomes of a match as a condition, told of the club itself where it plays."""
    home, away = shown(fixture.home), shown(fixture.away)
    if len(outcomes) == len(OUTCOMES):
        return f"whatever {match_text(fixture)} brings"
    if club == fixture.away:
        outcomes = [it for it in OUTCOMES if TURNED[it] in outcomes]
    if club in (fixture.home, fixture.away):
        return f"if it {WAYS[tuple(outcomes)]}"
    return {("home",): f"if {home} beats {away}", ("draw",): f"if {home} and {away} draw",
            ("away",): f"if {away} beats {home}",
            ("home", "draw"): f"if {home} does not lose to {away}",
            ("draw", "away"): f"if {away} does not lose to {home}",
            ("home", "away"): f"if {home} and {away} do not draw"}[tuple(outcomes)]
