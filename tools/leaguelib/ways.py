"""How an open place can still be reached or missed: the matches that matter, with the least goals.

Every way is tried by the program before it is told. Where the other matches are said not to matter,
the program has said `clinched` or `lost` with the scores that are told and nothing else, but for
matches of clubs that cannot end level with the club on points.
"""

from __future__ import annotations

from dataclasses import dataclass
from typing import Container

from .answers import Example
from .asking import FEW_OPEN
from .idle_matches import idle_matches
from .texts import Fixture, Season, Sheet
from .trial import Scores, Trial
from .wording import counted, listed, score_text
from .zones import Zone

MOST_GOALS_TRIED = 12


@dataclass(frozen=True)
class Way:
    """Scores that bring a club inside or outside; whether lots have to fall so as well."""

    scores: Scores
    is_for_sure: bool
    others: int


def way_of(trial: Trial, club: str, example: Example) -> Way:
    """The shortest way that was found, tried step by step: by the club's own matches alone, by
    those of its rivals too, or else from the example of the program.
    """
    still = trial.season.open_fixtures(trial.sheet)
    is_in = example.claim == "inside"
    target = "clinched" if is_in else "lost"
    own = own_results([it for it in still if club in (it.home, it.away)], club, is_in)
    if len(still) > FEW_OPEN:
        return _early_way(trial, club, example, own, target)
    for scores in (own, {**_rival_results(trial, club, example), **own}):
        if scores and trial.word(club, scores) == target:
            return _shortened(trial, club, scores, target)
    scores, is_for_sure = _whole(trial, club, example, target)
    if not is_for_sure:
        idle = idle_matches(trial, club, scores, scores)
        return Way({number: score for number, score in scores.items() if number not in idle},
                   False, len(idle))
    return _shortened(trial, club, scores, target)


def _early_way(trial: Trial, club: str, example: Example, own: Scores, target: str) -> Way:
    """A way while many matches are open: all of the club's own, or the example as it stands."""
    if own and trial.word(club, own) == target:
        still = len(trial.season.open_fixtures(trial.sheet))
        return Way(own, True, still - len(own))
    scores, is_for_sure = _whole(trial, club, example, target)
    return Way(scores, is_for_sure, 0)


def _shortened(trial: Trial, club: str, scores: Scores, target: str) -> Way:
    """The way without the matches that are not needed, which need not be the club's own."""
    fixtures = {number: trial.sheet.fixture(number) for number in scores}
    order = sorted(scores, key=lambda number: club in (fixtures[number].home,
                                                       fixtures[number].away))
    # these stay told while the program is asked, which may not settle it without them
    beside = {number: scores[number] for number in idle_matches(trial, club, scores, order)}
    kept = dropped(trial, club, {number: scores[number] for number in order}, target, beside)
    kept = _with_least_goals(trial, club, kept, target)
    idle = idle_matches(trial, club, kept, beside)
    kept = {number: score for number, score in kept.items() if number not in idle}
    if beside and not idle:
        kept = dropped(trial, club, kept, target)
    others = len(trial.season.open_fixtures(trial.sheet)) - len(kept)
    return Way(dict(sorted(kept.items())), True, others)


def _rival_results(trial: Trial, club: str, example: Example) -> Scores:
    """The matches of the rivals that pass the club in the example, all won; or of those that stay
    after it, all lost. Where two of them meet it ends as in the example, with the least goals.
    """
    sheet, is_in = trial.sheet, example.claim == "inside"
    points = _points_in(trial, example)
    rivals = sorted((it for it in points if it != club), key=lambda it: points[it])
    chosen = set(rivals[:len(points) - trial.places] if is_in else rivals[-trial.places:])
    plain, found = _plain(example.scores), {}
    for number in example.scores:
        it = sheet.fixture(number)
        if it.home in chosen and it.away in chosen:
            found[number] = plain[number]
        elif it.home in chosen or it.away in chosen:
            found[number] = (1, 0) if (it.home in chosen) != is_in else (0, 1)
    return found


def _points_in(trial: Trial, example: Example) -> dict[str, int]:
    """The points of each club at the end of an example."""
    season = trial.season.copy()
    season.scores.update(example.scores)
    zone = Zone(trial.sheet, season, 1)
    return {club.name: zone.points_now(club.number) for club in trial.sheet.clubs}


def _whole(trial: Trial, club: str, example: Example, target: str) -> tuple[Scores, bool]:
    """The example, with the least goals where they do; whether no lots are needed."""
    plain = _plain(example.scores)
    word = trial.word(club, plain)
    if word == target or trial.word(club, example.scores) != target:
        # with each match told, `possible` says that lots decide
        return plain if word in (target, "possible") else dict(example.scores), word == target
    return dict(example.scores), True


def own_results(own: list[Fixture], club: str, wins: bool) -> Scores:
    """All matches of a club won by one goal, or lost by one."""
    return {it.number: (1, 0) if (it.home == club) == wins else (0, 1) for it in own}


def _plain(scores: Scores) -> Scores:
    """The same results with the least goals."""
    return {number: (int(home > away), int(away > home))
            for number, (home, away) in scores.items()}


def dropped(trial: Trial, club: str, scores: Scores, target: str,
            keeps: Container[int] = ()) -> Scores:
    """The scores without those that are not needed, in halves, quarters and so on.

    The fixtures of `keeps` stay in any case.
    """
    kept = dict(scores)
    size = max(1, len(kept) // 2)
    while True:
        numbers = [number for number in kept if number not in keeps]
        for at in range(0, len(numbers), size):
            fewer = {number: score for number, score in kept.items()
                     if number not in numbers[at:at + size]}
            if len(fewer) < len(kept) and trial.word(club, fewer) == target:
                kept = fewer
        if size == 1:
            return kept
        size = max(1, size // 2)


def _with_least_goals(trial: Trial, club: str, scores: Scores, target: str) -> Scores:
    """The scores with as few goals a match as do, one match after the other."""
    for number, score in sorted(scores.items()):
        for fewer in _fewer_goals(score)[:MOST_GOALS_TRIED]:
            tried = {**scores, number: fewer}
            if trial.word(club, tried) == target:
                scores = tried
                break
    return scores


def _fewer_goals(score: tuple[int, int]) -> list[tuple[int, int]]:
    """Scores of the same kind with fewer goals, the fewest first."""
    home, away = score
    if home == away:
        return [(goals, goals) for goals in range(home)]
    margins = range(1, abs(home - away) + 1)
    least = min(home, away)
    found = [(goals + margin, goals) for goals in range(least + 1) for margin in margins]
    found = sorted((it for it in found if sum(it) < home + away), key=sum)
    return found if home > away else [(away_goals, home_goals) for home_goals, away_goals in found]


def way_text(sheet: Sheet, season: Season, way: Way, verb: str) -> str:
    """A way in words, after a verb like `It is in`."""
    if len(way.scores) > FEW_OPEN:
        return (f"{verb}, for example, in an end that names all {len(way.scores)} open matches; "
                "`league ask --json --examples` writes it.")
    told = [score_text(sheet.fixture(number), score) for number, score in way.scores.items()]
    if not told:
        return f"{verb} whatever happens."
    lots = "" if way.is_for_sure else ", and lots fall so"
    rest = ""
    if way.others:
        rest = (f"; the other {counted(way.others, 'match does', 'matches do')} not matter"
                if way.others > 1 else "; the other match does not matter")
    word = "this ends" if len(told) == 1 else "these end"
    return f"{verb}, for example, if {word} {listed(told)}{lots}{rest}."
