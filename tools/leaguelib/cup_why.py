"""Why a club of a cup is in, out or open: of decided ones the key and the groups of a proof that
the program's check accepted, of open ones an end each way, group by group.
"""

from __future__ import annotations

from dataclasses import dataclass
from typing import Callable, Tuple

from .answers import Example, GroupQuestion, Place, Verdict
from .asking import ASK, input_before, run_mode
from .cups import Cup, Group
from .feeds import Input
from .proved import Told, own_report, proved_row
from .records import row_text
from .running import report_of
from .runners import BEYOND, MOST_POINTS, Key, key_of, key_words, of_group, runners_up
from .sentences import budget_text
from .texts import Season
from .wording import counted, listed, score_text, shown

Second = Tuple[str, Group, Key]
MOST_NAMED = 8
WAYS = {"inside": "qualifies", "outside": "misses"}
KINDS = {"second_less": "with less than", "second_at_least": "with at least",
         "second_more": "with more than", "second_at_most": "with at most"}
ORDINALS = {1: "first", 2: "second", 3: "third", 4: "fourth", 5: "fifth", 6: "sixth"}


@dataclass
class CupWhy:
    """What the reasons of one ask of a cup need. `proof_of` gives a verdict with its proof, where
    the program's check accepted it.
    """

    path: str
    data: bytes
    league: Input
    position: int
    table: list[Place]
    budget: int
    proof_of: Callable[[Verdict], Verdict | None]

    @property
    def cup(self) -> Cup:
        """The sheet."""
        return self.league.sheet

    def sentences(self, verdict: Verdict) -> list[str]:
        """The reasons of a word, a paragraph each."""
        if verdict.word == "unsettled":
            return self._unsettled(verdict)
        if verdict.word == "possible":
            return [self._way(verdict.club, example) for example in verdict.examples.values()]
        season = self.league.season_at(self.position)
        if not season.open_fixtures(self.cup):
            return [f"All matches are played. {self._final(verdict.club, season)}"]
        found = self.proof_of(verdict)
        if found is None:
            return ["No proof of it was checked here."]
        return [self._proof(found) + " The program's check accepts the proof."]

    def _final(self, club: str, season: Season) -> str:
        """How a club ended, in the table of its group and among the runners-up."""
        group = self.cup.group_of(club)
        row = next(place for place in self.table if place.club == club)
        if row.best != row.worst:
            return (f"{shown(club)} is in place {row.best} to {row.worst} of {group.title}, as "
                    "lots decide.")
        if row.best != 2:
            return f"{shown(club)} is {ORDINALS[row.best]} of {group.title}."
        own = key_of(season, group, group.club_named(club))
        key, others = self._beside(club, own, self._seconds(season, self.table, None))
        return f"{shown(club)} is second of {group.title} with {key}. {others}"

    def _proof(self, verdict: Verdict) -> str:
        """What a proof says, by its key and its groups."""
        club, group = shown(verdict.club), self.cup.group_of(verdict.club).title
        quota, is_in = self.cup.quota, verdict.word == "clinched"
        is_never_second = not -MOST_POINTS <= verdict.key[0] <= MOST_POINTS
        if is_never_second:
            ends = "first" if is_in else "third or lower"
            return f"{club} ends {ends} in {group}, however the open matches end."
        titles = [self.cup.groups[number - 1].title for number in verdict.groups]
        runner = "runner-up" if len(titles) == 1 else "runners-up"
        has = "has" if len(titles) == 1 else "have"
        key = key_words(verdict.key)
        if not is_in:
            return (f"{club} cannot end first in {group}, and as second it has at most {key}. The "
                    f"{runner} of {listed(titles)} always {has} more. So "
                    f"at least {quota} will be before it, and {quota} "
                    f"{'qualifies' if quota == 1 else 'qualify'}.")
        return (f"{club} ends first or second in {group}, and as second it has at least {key}. The "
                f"{runner} of {listed(titles)} always {has} less. So {_at_most(quota - 1)} will be "
                f"before it, and {quota} {'qualifies' if quota == 1 else 'qualify'}.")

    def _way(self, club: str, example: Example) -> str:
        """An end in which a club qualifies, or misses."""
        season = self.league.season_at(self.position)
        group = self.cup.group_of(club)
        own = [score_text(one, example.scores[one.number]) for one in group.fixtures
               if one.number in example.scores]
        season.scores.update(example.scores)
        table = self._table_after(example)
        order = ordered(of_group(table, group), self.cup, example)
        place = order.index(club) + 1
        text = f"It {WAYS[example.claim]}, for example, as {ORDINALS[place]} of {group.title}"
        key, others = self._beside(club, key_of(season, group, group.club_named(club)),
                                   self._seconds(season, table, example))
        text += f" with {key}" if place == 2 else ""
        if len(own) > MOST_NAMED:
            text += f", by an end of the {len(own)} open matches there"
        elif own:
            text += f", if {'this ends' if len(own) == 1 else 'these end'} {listed(own)}"
        return f"{text}. {others}" if place == 2 else f"{text}."

    def _table_after(self, example: Example) -> list[Place]:
        """The tables of the groups where the open matches end so."""
        rows = [row_text("result", number, *score).encode("ascii")
                for number, score in sorted(example.scores.items())]
        front = input_before(self.data, self.league, self.position)
        data = b"".join([front, *rows, ASK])
        return report_of(run_mode(self.path, "table", data)).answers[0].table

    def _beside(self, club: str, own: Key, seconds: list[Second]) -> tuple[str, str]:
        """A club's key in words, as far as it is needed beside those of the other runners-up, and
        a sentence on these: who is before the club, level with it, and behind it.
        """
        others = [one for one in seconds if one[0] != club]
        where = {"before it": [one for one in others if one[2] > own],
                 "level with it, so that lots decide,": [one for one in others if one[2] == own],
                 "behind it": [one for one in others if one[2] < own]}
        parts = []
        for words, found in where.items():
            names = [f"{shown(name)} of {group.title} ({cut(key, common_parts(key, own))})"
                     for name, group, key in found]
            if names:
                parts.append(f"{words} {'is' if len(names) == 1 else 'are'} {listed(names)}")
        depth = max(common_parts(key, own) for _, _, key in others)
        return cut(own, depth), f"Of the other runners-up, {'; '.join(parts)}."

    def _seconds(self, season: Season, table: list[Place],
                 example: Example | None) -> list[Second]:
        """The second of each group with its key; the lots of an example decide where they do."""
        if example is None:
            return [(one.club, one.group, one.key) for one in runners_up(self.cup, season, table)]
        found = []
        for group in self.cup.groups:
            name = ordered(of_group(table, group), self.cup, example)[1]
            found.append((name, group, key_of(season, group, group.club_named(name))))
        return sorted(found, key=lambda one: one[2], reverse=True)

    def _unsettled(self, verdict: Verdict) -> list[str]:
        """What was found out before the budget was spent, and on which question it was."""
        parts = [f"Not settled: the program stopped when its budget of {self.budget:,} steps was "
                 "spent; this says nothing for or against the club."]
        for claim, other in (("inside", "qualify"), ("outside", "miss")):
            if claim in verdict.examples:
                parts.append(self._way(verdict.club, verdict.examples[claim]))
            proof = verdict.proofs.get(claim)
            if proof is not None and proof.question is not None:
                parts.append(f"Whether it can {other} is not known: the budget was spent on "
                             f"whether {self._question(proof.question)}.")
        return [*parts, budget_text(self.budget, "cup")]

    def _question(self, question: GroupQuestion) -> str:
        """A question about one group in words."""
        club = self.cup.clubs[question.club - 1].name
        group = self.cup.group_of(club).title
        if question.kind in ("top", "below"):
            place = "first" if question.kind == "top" else "third or lower"
            return f"{shown(club)} can end {place} in {group}"
        text = f"{shown(club)} can end second in {group}"
        if abs(question.key[0]) >= BEYOND:
            return text
        return f"{text} {KINDS[question.kind]} {key_words(question.key)}"


def own_proofs(path: str, data: bytes, league: Input) -> Callable[[Verdict], Verdict | None]:
    """Gives verdicts of the last ask with their proofs, as the program writes and accepts them."""
    told: list[Told] = []

    def proof_of(verdict: Verdict) -> Verdict | None:
        if not told:
            told.append(own_report(path, data, league))
        return proved_row(told[0].report.answers[-1], verdict) if told[0].is_checked else None

    return proof_of


def ordered(rows: list[Place], cup: Cup, example: Example) -> list[str]:
    """The clubs of a group in their order, the lots of an example among what decides it."""
    lots = {cup.clubs[number - 1].name: at for at, number in enumerate(example.lots)}
    return [row.club for row in sorted(rows, key=lambda row: (row.best, lots[row.club]))]


def _at_most(number: int) -> str:
    """How many runners-up may be before a club."""
    return f"at most {counted(number, 'other runner-up', 'other runners-up')}" if number else (
        "no other runner-up")


def common_parts(key: Key, other: Key) -> int:
    """How many parts of two keys tell which is the greater."""
    return next((at for at, (part, its) in enumerate(zip(key, other), 1) if part != its), len(key))


def cut(key: Key, parts: int) -> str:
    """The first parts of a key in words."""
    return key_words((*key[:parts], *[BEYOND] * (len(key) - parts)))
