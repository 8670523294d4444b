"""Questions to futmax beside an open pipe: each is a run of its own on a sheet and some events."""

from __future__ import annotations

from .answers import Answer, Place
from .asking import ASK, again_budget, run_mode, with_budget
from .changes import Words, words_of
from .feeds import read_input, read_sheet
from .line_names import asked_lines
from .lines import line_runs, with_lines_of
from .modes import DECIDE
from .progress import Progress
from .running import report_of


class Asker:
    """Asks futmax about a season, by one thread: the same question has the same answer."""

    def __init__(self, path: str, sheet: bytes) -> None:
        self.path = path
        self.data = sheet if sheet.endswith(b"\n") else sheet + b"\n"
        self.sheet = read_sheet(self.data)
        own = self.sheet.lines
        beyond = [places for places in asked_lines(sheet, self.sheet) if places not in own]
        self.runs = ([own] if own else []) + [run for run in line_runs(beyond) if run]

    def words(self, events: list[bytes]) -> Words:
        """The words of an ask after these events, settled as far as budgets do it."""
        return self.more({}, events)

    def more(self, words: Words, events: list[bytes]) -> Words:
        """The words of all lines, where some are known; unsettled ones are asked once more."""
        known = dict(words)
        for run in self.runs:
            if not any(places in run for places, _ in known):
                known.update(self._words(run, self.sheet.budget, events))
            if any(places in run and word == "unsettled" for (places, _), word in known.items()):
                known.update(self._again(run, known, events))
        return dict(sorted(known.items(), key=lambda item: item[0][0]))

    def _again(self, run: list[int], known: Words, events: list[bytes]) -> Words:
        """The unsettled words with a greater budget, where it does not take long."""
        season = read_input(b"".join([self.data, *events, ASK])).season_at(0)
        budget = again_budget(self.path, DECIDE, len(season.open_fixtures(self.sheet)))
        if self.sheet.budget >= budget:
            return {}
        words = self._words(run, budget, events)
        return {mark: word for mark, word in words.items() if known[mark] == "unsettled"}

    def inputs(self, events: list[bytes]) -> list[bytes]:
        """An input for each run of lines, with these events and no ask."""
        return [b"".join([with_lines_of(self.data, run), *events]) for run in self.runs]

    def _words(self, lines: list[int], budget: int, events: list[bytes]) -> Words:
        """The words of some lines."""
        sheet = with_lines_of(with_budget(self.data, budget), lines)
        return words_of(self._ask(DECIDE, sheet, events).verdicts)

    def table(self, events: list[bytes]) -> list[Place]:
        """The table after these events."""
        return self._ask("table", self.data, events).table

    def _ask(self, mode: str, sheet: bytes, events: list[bytes]) -> Answer:
        """The answer of one run."""
        with Progress("the answer"):
            run = run_mode(self.path, mode, b"".join([sheet, *events, ASK]))
        return report_of(run).answers[-1]
