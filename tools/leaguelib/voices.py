"""How `league live` speaks: in words for people, or in the program's rows for programs."""

from __future__ import annotations

import sys

from . import common
from .answers import Place, read_report
from .bookkeeper import Bookkeeper
from .changes import SHORT, Words, change_text, changes_between, summary, words_of
from .cup_screen import by_groups, ranking_rows, ranking_title
from .line_names import LineNames
from .outlook import Outlook
from .records import row_text
from .screen import columns
from .texts import Fixture
from .wording import counted, limit_phrase, listed, score_text, shown

HELP = """\
Arsenal 2-1 Chelsea           the match has ended so
Arsenal ~1-0 Chelsea          a score in play: no result, not counted by an ask
Arsenal 1-0 Chelsea 67'       a score in play as well, as with HT or half time
correct Arsenal 2-2 Chelsea   another score for a match that has one
annul Arsenal - Chelsea       the match counts as not played
award Arsenal 3-0 Chelsea     a score by ruling; its reason may come after a colon
postpone Arsenal - Chelsea    no date known; or a new one after the names
deduct Chelsea 3              three points off; after others `3 more` or `9 in all`
undo deduct Chelsea           take this ruling back
undo                          take the last line back; after a refused line only say which
ask                           what has changed since the last ask
rows                          every row of the last answer
table                         the table, and how it stands with the scores in play
tonight                       what each of the next matches can decide by itself
when Arsenal - Chelsea        what this match can decide by itself
quit                          end the evening; the log keeps everything
"""


def events_text(number: int) -> str:
    """A number of events."""
    return counted(number, "event")


class Rows:
    """Rows alone on standard output, messages on standard error."""

    def noted(self, words: str, origin: str) -> None:
        """A line that was taken; of those typed here nothing is said."""
        if words and origin:
            common.say(f"league: {origin}: {words}")

    def tell(self, text: str) -> None:
        """Something that no program reads."""
        common.say(f"league: {text}")

    def refused(self, text: str) -> None:
        """A line that was not taken."""
        common.say(text)

    def answer(self, lines: list[bytes], mark: str) -> None:
        """An answer as futmax wrote it, and the mark after it."""
        sys.stdout.buffer.write(b"".join(lines) + f"# {mark}\n".encode("utf-8"))
        sys.stdout.buffer.flush()


class Speaker:
    """Sentences on standard output; refused lines on standard error."""

    def __init__(self, book: Bookkeeper, names: LineNames) -> None:
        self.book = book
        self.names = names
        self.before: Words | None = None
        self.words: Words = {}

    def noted(self, words: str, origin: str) -> None:
        """A line that was taken."""
        if words:
            self.tell(f"{origin}: {words}" if origin else words)

    def tell(self, text: str) -> None:
        """Something to know."""
        write(text)

    def refused(self, text: str) -> None:
        """A line that was not taken."""
        sys.stdout.flush()
        common.say(text)

    def remember(self, words: Words) -> None:
        """The words that the next answer is compared with."""
        self.before, self.words = words, words

    def answer(self, words: Words, number: int, in_play: int) -> None:
        """What changed since the last ask; at the first one how it stands."""
        season = self.book.feed.season
        head = f"answer {number}, after {events_text(season.events)}"
        if not words:
            lines = ["the sheet has no `line`, so an ask has no answer; `table` has one"]
        elif self.before is None:
            lines = summary(words, self.names)
            head += ", " + limit_phrase(self.book.sheet, season)
        else:
            lines = news(self.before, words, self.names)
        lines += unsettled(words, self.names)
        if in_play:
            scores = counted(in_play, "score in play is", "scores in play are")
            lines.append(f"{scores} not counted; `table` shows how it stands with them")
        self.remember(words)
        write("\n".join([head + ":", *("  " + line for line in lines)]))


    def rows(self) -> None:
        """Every row of the last answer."""
        self.tell("\n".join(row_text("verdict", places, club, word).rstrip("\n")
                            for (places, club), word in self.words.items()))

    def table(self, table: list[Place]) -> None:
        """The table of the matches that have ended."""
        self.tell(self.table_text(table, {}))

    def table_text(self, table: list[Place], in_play: dict[int, tuple[int, int]]) -> str:
        """A table in columns; of a cup one a group, and the ranking of the runners-up."""
        cup = self.book.sheet
        text = table_text(table)
        if not cup.is_cup:
            return text
        season = self.book.feed.season.copy()
        season.scores.update(in_play)
        ranking = columns(ranking_rows(cup, season, table, {}), (2,))
        return "\n".join([*by_groups(cup, table, text.split("\n")), "", ranking_title(cup),
                          *ranking])

    def tonight(self, fixtures: list[Fixture], found: list[Outlook]) -> None:
        """What the next matches can decide, each by itself."""
        goals = counted(self.book.sheet.goal_limit, "goal")
        lines = [f"of {counted(len(fixtures), 'match', 'matches')}, each by itself, whatever its "
                 f"score up to {goals} a side and however the other open matches end:"]
        for one in found:
            home, away = shown(one.fixture.home), shown(one.fixture.away)
            outcome = {"home": f"if {home} wins", "draw": "if it is a draw",
                       "away": f"if {away} wins"}[one.outcome]
            told = [f"{shown(change.club)}, {self.names.place(change.places)}: {SHORT[change.now]}"
                    for change in one.changes]
            lines.append(f"  {home} - {away}, {outcome}: {'; '.join(told)}")
        self.tell("\n".join(lines if found else [*lines, "  none decides anything"]))

    def as_it_stands(self, in_play: dict[int, tuple[int, int]], table: list[Place],
                     before: Words, after: Words) -> None:
        """The table, and what would change, if the matches in play ended as they stand."""
        scores = [score_text(self.book.sheet.fixture(number), score)
                  for number, score in in_play.items()]
        lines = [f"as it stands, if {listed(scores)} were the end:",
                 self.table_text(table, in_play)]
        changes = changes_between(before, after)
        lines += [change_text(change, self.names) for change in changes]
        self.tell("\n".join(lines if changes else [*lines, "no verdict would change"]))


def news(before: Words, now: Words, names: LineNames) -> list[str]:
    """What changed, in words; what only the search found out is set apart."""
    changes = changes_between(before, now)
    lines = [change_text(change, names) for change in changes if not change.is_of_search]
    found = [change_text(change, names) for change in changes if change.is_of_search]
    if not lines:
        lines = ["nothing changed since the last ask"]
    return lines + (["the search alone: " + "; ".join(found)] if found else [])


def unsettled(words: Words, names: LineNames) -> list[str]:
    """The questions that stay without an answer."""
    texts = [f"{shown(club)}, {names.place(places)}"
             for (places, club), word in words.items() if word == "unsettled"]
    return ["not settled within the budget: " + "; ".join(texts)] if texts else []


def words_of_answer(lines: list[bytes]) -> Words:
    """The words of an answer as futmax wrote it."""
    return words_of(read_report(b"".join(lines)).answers[-1].verdicts)


def table_text(table: list[Place]) -> str:
    """A table in columns."""
    heads = ("place", "club", "played", "points", "difference", "goals")
    rows = [(str(place.best) if place.best == place.worst else f"{place.best}-{place.worst}",
             shown(place.club), str(place.played), str(place.points),
             f"{place.difference:+d}" if place.difference else "0", str(place.scored))
            for place in table]
    widths = [max(len(row[column]) for row in [heads, *rows]) for column in range(len(heads))]
    return "\n".join(
        "  ".join(part.ljust(width) if column == 1 else part.rjust(width)
                  for column, (part, width) in enumerate(zip(row, widths))).rstrip()
        for row in [heads, *rows])


def write(text: str) -> None:
    """Writes text and a line end to standard output at once."""
    sys.stdout.buffer.write(text.encode("utf-8", "replace") + b"\n")
    sys.stdout.buffer.flush()
