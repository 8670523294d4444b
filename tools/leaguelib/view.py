"""What a screen shows of one ask: table, verdicts, names of lines, and what changed before it."""

from __future__ import annotations

from dataclasses import dataclass, field

from .answers import Place, Report
from .asking import Asked, Outcome, ask_mode, budget_note, run_mode, with_asks
from .news import change_texts, events_text, later_lines, read_day
from .feeds import Input
from .front import place_of_ask
from .given import Given
from .line_names import LineNames, names_in
from .modes import DECIDE
from .running import ask_lines, report_of
from .screen import Marks, limit_text, line_texts, marks_of, state_text, table_text
from .texts import Season, Sheet
from .wording import counted, days_of, paragraph


@dataclass
class View:
    """One ask, and what is shown of it."""

    given: Given
    league: Input
    ask: Asked
    table: list[Place]
    names: LineNames
    changes: list[str] = field(default_factory=list)
    notes: list[str] = field(default_factory=list)

    @property
    def sheet(self) -> Sheet:
        """The sheet."""
        return self.league.sheet

    @property
    def season(self) -> Season:
        """The season at the ask."""
        return self.ask.season

    @property
    def marks(self) -> Marks:
        """The words in, out and open by line and club."""
        return marks_of(self.ask.answer.verdicts)


def viewed(given: Given, outcome: Outcome, path: str, since: str | None = None,
           before_name: str = "") -> View:
    """What is shown of the last of the asks that were answered, beside the one before it, which may
    have a name."""
    league, ask = outcome.league, outcome.asked[-1]
    view = View(given, league, ask, table_at(path, given, league, ask.position),
                names_in(given.data))
    if since is not None:
        view.changes = _since_day(view, path, since)
    elif len(outcome.asked) > 1:
        before = outcome.asked[-2]
        where = before_name or f"the ask in {given.origin(before.line)}"
        told = [it for it in league.entries if before.line < it.line < ask.line and it.is_event]
        view.changes = change_texts(view.names, marks_of(before.answer.verdicts), view.marks,
                                    view.table, f"{where} ({events_text(told)} since)")
    note = budget_note(ask)
    view.notes = [note] if note else []
    behind = [it for it in league.entries if it.is_event and it.line > ask_lines(league)[-1]]
    if behind and ask.position == len(ask_lines(league)) - 1:
        view.notes.append(f"After the last ask come {events_text(behind)} that no answer counts: "
                          f"write `ask` at the end of the feed.")
    return view


def table_at(path: str, given: Given, league: Input, position: int) -> list[Place]:
    """The table at an ask."""
    data = with_asks(given.data, league, [position])
    return report_of(run_mode(path, "table", data)).answers[0].table


def _since_day(view: View, path: str, since: str) -> list[str]:
    """What changed since a day: the same question without the events from that day on."""
    given, league = view.given, view.league
    days = days_of(given.data, league.sheet)
    later = later_lines(league, days, read_day(since), view.ask.line)
    told = [entry for entry in league.entries if entry.line in later]
    lines = [b"" if number in later else raw
             for number, raw in enumerate(given.data.split(b"\n"), 1)]
    earlier = Given(given.whole, b"\n".join(lines), given.paths, given.has_own_ask)
    outcome = ask_mode(path, DECIDE, earlier, [view.ask.position])
    before = marks_of(outcome.asked[0].answer.verdicts)
    unknown = sum(number not in days for number in view.season.scores)
    note = (f"; {counted(unknown, 'match', 'matches')} played on days that are not known "
            f"{'counts' if unknown == 1 else 'count'} as earlier" if unknown else "")
    return change_texts(view.names, before, view.marks, view.table,
                        f"{since} ({events_text(told)} from then on{note})")


def first_screen(view: View) -> str:
    """Who is in, out and open, the table, and what changed: one screen."""
    sheet, season = view.sheet, view.season
    parts = [state_text(sheet, season, place_of_ask(view.given, view.ask.line))]
    if view.marks:
        parts += ["", *line_texts(view.names, view.marks, view.table),
                  limit_text(sheet, season)]
    parts += ["", *table_text(sheet, season, view.table, view.marks, view.names)]
    if view.changes:
        parts += ["", *view.changes]
    if view.notes:
        parts += ["", *[paragraph(note) for note in view.notes]]
    return "\n".join(parts) + "\n"


def answer_of(report: Report, position: int, line: int, season: Season, budget: int) -> Asked:
    """An answer of a report that was made elsewhere."""
    return Asked(position, line, season, report.answers[position], budget)
