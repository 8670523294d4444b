"""The tables of a cup's groups: futmax is asked about each group as a league of its own, and its
rows stand one group after the other.
"""

from __future__ import annotations

from .cups import Cup, Group
from .feeds import Input, read_input
from .records import row_text
from .running import Run, run_program
from .texts import Entry


def run_tables(path: str, data: bytes) -> Run:
    """The tables at each ask of an input that the program takes, as the mode `table` writes them.
    """
    league = read_input(data)
    rows: list[list[bytes]] = []
    for group in league.sheet.groups:
        run = run_program(path, ["table"], group_input(league, group))
        if run.status != 0:
            return run
        rows.append(run.output.split(b"ask,")[1:])
    answers = []
    for position in range(sum(entry.kind == "ask" for entry in league.entries)):
        places = [of_group[position].partition(b"\n")[2] for of_group in rows]
        events = league.season_at(position).events
        answers.append(b"ask,%d\n" % events + b"".join(places))
    return Run(0, b"".join(answers))


def group_input(league: Input, group: Group) -> bytes:
    """A group's sheet as a league, and of the feed the events of the group and all asks."""
    cup: Cup = league.sheet
    sheet = cup.sheet_of(group)
    rows = [row_text("league", sheet.name, sheet.goal_limit, sheet.budget, sheet.order)]
    rows += [row_text("club", club.name, club.rank) for club in sheet.clubs]
    rows += [row_text("match", one.home, one.away) for one in sheet.fixtures]
    rows.append("season\n")
    numbers = {one.number: own for own, one in enumerate(group.fixtures, 1)}
    for entry in league.entries:
        rows += _entry_rows(entry, numbers, group)
    return "".join(rows).encode("utf-8", "surrogateescape")


def _entry_rows(entry: Entry, numbers: dict[int, int], group: Group) -> list[str]:
    """An entry of the cup's feed as the group's feed has it, if it has it."""
    if entry.kind == "ask":
        return ["ask\n"]
    if entry.kind == "deduct":
        is_own = group.club_named(entry.club) is not None
        return [row_text("deduct", entry.club, entry.points)] if is_own else []
    own = numbers.get(entry.fixture)
    if own is None:
        return []
    goals = entry.score if entry.kind in ("result", "fix") else ()
    return [row_text(entry.kind, own, *goals)]
