"""The tables of a cup's groups with the words beside, and the ranking of the runners-up."""

from __future__ import annotations

from .answers import Place
from .cups import Cup
from .runners import Runner, of_group, runners_up
from .texts import Season
from .wording import counted, shown

HEADS = ["", "runner-up", "group", "points", "difference", "goals"]


def quota_text(cup: Cup) -> str:
    """Who qualifies."""
    best = "best runner-up" if cup.quota == 1 else f"{cup.quota} best runners-up"
    return f"The winner of each group and the {best} qualify."


def by_groups(cup: Cup, table: list[Place], texts: list[str]) -> list[str]:
    """Rows of text, the first of them the heads, under the names of their groups."""
    rows = dict(zip([place.club for place in table], texts[1:]))
    lines = []
    for group in cup.groups:
        lines += ["" if lines else None, group.title, texts[0]]
        lines += [rows[place.club] for place in of_group(table, group)]
    return [line for line in lines if line is not None]


def ranking_rows(cup: Cup, season: Season, table: list[Place],
                 words: dict[str, str]) -> list[list[str]]:
    """The runners-up as rows of text, the heads first, with the word of each where there is one."""
    rows = [HEADS + ["qualifies"] * bool(words)]
    for one in runners_up(cup, season, table):
        row = [places_of(one), shown(one.club), shown(one.group.name), str(one.key[0]),
               f"{one.key[1]:+d}", str(one.key[2])]
        rows.append(row + [words.get(one.club, "")] * bool(words))
    return rows


def places_of(one: Runner) -> str:
    """A place among the runners-up, or the places that lots may give."""
    return str(one.best) if one.best == one.worst else f"{one.best}-{one.worst}"


def ranking_title(cup: Cup) -> str:
    """What stands above the ranking of the runners-up."""
    best = "the best of them qualifies" if cup.quota == 1 else (
        f"the best {cup.quota} qualify")
    return f"The runners-up as it stands, of {counted(len(cup.groups), 'group')}; {best}"
