"""Pictures of a season as SVG: the places that each club could still reach by matchday, and when
each line was decided. A panel is a picture of its own on the page; a file has them side by side.
"""

from __future__ import annotations

from dataclasses import dataclass
from typing import Iterator

from .answers import Place
from .marks import safe
from .phrases import Phrases
from .season_days import Day, decided_days

STYLE = """text { font: 12px system-ui, sans-serif; fill: #16181d; }
.title { font-weight: 700; } .quiet { fill: #50555f; font-size: 11px; }
.range { fill: #b9c8de; } .edge { fill: none; stroke: #0a4fa3; stroke-width: 1.5; }
.axis { stroke: #8a909c; } .bar { fill: #d4d8df; } .bar-in { fill: #0b6b3a; }
.bar-out { fill: #a3211b; } .paper { fill: #ffffff; }"""
WIDTH, TOP, LEFT, RIGHT, BOTTOM = 300, 24, 26, 10, 20
PLOT = 100
ROW, NAME, BARS, WORD, LONGEST = 16, 176, 140, 64, 23
GAP = 16


@dataclass(frozen=True)
class Panel:
    """A part of a picture, with the room that it takes, and what it shows in words."""

    width: int
    height: int
    body: str
    words: str


def place_panels(say: Phrases, days: list[Day], table: list[Place]) -> list[Panel]:
    """A panel a club, in the order of the table."""
    return [_place_panel(say, days, place.club, len(table)) for place in table]


def _place_panel(say: Phrases, days: list[Day], club: str, size: int) -> Panel:
    """The range of a club's places, a step a matchday; first place is at the top."""
    step = (WIDTH - LEFT - RIGHT) / len(days)
    height = PLOT / size
    best, worst = [], []
    for at, day in enumerate(days):
        reach, left = day.reach[club], LEFT + at * step
        top, end = TOP + (reach.best - 1) * height, TOP + reach.worst * height
        best += [(left, top), (left + step, top)]
        worst += [(left, end), (left + step, end)]
    last = days[-1].reach[club]
    told = f"{last.best}" if last.best == last.worst else f"{last.best}–{last.worst}"
    parts = [f'<polygon class="range" points="{_points(best + worst[::-1])}"/>',
             f'<polyline class="edge" points="{_points(best)}"/>',
             f'<polyline class="edge" points="{_points(worst)}"/>',
             f'<path class="axis" d="M{LEFT} {TOP}V{TOP + PLOT}H{WIDTH - RIGHT}" fill="none"/>',
             _text(LEFT, 15, safe(club), "title"), _text(WIDTH - RIGHT, 15, told, "quiet", "end"),
             _text(LEFT - 5, TOP + 10, "1", "quiet", "end"),
             _text(LEFT - 5, TOP + PLOT, str(size), "quiet", "end"),
             _text(LEFT, TOP + PLOT + 14, f"{say.text('chart.day')} {days[0].number}", "quiet"),
             _text(WIDTH - RIGHT, TOP + PLOT + 14, str(days[-1].number), "quiet", "end")]
    return Panel(WIDTH, TOP + PLOT + BOTTOM, "".join(parts),
                 f"{safe(club)}: {say.text('chart.place')} {told}")


def line_panels(say: Phrases, days: list[Day], table: list[Place],
                titles: dict[int, str]) -> list[Panel]:
    """A panel a line: the clubs from the top of the table, and since when they were in or out."""
    return [_line_panel(say, days, [place.club for place in table], places, title)
            for places, title in titles.items()]


def _line_panel(say: Phrases, days: list[Day], clubs: list[str], places: int,
                title: str) -> Panel:
    """A bar a club, grey as long as it was open."""
    found, count = decided_days(days, places), len(days)
    parts = [_text(0, 15, title, "title")]
    for at, club in enumerate(clubs):
        top = TOP + at * ROW
        word = next((it for it in ("in", "out") if club in found[it]), "open")
        day = found[word][club] if word != "open" else count + 1
        open_part = BARS * (day - 1) / count
        parts += [_text(NAME - 6, top + 12, _cut(club), "", "end"),
                  f'<rect class="bar" x="{NAME}" y="{top + 3}" width="{open_part:.1f}" '
                  'height="10"/>']
        if word != "open":
            parts.append(f'<rect class="bar-{word}" x="{NAME + open_part:.1f}" y="{top + 3}" '
                         f'width="{BARS - open_part:.1f}" height="10"/>')
        told = say.text(word) + (f" {day}" if word != "open" else "")
        parts.append(_text(NAME + BARS + 6, top + 12, told, "quiet"))
    return Panel(NAME + BARS + WORD, TOP + ROW * len(clubs) + 4, "".join(parts), title)


def _cut(club: str) -> str:
    """A name for which there is room."""
    return safe(club if len(club) <= LONGEST else club[:LONGEST - 1] + "…")


def _points(points: list[tuple[float, float]]) -> str:
    return " ".join(f"{x:.1f},{y:.1f}" for x, y in points)


def _text(x: float, y: float, text: str, kind: str, anchor: str = "start") -> str:
    return f'<text x="{x}" y="{y}" class="{kind}" text-anchor="{anchor}">{text}</text>'


def on_page(panels: list[Panel]) -> Iterator[str]:
    """Panels as pictures of their own, which the page lays out."""
    for panel in panels:
        yield (f'<svg viewBox="0 0 {panel.width} {panel.height}" role="img" '
               f'aria-label="{panel.words}">{panel.body}</svg>')


def in_file(title: str, told: str, panels: list[Panel], columns: int) -> str:
    """A picture of all panels, so many side by side, as a file of its own."""
    wide = max(panel.width for panel in panels) + GAP
    high = max(panel.height for panel in panels) + GAP
    rows = (len(panels) + columns - 1) // columns
    width, height = columns * wide + GAP, rows * high + 60
    placed = [f'<g transform="translate({GAP + at % columns * wide} {50 + at // columns * high})">'
              f"{panel.body}</g>" for at, panel in enumerate(panels)]
    return "\n".join([
        f'<svg xmlns="http://www.w3.org/2000/svg" viewBox="0 0 {width} {height}" width="{width}" '
        f'height="{height}" role="img">', f"<title>{title}</title>", f"<style>{STYLE}</style>",
        f'<rect class="paper" width="{width}" height="{height}"/>', _text(GAP, 22, title, "title"),
        _text(GAP, 40, told, "quiet"), *placed, "</svg>"]) + "\n"


def chart_titles(say: Phrases, names, lines: list[int], size: int) -> dict[int, str]:
    """What each line is called, as a picture has it: a text without elements."""
    return {places: safe(names.inside[places]) if places in names.inside
            else say.line(names, places, size) for places in lines}
