"""The shapes of one league: all give one and the same sheet and feed, and nothing is lost."""

from __future__ import annotations

import tempfile
from pathlib import Path

from .counting import Counter, called, sound_end
from .shapes import (CLUBS, SHAPES, Game, football_data, games_of, wanted_feed,
                     wanted_sheet)

WORDS = ["--name", "Coast League", "--lines", "1", "--order", "head_first", "--no-comments"]


def check_shapes(counter: Counter) -> None:
    """What each shape gives, beside what the league was drawn with."""
    games = games_of()
    with tempfile.TemporaryDirectory() as work:
        folder = Path(work)
        ranks, sheet = folder / "ranks.csv", folder / "sheet.csv"
        ranks.write_text("".join(f"{club},1\n" for club in CLUBS), "utf-8")
        sheet.write_text("".join(line + "\n" for line in wanted_sheet(games, "Coast League")))
        for name, make in SHAPES.items():
            files = [folder / f"list{number}" for number, _ in enumerate(make(games))]
            for file, data in zip(files, make(games)):
                file.write_bytes(data)
            is_ordered = "cross" not in name
            run = called("sheet", *files, *WORDS, "--ranks", ranks)
            counter.check(f"sheet of {name}", sound_end(run) + differing(
                run.stdout, wanted_sheet(games, "Coast League"), is_ordered) + (
                [] if run.returncode in (0, 3) else [run.stderr.decode()]))
            run = called("feed", sheet, *files)
            counter.check(f"feed of {name}", sound_end(run) + differing(
                without_dates(run.stdout), wanted_feed(games), is_ordered) + (
                [] if run.returncode == 0 else [run.stderr.decode()]) + wrong_dates(
                run.stdout, games))
        check_played_alone(counter, folder)


def without_dates(data: bytes) -> bytes:
    """A feed without the dates above its results."""
    return b"".join(line for line in data.splitlines(keepends=True) if not line.startswith(b"# 20"))


def wrong_dates(data: bytes, games: list[Game]) -> list[str]:
    """The dates above results that are not those of the games; the sheet tells none of them."""
    lines, faults = data.decode("utf-8").splitlines(), []
    for above, line in zip(lines, lines[1:]):
        game = games[int(line.split(",")[1]) - 1] if line.startswith("result,") else None
        if game and above.startswith("#") and above != f"# {game.day.isoformat()}":
            faults.append(f"{above} above {line}")
    return faults[:3]


def differing(data: bytes, wanted: list[str], is_ordered: bool) -> list[str]:
    """The first lines that differ; where the order is another one, of the lines sorted."""
    lines = data.decode("utf-8").splitlines()
    pairs = zip(lines, wanted) if is_ordered else zip(sorted(lines), sorted(wanted))
    faults = [f"{line}, and not {other}" for line, other in pairs if line != other]
    counts = [] if len(lines) == len(wanted) else [f"{len(lines)} lines, not {len(wanted)}"]
    return counts + faults[:3]


def check_played_alone(counter: Counter, folder: Path) -> None:
    """The file of a season so far, alone: what is missing is added where it is asked for."""
    games = games_of()
    file = folder / "played.csv"
    file.write_bytes(football_data(games))
    run = called("sheet", file, *WORDS, "--rounds", "2")
    lines = run.stdout.decode("utf-8").splitlines()
    wanted = sorted(f"match,{game.home},{game.away}" for game in games)
    counter.check("sheet of football-data, played alone", sound_end(run) + (
        [] if sorted(line for line in lines if line.startswith("match")) == wanted else
        [run.stderr.decode("utf-8")]))
