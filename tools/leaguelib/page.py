"""The page of a board: one HTML file with its style inside, and nothing from elsewhere.

Every name passes through `safe`, and stands in an element of its own, so that neither its signs nor
its direction reach what is around it.
"""

from __future__ import annotations

import base64
import hashlib
from html import escape
from pathlib import Path
from typing import TYPE_CHECKING

from .charts import chart_titles, line_panels, on_page, place_panels
from .marks import capital, name_of, safe
from .page_evening import evening
from .page_news import news, open_matches
from .page_open import still_open
from .page_reasons import reasons
from .page_table import tables
from .page_zones import letter_of, zone_words, zones_of

if TYPE_CHECKING:
    from .board import Board

# so many clubs leave room on a sheet of paper for the matches to play as well
ONE_SHEET = 20
LONG = ' class="long"'


def page_text(board: Board) -> str:
    """The whole page."""
    style = (Path(__file__).resolve().parent / "board.css").read_text("utf-8")
    policy = ("default-src 'none'; base-uri 'none'; form-action 'none'; "
              f"style-src {_hash(style)}")
    parts = [
        "<!DOCTYPE html>", f'<html lang="{board.phrases.language}">', "<head>",
        '<meta charset="utf-8">',
        f'<meta http-equiv="Content-Security-Policy" content="{escape(policy)}">',
        '<meta name="viewport" content="width=device-width, initial-scale=1">',
        f"<title>{safe(board.sheet.name)}</title>",
        f"<style>{style}</style>", "</head>", "<body>",
        f'<main{LONG if len(board.table) > ONE_SHEET else ""}>', *body(board),
        "</main>", "</body>", "</html>"]
    return "\n".join(parts) + "\n"


def body(board: Board) -> list[str]:
    """What the page says."""
    return [f"<h1>{name_of(board.sheet.name)}</h1>", *_state(board),
            '<div class="top">', '<div class="tables">', *tables(board), *_limit(board), "</div>",
            '<div class="beside">', *_legend(board), *still_open(board), "</div>", *news(board),
            "</div>", *evening(board), *open_matches(board), *_charts(board), *reasons(board)]


def _hash(text: str) -> str:
    digest = hashlib.sha256(text.encode("utf-8")).digest()
    return "'sha256-" + base64.b64encode(digest).decode("ascii") + "'"


def _state(board: Board) -> list[str]:
    """How many matches are played and open, what counts first, and when the page was made."""
    say, season = board.phrases, board.season
    still = len(season.open_fixtures(board.sheet)) or say.text("state.none")
    texts = [say.counted("state.played", len(season.scores), last=board.last_text(), still=still)]
    if board.sheet.is_cup:
        texts.append(say.counted("cup", board.sheet.quota))
    texts.append(say.text(f"rules.{board.sheet.order}"))
    deducted = [f"{name_of(name)} {points}" for name, points in season.deductions.items() if points]
    if deducted:
        texts.append(say.text("rules.deducted", clubs=say.listed(deducted)))
    note = [f'<p lang="en">{safe(board.note)}</p>'] if board.note else []
    return [f'<p class="state">{" ".join(texts)} <span class="quiet">'
            f'{say.text("made", date=say.date(board.made))}</span></p>', *note]


def _limit(board: Board) -> list[str]:
    """What in and out rest on."""
    if not board.verdicts:
        return []
    key = "limit" if board.season.open_fixtures(board.sheet) else "limit.ended"
    text = board.phrases.text(key, goals=board.sheet.goal_limit)
    return [f'<p class="limit quiet">{text}</p>']


def _charts(board: Board) -> list[str]:
    """The pictures of the season, where they are wanted."""
    if not board.matchdays:
        return []
    say, parts = board.phrases, []
    titles = chart_titles(say, board.names, board.lines, len(board.table))
    for key, panels in (("places", place_panels(say, board.matchdays, board.table)),
                        ("lines", line_panels(say, board.matchdays, board.table, titles))):
        parts += [f'<section class="{key}-chart">', f"<h2>{say.text(f'chart.{key}')}</h2>",
                  f'<p class="quiet">{say.text(f"chart.{key}.told")}</p>', '<div class="charts">',
                  *on_page(panels), "</div>", "</section>"]
    return parts


def _legend(board: Board) -> list[str]:
    """The zones with their colours and words, and the letters that stand in the table."""
    if not board.verdicts:
        return []
    items = []
    for zone in zones_of(board) if not board.sheet.is_cup else []:
        places = str(zone.first) if zone.first == zone.last else f"{zone.first}–{zone.last}"
        items.append(f'<li><span class="zone {zone.colour}">{places}</span> '
                     f"{capital(zone_words(board, zone))}</li>")
    letters: dict[str, list[str]] = {}
    for place in board.table:
        letter, words = letter_of(board, place.club)
        if letter and words not in letters.setdefault(letter, []):
            letters[letter].append(words)
    items += [f'<li><span class="letter">{letter}</span> {capital(", ".join(words))}</li>'
              for letter, words in letters.items()]
    return [f"<h2>{board.phrases.text('zones')}</h2>", '<ul class="legend">', *items, "</ul>"] if (
        items) else []
