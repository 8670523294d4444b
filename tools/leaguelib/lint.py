"""Looks for mistakes in a sheet and a feed: says what the program would refuse, line by line, with
what to write instead, and what it would take though it looks wrong. Files are read one after the
other, as `cat` joins them; `-` is standard input.
"""

from __future__ import annotations

import argparse

from . import common
from .cleaning import KINDS, cleaned_steps
from .doubts import Doubt, day_doubts, feed_doubts, sheet_doubts
from .feeds import Input, InputReader, read_input
from .files import examine, joined
from .findings import Finding, Outcome, capital, outcome_text
from .modes import GROUPS, GROUPS_CHECK, OF_CUPS
from .records import Record, Refused, count_lines, lines_of, record_of, records_of
from .refusals import Advice, advise
from .repairs import FEED_KINDS
from .saved import SAVED_KINDS, without_saved
from .saved_lines import first_bad_line
from .sheet_marks import moved_in, unmarked_text
from .texts import Entry
from .words import SAVED_WORDS, words_for

MODES = ("verdicts", "decide", "whatif", "table", "scores", "check", "decide_check", "save",
         "resume", GROUPS, GROUPS_CHECK)
CHECKS = ("check", "decide_check", GROUPS_CHECK)
FIRST_CODES = ("no_league", "no_cup")
MOST_SHOWN = 30
MOST_REFUSED = 10_000


def add_arguments(parser: argparse.ArgumentParser) -> None:
    """The words of `league lint`."""
    parser.add_argument("files", nargs="+", metavar="FILE", help="sheet, feed; or both in one file")
    parser.add_argument("--quiet", action="store_true", help="say nothing if nothing is wrong")
    parser.add_argument("--sheet-only", action="store_true",
                        help="the files hold a sheet alone: expect no feed")
    parser.add_argument("--mode", choices=MODES,
                        help="the mode in which futmax is to be run (verdicts; groups for a cup)")


def run(arguments: argparse.Namespace) -> int:
    """Looks at the files, and prints what was found."""
    files = [("standard input" if name == "-" else name, common.read_bytes(name))
             for name in arguments.files]
    text, status = looked_at(files, arguments.sheet_only, arguments.mode)
    unknown = unmarked_text(files) if status != common.FEED_REFUSED else ""
    if text or not arguments.quiet:
        common.write_text(text or "No mistakes found.\n")
    if unknown and not arguments.quiet:
        common.write_text(unknown + ".\n")
    return status


def looked_at(files: list[tuple[str, bytes]], is_sheet_only: bool = False,
              mode: str | None = None) -> tuple[str, int]:
    """What there is to say about the files in a mode of the program, and the exit status."""
    examined = [(name, examine(data)) for name, data in files]
    texts = [f"{name}: {capital(message)}.\n"
             for name, file in examined for message in file.messages]
    moved = moved_in(files)
    if moved:
        return f"{moved}.\n", common.FEED_REFUSED
    original = refusal_of(b"".join(data for _, data in files), mode)
    if not all(file.is_readable for _, file in examined):
        whole = joined(files)
        return "".join(texts) + outcome_text(Outcome(refused=original), whole), common.TO_MEND
    whole = joined([(name, file.data) for name, file in examined])
    outcome = look(whole.data, is_sheet_only, mode)
    if texts:
        outcome.refused = original
    text = "".join(texts) + outcome_text(outcome, whole)
    return text, common.TO_MEND if texts else outcome.status


def mode_for(data: bytes, mode: str | None) -> str:
    """The mode, or where none is told the one that answers such a sheet."""
    if mode is not None:
        return mode
    is_cup = _meant_kind(data) == "cup" or (
        first_line(data, "cup") > 0 and first_line(data, "league") == 0)
    return GROUPS if is_cup else "verdicts"


def _meant_kind(data: bytes) -> str:
    """What the first field of the first record was meant to be; nothing if there is none."""
    try:
        first = next(records_of(data), None)
    except Refused:
        return ""
    fields = cleaned_steps(first.raw)[-1].fields if first is not None else []
    return fields[0] if fields else ""


def look(data: bytes, is_sheet_only: bool = False, mode: str | None = None) -> Outcome:
    """Looks at a whole input in UTF-8; in the mode `check` the report after `proofs` is not."""
    mode = mode_for(data, mode)
    takes_proofs, is_cup = mode in CHECKS, mode in OF_CUPS.values()
    outcome = Outcome(refused=refusal_of(data, mode),
                      league_line=first_line(data, "cup" if is_cup else "league"))
    if mode == "resume":
        data = without_saved(data)
    reader = InputReader(takes_proofs, mode == "whatif", is_cup)
    entries: list[Entry] = []
    try:
        for number, raw in lines_of(data):
            record = record_of(number, raw)
            if record is not None:
                entries.extend(_take(record, reader, outcome))
            is_report_next = bool(entries) and entries[-1].kind == "proofs"
            if record is not None and record.kind in SAVED_KINDS:
                return outcome
            if outcome.more >= MOST_REFUSED or is_report_next:
                break
    except Refused as refused:
        words = capital(words_for(refused, [], None)) + "."
        outcome.findings.append(Finding(refused.line, words))
        return outcome
    _test_end(reader, count_lines(data), outcome)
    if reader.sheet is not None:
        outcome.doubts.extend(sheet_doubts(reader.sheet, mode == "table"))
        outcome.doubts.extend(day_doubts(data, reader.sheet))
        if reader.feed_reader is not None and not is_sheet_only:
            question = {"whatif": "when", "save": ""}.get(mode, "ask")
            outcome.doubts.extend(feed_doubts(reader.sheet, entries, question))
            if takes_proofs and not any(entry.kind == "proofs" for entry in entries):
                outcome.doubts.append(Doubt(0, "the input has no `proofs`; the report for the "
                                               f"mode `{mode}` comes after it"))
    if outcome.refused is not None and outcome.refused.code == "bad_save":
        outcome.findings.append(Finding(outcome.refused.line,
                                        capital(words_for(outcome.refused, [], None)) + "."))
    return outcome


def first_line(data: bytes, kind: str) -> int:
    """The first line that begins as a `league` or a `cup` record does; 0 if none does."""
    word = kind.encode("ascii") + b","
    place = 0 if data.startswith(word) else data.find(b"\n" + word) + 1
    return data.count(b"\n", 0, place) + 1 if place or data.startswith(word) else 0


def refusal_of(data: bytes, mode: str | None = None) -> Refused | None:
    """The line at which the program stops in a mode, if it does."""
    mode = mode_for(data, mode)
    try:
        league = read_input(data, mode in (*CHECKS, "resume"), mode == "whatif",
                            mode in OF_CUPS.values())
        if mode == "resume":
            bad = _bad_save(league, data)
            if bad:
                return Refused(bad, "bad_save", 0, "feed")
            read_input(without_saved(data))
    except Refused as refused:
        return refused
    return None


def _bad_save(league: Input, data: bytes) -> int:
    """The line that is refused for the saved text; 0 if none is."""
    if not league.report_line:
        return count_lines(data) + 1
    return first_bad_line(league.sheet, data, league.report_line - 1)


def _take(record: Record, reader: InputReader, outcome: Outcome) -> list[Entry]:
    """Takes a record, or notes what is wrong and goes on with what was meant."""
    try:
        entry = reader.take(record)
        return [] if entry is None else [entry]
    except Refused as refused:
        is_known = refused.code in FIRST_CODES and outcome.is_league_missed
        if is_known or len(outcome.findings) >= MOST_SHOWN:
            outcome.more += 1
            return []
        return _note(record, refused, reader, outcome)


def _note(record: Record, refused: Refused, reader: InputReader, outcome: Outcome) -> list[Entry]:
    """Notes a refused record, and gives the reader what was meant."""
    advice = None
    if refused.code in FIRST_CODES:
        advice = _advice_on_first(record, refused.code, outcome.league_line)
    if advice is None:
        advice = advise(record, refused, reader)
    if refused.code in FIRST_CODES and not advice.instead:
        outcome.is_league_missed = True
    outcome.findings.append(Finding(record.line, advice.message, _written(record.raw),
                                    advice.instead, advice.is_dropped, refused.field))
    if refused.code == "quota_range":
        reader.end_sheet()
        return []
    if refused.code == "unknown_record" and record.kind == "club" and not reader.feed_reader:
        _take_late_club(record, reader)
        return []
    entries: list[Entry] = []
    for line in advice.instead:
        meant = record_of(record.line, line.encode("utf-8", "surrogateescape"))
        if meant is not None:
            entries.extend(_take(meant, reader, outcome))
    return entries


def _advice_on_first(record: Record, code: str, league_line: int) -> Advice | None:
    """Advice on a first record that begins no such sheet, where the line alone does not tell it.
    """
    word = "cup" if code == "no_cup" else "league"
    if record.kind in ("cup", "league"):
        mode = "groups" if record.kind == "cup" else "verdicts"
        return Advice(f"This is the sheet of a {record.kind}, which another mode answers: "
                      f"`futmax {mode}`; `league ask` takes the one that fits.")
    if record.kind in SAVED_KINDS:
        return Advice(capital(SAVED_WORDS) + ".")
    if _is_header(record):
        return Advice("This looks like the first row of a fixture list. futmax takes no header "
                      "row: leave the line out. `league sheet` makes a sheet of a fixture list.")
    if league_line and record.kind in FEED_KINDS:
        return Advice("This is a line of a feed, and the sheet comes after it: put the sheet "
                      "first, as in `league lint SHEET FEED`.")
    if league_line and record.kind in KINDS:
        return Advice(f"The first record must be `{word}`, and it comes further down, in line "
                      f"{league_line}: move it to the top.")
    if record.kind in FEED_KINDS:
        return Advice("This is a line of a feed, and the sheet is missing before it: `league lint "
                      "SHEET FEED` reads both.")
    return None


def _take_late_club(record: Record, reader: InputReader) -> None:
    """Takes a club that stands too late, so that the matches after it are understood."""
    try:
        reader.sheet_reader.take_club(record)
    except (Refused, IndexError):
        pass


def _is_header(record: Record) -> bool:
    """Whether a record is the header row of a table."""
    words = {part.strip().lower().replace("_", "") for part in record.fields}
    words |= {word for part in words for word in part.replace(";", " ").replace("\t", " ").split()}
    return len(words & {"hometeam", "awayteam", "home", "away", "date", "div", "team", "round",
                        "team1", "team2", "club", "rank", "name", "points", "type", "record"}) > 1


def _written(raw: bytes) -> str:
    return raw.decode("utf-8", "surrogateescape")


def _test_end(reader: InputReader, lines: int, outcome: Outcome) -> None:
    """Notes an input that ends too early."""
    if lines == 0:
        outcome.findings.append(Finding(1, "The input is empty."))
        return
    try:
        reader.test_end(lines)
    except Refused as refused:
        if refused.code == "no_season" or not outcome.findings:
            words = capital(words_for(refused, [], reader.sheet)) + "."
            instead = ["season"] if refused.code == "no_season" else []
            outcome.findings.append(Finding(lines + 1, words, "", instead))
