"""An evening on air: each line is tested, kept in the log, sent to futmax, and answered where it
asks; lines of other hands in the log as well.
"""

from __future__ import annotations

import argparse

from . import common
from .answer_end import AnswerEnd
from .asker import Asker
from .asking import run_mode
from .evening import Evening, is_event, kind_of
from .line_names import names_in
from .linesource import LineSource, Prompt
from .livelog import LiveLog
from .modes import known_mode, mode_words
from .names import shown as quoted
from .outlook import next_matches, outlook
from .progress import Progress
from .records import lines_of, row_text
from .running import report_of
from .session import Ended, Session
from .sheet_dates import moved
from .slips import Unclear
from .texts import Fixture
from .voices import HELP, Rows, Speaker, events_text, words_of_answer
from .wording import days_of


class Live:
    """A session with its log: every line is tested, kept, sent, and answered where it asks."""

    def __init__(self, evening: Evening, log: LiveLog, sheet: bytes,
                 arguments: argparse.Namespace) -> None:
        self.evening = evening
        self.book = evening.book
        self.log = log
        self.asker = Asker(common.program_path(arguments.program), sheet)
        self.session = self._session(arguments, sheet)
        self.voice = Rows() if arguments.rows else Speaker(self.book, names_in(sheet))
        self.prompt = Prompt()
        self.answers = self.typed = self.refused = 0
        self.is_refused = False

    def _session(self, arguments: argparse.Namespace, sheet: bytes) -> Session:
        """The program as it is to be run."""
        is_cup = self.book.sheet.is_cup
        if is_cup and arguments.mode in ("table", "scores"):
            raise common.Trouble(f"{arguments.sheet} is the sheet of a cup, and --mode "
                                 f"{arguments.mode} is for leagues", common.BAD_WORDS)
        mode = known_mode(self.asker.path, arguments.mode, is_cup)
        proofs = ["--proofs"] * arguments.proofs
        words = mode_words(mode, *proofs, workers=arguments.workers)
        clubs, lines = len(self.book.sheet.clubs), len(self.book.sheet.lines)
        sizes = tuple(len(group.clubs) for group in self.book.sheet.groups) if is_cup else ()
        return Session([self.asker.path, *words], sheet,
                       lambda: AnswerEnd(clubs, lines, mode, arguments.proofs, sizes))

    def begin(self) -> None:
        """Starts the program with the events of the log; its asks are not answered again."""
        last_ask = None
        for number, raw in lines_of(self.log.read()):
            line = raw.decode("utf-8", "surrogateescape")
            try:
                self.evening.take(line)
            except Unclear as unclear:
                raise common.Trouble(f"{self.log.path}, line {number}: {unclear.message} "
                                     "(`league lint` says more)") from unclear
            if kind_of(line) == "ask":
                last_ask = len(self.session.events)
            elif is_event(line):
                self.session.events.append(raw + b"\n")
        self.session.start()
        if isinstance(self.voice, Speaker):
            self._look_back(last_ask)
        if self.log.is_new:
            self.voice.tell(f"{self.log.path} is not there: a new log is begun")
        elif self.session.events or isinstance(self.voice, Speaker):
            self.voice.tell(f"{events_text(len(self.session.events))} of the log replayed")
        if self.prompt.is_shown:
            self.voice.tell("`help` lists what can be typed")

    def _look_back(self, last_ask: int | None) -> None:
        """Has the words of the last ask of the log, with which the next one is compared."""
        if last_ask is not None and self.asker.runs:
            self.voice.remember(self.asker.words(self.session.events[:last_ask]))

    def go_on(self) -> None:
        """Takes lines until there is none."""
        source = LineSource(self._look)
        self.prompt.show()
        text = source.wait()
        while text is not None:
            self.typed += 1
            self.take_in()
            if self.take(text.rstrip("\r")):
                break
            self.prompt.show()
            text = source.wait()
        else:
            self.prompt.leave()
        if isinstance(self.voice, Speaker):
            self.voice.tell(self.kept_text())

    def kept_text(self) -> str:
        """What the log keeps."""
        events = events_text(self.book.feed.season.events)
        return f"{self.log.path} keeps {events}; `league live` goes on with it"

    def _look(self) -> None:
        """Takes what another program added while nothing is typed."""
        if self.take_in(self.prompt.leave):
            self.prompt.show()

    def take(self, text: str) -> bool:
        """Takes a line as it was typed; whether it ends the evening."""
        word = text.strip().lower()
        if word in ("quit", "exit"):
            return True
        was_refused, self.is_refused = self.is_refused, False
        if word == "undo" and was_refused:
            self.voice.tell(self.evening.nothing_back())
            return False
        commands = {"undo": self._undo, "ask": self._answer}
        if isinstance(self.voice, Speaker):
            commands.update({"table": self._table, "rows": self._all_rows, "tonight": self._tonight,
                             "help": lambda: self.voice.tell(HELP.rstrip("\n"))})
        try:
            fixture = self.book.asked_match(text)
            if word in commands:
                commands[word]()
            elif fixture is not None:
                self._when(fixture)
            else:
                self._keep(self.evening.lines_of(text))
        except Unclear as unclear:
            self.refused += 1
            self.is_refused = not unclear.offers_undo
            self.voice.refused(f"line {self.typed}, {quoted(text.strip())}: refused, not sent: "
                               f"{unclear.message}")
        except common.Trouble as trouble:
            if trouble.status != common.CANNOT_WRITE:
                raise
            self.refused += 1
            self.voice.refused(f"line {self.typed}, {quoted(text.strip())}: not kept, not sent: "
                               f"{trouble.message}. Make room, and type it again")
        return False

    def _keep(self, lines: list[str]) -> None:
        """Writes tested lines to the log, and takes them from there."""
        for note in self.book.take_notes():
            self.voice.tell(note)
        if [kind_of(line) for line in lines] == ["ask"]:
            self._answer()
        elif lines:
            self.log.append(*lines)
            self.take_in(own=lines)

    def _undo(self) -> None:
        """Takes the last line back by the feed's own records."""
        lines = self.evening.back()
        if not lines:
            raise Unclear("there is nothing to take back")
        self.log.append(*lines)
        self.take_in(own=lines)

    def take_in(self, before: object = None, own: list[str] | None = None) -> bool:
        """Takes the lines that the log has beyond those taken; whether there were some."""
        first = self.log.lines() + 1
        lines = self.log.grown()
        notes, self.log.notes = self.log.notes, []
        if (lines or notes) and before is not None:
            before()
        for note in notes:
            self.voice.tell(note)
        behind = len(lines) - len(own or [])
        is_own = bool(own) and lines[behind:] == own
        for place, line in enumerate(lines):
            self._take_line(line, first + place, is_own and place >= behind)
        return bool(lines or notes)

    def _take_line(self, line: str, number: int, is_own: bool) -> None:
        """Takes a line of the log; of one that was not typed here it is said where it stands."""
        origin = f"{self.log.path}, line {number}"
        try:
            words = self.evening.take(line)
        except Unclear as unclear:
            self.refused += 1
            self.log.refuse(number)
            self.voice.refused(f"{origin}, {quoted(line)}: not taken: {unclear.message} Take it "
                               "out of the log: it is not read again with this line")
            return
        self.voice.noted(words, "" if is_own else origin)
        if kind_of(line) == "ask":
            self._write_answer()
        elif kind_of(line) == "when":
            self._when(self.book.asked_match(line))
        elif is_event(line) and not self.session.send(line):
            self._tell_restart("futmax had ended")

    def _answer(self) -> None:
        """Has an ask answered, and keeps it in the log where it was."""
        if self._write_answer():
            self.log.append("ask")
            self._pass_own_ask()

    def _pass_own_ask(self) -> None:
        """Takes the `ask` that was just kept, which has its answer already."""
        first = self.log.lines() + 1
        lines = self.log.grown()
        for number, line in enumerate(lines[:-1], first):
            self._take_line(line, number, False)

    def _write_answer(self) -> bool:
        """Writes an answer; once more where the program ended without a fault row."""
        self.answers += 1
        lines = self._lines_of_answer()
        if lines is None:
            self.voice.tell("this ask has no answer, and is not kept. The session goes on")
        if isinstance(self.voice, Rows):
            events = events_text(self.book.feed.season.events)
            self.voice.answer(lines or [], f"end of answer {self.answers}, after {events}")
        elif lines is not None:
            words = self.asker.more(words_of_answer(lines), self.session.events)
            self.voice.answer(words, self.answers, len(self.evening.in_play))
        return lines is not None

    def _lines_of_answer(self) -> list[bytes] | None:
        """The lines of an answer, or none if the program dies twice at this ask."""
        for _ in range(2):
            try:
                with Progress("the answer"):
                    return self.session.ask()
            except Ended as ended:
                self.session.start()
                self._tell_restart(ended.reason)
                if ended.fault:
                    raise common.Trouble("futmax refuses what this tool takes: is it an older "
                                         f"version? {ended.reason}", common.NO_PROGRAM) from ended
        return None

    def _all_rows(self) -> None:
        """Every row of the last answer."""
        if not self.voice.words:
            raise Unclear("nothing was asked so far; `ask` does")
        self.voice.rows()

    def _tonight(self) -> None:
        """What each of the next matches can decide by itself."""
        self._refuse_cup()
        sheet, season = self.book.sheet, self.book.feed.season
        days = moved(days_of(self.asker.data, sheet), self.book.ledger.days())
        fixtures = next_matches(sheet, season, days)
        if not fixtures:
            raise Unclear("no match is open, or so many that the next ones need dates in the "
                          "sheet, twelve a day at most")
        self._tell_outlook(fixtures)

    def _when(self, fixture: Fixture) -> None:
        """What one match can decide, in words or as futmax's rows; the log does not keep it."""
        self._refuse_cup()
        if not isinstance(self.voice, Rows):
            self._tell_outlook([fixture])
            return
        self.answers += 1
        when = row_text("when", fixture.number).encode("ascii")
        run = run_mode(self.asker.path, "whatif",
                       b"".join([self.asker.data, *self.session.events, when]))
        report_of(run)
        events = events_text(self.book.feed.season.events)
        self.voice.answer([run.output], f"end of answer {self.answers}, after {events}")

    def _refuse_cup(self) -> None:
        """Raises `Unclear` in a cup: what a match decides is told of leagues alone."""
        if self.book.sheet.is_cup:
            raise Unclear("what a match can decide is told of leagues, and this is a cup")

    def _tell_outlook(self, fixtures: list[Fixture]) -> None:
        """What each outcome of these matches decides."""
        found = outlook(self.asker.path, self.book.sheet, self.book.feed.season,
                        self.asker.inputs(self.session.events), fixtures)
        self.voice.tonight(fixtures, found)

    def _table(self) -> None:
        """The table, and how it stands with the scores in play."""
        events = self.session.events
        self.voice.table(self.asker.table(events))
        if in_play := self.evening.in_play:
            ended = [f"result,{number},{home},{away}\n".encode()
                     for number, (home, away) in in_play.items()]
            before, after = self.asker.words(events), self.asker.words(events + ended)
            self.voice.as_it_stands(in_play, self.asker.table(events + ended), before, after)

    def _tell_restart(self, reason: str) -> None:
        self.voice.tell(f"{reason}. It was started again, with "
                        f"{events_text(len(self.session.events))} of the log replayed")
