"""A small program in place of futmax, a case that runs `league` upon it, and a page taken apart."""

import os
import stat
import subprocess
import sys
import tempfile
import unittest
from html.parser import HTMLParser
from pathlib import Path

LEAGUE = str(Path(__file__).resolve().parents[2] / "tools" / "league")
USAGE = "usage,futmax MODE [--workers N] [--proofs] [--seed N]"
TINY = "league,Tiny,1\nclub,A,1\nclub,B,2\nmatch,A,B\nline,1\nseason\nask\n"
TINY_ROWS = """ask,0
verdict,1,A,possible
["finish","inside"]
["score",1,1,0]
["lots",[1,2]]
["finish","outside"]
["score",1,0,1]
["lots",[2,1]]
verdict,1,B,possible
["finish","inside"]
["score",1,0,1]
["lots",[2,1]]
["finish","outside"]
["score",1,1,0]
["lots",[1,2]]
"""
IDLE = """league,Idle,1,1
club,C,1
club,X,2
club,Y,3
match,X,Y
line,1
season
ask
"""
IDLE_ROWS = """ask,0
verdict,1,C,unsettled
["spent","inside"]
["new_split","rival",2]
["open"]
["open"]
["finish","outside"]
["score",1,1,0]
["lots",[2,3,1]]
verdict,1,X,unsettled
["spent","inside"]
["new_split","rival",1]
["open"]
["open"]
["spent","outside"]
["new_split","rival",1]
["open"]
["open"]
verdict,1,Y,lost
"""
TABLE_ROWS = "ask,0\nplace,1,1,A,0,0,0,0\nplace,2,2,B,0,0,0,0\n"


class Standin:
    """A program that gives one text and status a mode, and the usage for any other words.

    How many workers it is to have makes no difference.
    """

    def __init__(self, folder: str) -> None:
        self.path = Path(folder) / "futmax"
        self.modes: dict[str, tuple[str, int]] = {}

    def answers(self, words: str, text: str, status: int = 0) -> None:
        """Sets what these words answer."""
        self.modes[words.replace(" --workers 1", "")] = (text, status)
        lines = ["#!/usr/bin/env python3", "import sys", "sys.stdin.buffer.read()",
                 f"modes = {self.modes!r}",
                 "words = ' '.join(sys.argv[1:]).replace(' --workers 1', '')",
                 f"text, status = modes.get(words, ({USAGE + chr(10)!r}, 1))",
                 "sys.stdout.write(text)", "sys.exit(status)"]
        self.path.write_text("\n".join(lines) + "\n")
        self.path.chmod(self.path.stat().st_mode | stat.S_IXUSR)


class Case(unittest.TestCase):
    """A folder, a program in place of futmax, and the command `league`."""

    def setUp(self) -> None:
        self.folder = tempfile.TemporaryDirectory()
        self.addCleanup(self.folder.cleanup)
        self.program = Standin(self.folder.name)
        self.program.answers("none", "")

    def league(self, *words: str, data: str | bytes = "") -> subprocess.CompletedProcess:
        """Runs the command on this input."""
        given = data.encode() if isinstance(data, str) else data
        environment = {**os.environ, "FUTMAX": str(self.program.path)}
        done = subprocess.run([sys.executable, LEAGUE, *words], input=given, check=False,
                              capture_output=True, env=environment)
        self.assertNotIn(b"Traceback", done.stderr, done.stderr.decode("utf-8", "replace"))
        return done

    def told(self, *words: str, data: str = "", status: int = 0) -> str:
        """What the command prints, as one line of words, where it ends with this status."""
        done = self.league(*words, data=data)
        self.assertEqual(done.returncode, status, done.stderr.decode())
        return " ".join(done.stdout.decode().split())


class Page(HTMLParser):
    """What stands on a page: its elements, links and goals."""

    EMPTY = ("meta", "br", "!doctype")

    def __init__(self, text: str) -> None:
        super().__init__()
        self.elements: list[tuple[str, dict]] = []
        self.stack: list[str] = []
        self.feed(text)

    def handle_starttag(self, tag: str, attrs: list) -> None:
        """Takes an opening."""
        self.elements.append((tag, dict(attrs)))
        if tag not in self.EMPTY:
            self.stack.append(tag)

    def handle_endtag(self, tag: str) -> None:
        """Takes an end, which has to fit."""
        assert self.stack.pop() == tag, tag
