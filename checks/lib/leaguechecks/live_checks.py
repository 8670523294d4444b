"""A session with a stand-in for the program, which dies once and refuses one ask."""

from __future__ import annotations

import sys
import tempfile
from pathlib import Path

from .counting import Counter, league, said, sound_end, unmarked
from .mistake import SHEET

STAND_IN = '''#!{python}
"""Stands in for futmax: a table of noughts, one death, and one ask at which it always dies."""
import os, sys
events, died = 0, os.path.exists({mark!r})
for line in sys.stdin:
    events += line.startswith(("result", "fix", "void", "deduct"))
    if not line.startswith("ask"):
        continue
    if events == 1 and not died:
        open({mark!r}, "w").close()
        os.abort()
    if events == 2:
        os.abort()
    print(f"ask,{{events}}")
    for club in ("Anchor", "Köln", "Dock United"):
        print(f"place,1,3,{{club}},0,0,0,0")
    sys.stdout.flush()
'''


def check_live(counter: Counter) -> None:
    """A session with a program that dies once, and at one ask each time."""
    with tempfile.TemporaryDirectory() as work:
        stand_in, sheet, log = (Path(work) / name for name in ("stand_in", "sheet.csv", "log.csv"))
        stand_in.write_text(STAND_IN.format(python=sys.executable, mark=work + "/mark"), "utf-8")
        stand_in.chmod(0o755)
        sheet.write_text(SHEET, "utf-8")
        words = ["live", sheet, log, "--rows", "--mode", "table", "--program", stand_in]
        lines = "Anchor 2-1 Köln\nask\nAncor 1-0 Köln\nresult,2,0,0\nask\nresult,3,1,1\nask\n"
        run = league(*words, data=lines.encode("utf-8"))
        text = run.stdout.decode("utf-8") + run.stderr.decode("utf-8")
        wanted = ["ask,1\n", "# end of answer 1, after 1 event\n", "line 3, `Ancor 1-0 Köln`: refused, not sent: no club",
                  "this ask has no answer", "ask,3\n",
                  "# end of answer 3, after 3 events\n", "started again"]
        faults = [f"not said: {part}" for part in wanted if part not in text]
        counter.check("live: a session", sound_end(run) + faults + ([text] if faults else []))
        kept = "result,1,2,1\nask\nresult,2,0,0\nresult,3,1,1\nask\n"
        counter.check("live: the log", [] if unmarked(log.read_text("utf-8")) == kept else [log.read_text()])
        run = league(*words, data=b"ask\n")
        counter.check("live: the log is replayed", sound_end(run) + said(run, 0, "ask,3\n"))
        run = league(*words[:-1], "/nowhere/futmax", data=b"ask\n")
        counter.check("live: no program", sound_end(run) + said(run, 6, "cannot be run"))
