"""What the checks share: counting, calling the command, and what its end has to be."""

from __future__ import annotations

import io
import os
import subprocess
import sys
from pathlib import Path

from leaguelib import cli

HOME = Path(__file__).resolve().parents[3]
LEAGUE = HOME / "tools" / "league"
PROGRAM = os.environ.get("FUTMAX") or HOME / "crates" / "futmax" / "out" / "futmax"


class Counter:
    """Counts the checks, and names those that fail."""

    def __init__(self) -> None:
        self.passed = 0
        self.failed = 0

    def check(self, name: str, faults: list[str]) -> None:
        """Counts a check; it has passed if nothing is at fault."""
        if not faults:
            self.passed += 1
            return
        self.failed += 1
        print(f"FAILED: {name}")
        for fault in faults:
            print("    " + fault)


def league(*words: object, data: bytes = b"") -> subprocess.CompletedProcess:
    """Runs the command with these words on this input."""
    texts = [word if isinstance(word, bytes) else str(word) for word in words]
    return subprocess.run([sys.executable, str(LEAGUE), *texts], input=data,
                          capture_output=True, timeout=60, check=False)


def called(*words: object, data: bytes = b"") -> subprocess.CompletedProcess:
    """Runs the command in this process, which takes a tenth of the time of one of its own; gives
    its output without the mark of a sheet.
    """
    texts = [os.fsdecode(word) if isinstance(word, bytes) else str(word) for word in words]
    kept = sys.stdin, sys.stdout, sys.stderr
    streams = [io.TextIOWrapper(io.BytesIO(part), "utf-8", "surrogateescape")
               for part in (data, b"", b"")]
    sys.stdin, sys.stdout, sys.stderr = streams
    try:
        status = cli.main(texts)
    except SystemExit as end:
        status = end.code if isinstance(end.code, int) else 1
    finally:
        sys.stdin, sys.stdout, sys.stderr = kept
    for stream in streams[1:]:
        stream.flush()
    output, errors = (stream.buffer.getvalue() for stream in streams[1:])
    output = unmarked(output.decode("utf-8", "surrogateescape")).encode("utf-8", "surrogateescape")
    return subprocess.CompletedProcess(texts, status, output, errors)


def unmarked(feed: str) -> str:
    """A feed without the mark of its sheet, at which mark_checks looks."""
    return "".join(line for line in feed.splitlines(keepends=True)
                   if not line.startswith("# sheet "))


def sound_end(run: subprocess.CompletedProcess) -> list[str]:
    """What is wrong with the way in which a command ended."""
    faults = []
    if b"Traceback" in run.stderr or b"Traceback" in run.stdout:
        faults.append("a traceback: " + run.stderr.decode("utf-8", "replace")[-400:])
    if run.returncode not in (0, 1, 2, 3, 4, 5, 6, 8):
        faults.append(f"status {run.returncode}")
    if run.returncode != 0 and not run.stderr and not run.stdout:
        faults.append(f"status {run.returncode} without a message")
    return faults


def same(run: subprocess.CompletedProcess, wanted: bytes) -> list[str]:
    """Nothing if a command wrote these bytes."""
    if run.stdout == wanted:
        return []
    return [f"status {run.returncode}: " + run.stderr.decode("utf-8", "replace")[:300],
            "wrote " + run.stdout.decode("utf-8", "replace")[:300]]


def said(run: subprocess.CompletedProcess, status: int, says: str) -> list[str]:
    """Nothing if a command ended so, and said this."""
    text = (run.stdout + run.stderr).decode("utf-8", "replace")
    faults = [] if run.returncode == status else [f"status {run.returncode}, not {status}"]
    if says.lower() not in text.lower():
        faults.append(f"not said: {says}")
    return faults + (["it said: " + text] if faults else [])
