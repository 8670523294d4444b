"""A clone in small, with a command in place of the kit: what `futmax` and its tools do in it.

`low`, `left` and `right` are below the program, `tests` is not. The program that the stand-in
builds says the text of low's source and its first word, so an answer tells what it was made of.
"""

import os
import shutil
import signal
import subprocess
import tempfile
import time
from pathlib import Path

HERE = Path(__file__).resolve().parent
HOME = HERE.parents[2]
CRATES = "low:\nleft: low\nright: low\ntests: low\nfutmax: left right\n"


def path_without_kit(folder):
    """A folder of the commands that the script needs, and nothing else."""
    for name in ("bash", "sh", "env", "readlink", "dirname", "basename", "find", "cat", "chmod",
                 "mkdir", "mv", "sleep", "grep", "setarch"):
        found = shutil.which(name)
        if found:
            (folder / name).symlink_to(found)
    python = subprocess.run(["python3", "-c", "import sys; print(sys.executable)"], check=True,
                            capture_output=True, text=True).stdout.strip()
    (folder / "python3").write_text(f'#!/bin/sh\nexec "{python}" "$@"\n', encoding="utf-8")
    (folder / "python3").chmod(0o755)
    return str(folder)


class SmallClone:
    """The clone, in a folder of its own that goes with it."""

    def __init__(self, crates=CRATES):
        self.folder = tempfile.TemporaryDirectory()
        self.root = Path(self.folder.name)
        (self.root / "commands").mkdir()
        self.plain = path_without_kit(self.root / "commands")
        self.write("crates.txt", crates)
        for name in (line.split(":")[0] for line in crates.splitlines()):
            for part in ("src/lib.rt", "specs/Lib.antt", "proofs/Lib.antt"):
                self.write(f"crates/{name}/{part}", "one")
        for name in ("futmax", "tools/build", "tools/prebuilt"):
            (self.root / "tools").mkdir(exist_ok=True)
            shutil.copy(HOME / name, self.root / name)
        shutil.copytree(HOME / "tools/buildlib", self.root / "tools/buildlib")
        self.write("kit/rt", f'#!/bin/sh\nexec python3 "{HERE}/kit.py" "{self.root}/kit" "$@"\n')
        (self.root / "kit/rt").chmod(0o755)
        for name, text in (("line", "kit 1\n"), ("calls", ""), ("pause", ""), ("fails", "")):
            self.write(f"kit/{name}", text)

    def write(self, name, text):
        path = self.root / name
        path.parent.mkdir(parents=True, exist_ok=True)
        path.write_text(text, encoding="utf-8")

    def begin(self, *words, kit=True, only=None):
        """Begins a command of the clone, in a group of its own, as a terminal does; with `only`,
        on that one processor."""
        path = f"{self.root / 'kit'}:{self.plain}" if kit else self.plain

        def alone():
            for it in (signal.SIGINT, signal.SIGTERM, signal.SIGHUP):
                signal.signal(it, signal.SIG_DFL)
            if only is not None:
                os.sched_setaffinity(0, {only})

        return subprocess.Popen(
            [str(self.root / words[0]), *words[1:]], stdin=subprocess.DEVNULL, text=True,
            stdout=subprocess.PIPE, stderr=subprocess.PIPE, env={**os.environ, "PATH": path},
            start_new_session=True, preexec_fn=alone)

    def run(self, *words, **how):
        """Status, output and what is said beside it."""
        begun = self.begin(*words, **how)
        said, beside = begun.communicate(timeout=200)
        return begun.returncode, said, beside

    def answer(self, word="a", **how):
        return self.run("futmax", word, **how)

    def made(self):
        """How often the stand-in was called for each crate."""
        calls = (self.root / "kit/calls").read_text(encoding="utf-8").split()
        return {name: calls.count(name) for name in calls}

    def order(self):
        return (self.root / "kit/calls").read_text(encoding="utf-8").split()

    def program(self):
        return self.root / "crates/futmax/out/futmax"

    def gate(self):
        """As after the gate: everything in out/ is gone but the program, which is made anew."""
        shutil.rmtree(self.root / "crates/futmax/out", ignore_errors=True)
        (self.root / "crates/futmax/out").mkdir()
        subprocess.run([str(self.root / "kit/rt"), "run"], cwd=self.root / "crates/futmax",
                       check=True, env={**os.environ, "PATH": self.plain})
        for name in self.order():
            shutil.rmtree(self.root / f"crates/{name}/out/rlib", ignore_errors=True)
        self.write("kit/calls", "")

    def keep(self):
        """Keeps the gate's program in dist/; nothing is left in out/, as in a fresh clone."""
        self.gate()
        status, _, beside = self.run("tools/prebuilt", "make")
        if status:
            raise AssertionError(beside)
        shutil.rmtree(self.root / "crates/futmax/out")

    def wait_for_calls(self, count):
        """Waits until the stand-in was called so often."""
        self.wait(lambda: len(self.order()) >= count)

    def wait_for(self, crate):
        self.wait(lambda: crate in self.order())

    def wait(self, has_come):
        until = time.monotonic() + 150
        while not has_come():
            if time.monotonic() > until:
                raise AssertionError(f"the stand-in was called for {self.order()} alone")
            time.sleep(0.02)
