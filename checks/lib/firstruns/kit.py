"""Stands in for the kit's command in a small clone: `kit.py FOLDER WORDS..`.

It does what the build has to reckon with. One command at a time works in the folder of a crate and
of those below it; one that would have to wait fails, so that no test passes by waiting. A library
is as it would be built where its stamp is the sum of its texts and of what stands below it; one that
is not there is built, and counted, also for a crate above it. FOLDER has the kit's line, how many seconds
a crate takes (`all=1 low=2`), the crates that are not proved, and gets the calls.
"""

import fcntl
import hashlib
import os
import shutil
import sys
import time
from pathlib import Path

PROGRAM = """#!/bin/sh
[ $# -gt 0 ] || {{ echo 'usage,futmax MODE'; exit 1; }}
[ "$1" = sample ] && exit 0
echo '{text}' $1
"""


class Kit:
    """The kit's folder, and the crates of the copy that it works in."""

    def __init__(self, folder):
        self.folder, self.crates = Path(folder), Path.cwd().parent
        lines = (self.crates.parent / "crates.txt").read_text(encoding="utf-8").splitlines()
        words = [it.split("#")[0].partition(":") for it in lines]
        self.named = {it[0].strip(): it[2].split() for it in words if it[0].strip()}

    def text(self, name):
        return (self.folder / name).read_text(encoding="utf-8")

    def note(self, name, text):
        with open(self.folder / name, "a", encoding="utf-8") as it:
            it.write(text + "\n")

    def below(self, crate):
        found = [other for it in self.named[crate] for other in (*self.below(it), it)]
        return list(dict.fromkeys(found))

    def stamp(self, crate):
        total = hashlib.sha256("".join(self.stamp(it) for it in self.named[crate]).encode())
        for part in ("src", "specs", "proofs"):
            for path in sorted((self.crates / crate / part).rglob("*")):
                total.update(path.name.encode() + path.read_bytes())
        return total.hexdigest()

    def prove(self, crate):
        """Takes a while, and ends the command where the crate is one that is not proved."""
        self.note("calls", crate)
        pauses = dict(it.split("=") for it in self.text("pause").split())
        time.sleep(float(pauses.get(crate, pauses.get("all", 0))))
        # of `right` the kit keeps no work, as of a library that it took from another copy
        if crate != "right":
            (self.crates / crate / "out/incremental").mkdir(parents=True, exist_ok=True)
        if crate in self.text("fails").split():
            sys.exit(f"{crate} is not proved")

    def library(self, crate):
        stamp = self.crates / crate / "out/rlib/stamp"
        if not stamp.exists() or stamp.read_text(encoding="utf-8") != self.stamp(crate):
            shutil.rmtree(stamp.parent, ignore_errors=True)
            (stamp.parent / f"{crate}.rlib").mkdir(parents=True)
            self.prove(crate)
            stamp.write_text(self.stamp(crate), encoding="utf-8")

    def program(self, crate):
        self.prove(crate)
        text = (self.crates / "low/src/lib.rt").read_text(encoding="utf-8")
        made = self.crates / crate / "out/made"
        made.write_text(PROGRAM.format(text=text), encoding="utf-8")
        made.chmod(0o755)
        made.rename(made.with_name(crate))

    def work(self, words):
        crate = Path.cwd().name
        self.note("words", f"{crate} {' '.join(words)}")
        held = [os.open(self.crates / it, os.O_RDONLY) for it in (*self.below(crate), crate)]
        for it in held:
            try:
                fcntl.flock(it, fcntl.LOCK_EX | fcntl.LOCK_NB)
            except BlockingIOError:
                sys.exit("another command works in a crate below")
        for it in self.below(crate):
            self.library(it)
        (self.program if words[0] == "run" else self.library)(crate)


if __name__ == "__main__":
    if sys.argv[2] == "version":
        print((Path(sys.argv[1]) / "line").read_text(encoding="utf-8"), end="")
    else:
        Kit(sys.argv[1]).work(sys.argv[2:])
