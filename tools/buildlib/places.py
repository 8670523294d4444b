"""Copies of the sources in which crates are built side by side.

The kit lets one command at a time into the folder of a crate and of each crate below it. Two crates
over the same base are therefore never built side by side in one copy, however many are begun. So
each of the places has a copy of its own. A library that was built in one is linked into the others
before a crate above it is begun there, and all that was made goes back to the clone, which begins
the next build with it. The kit judges by what the files say whether a library is as it would build
it, so nothing here has to be believed: what does not fit is built anew.
"""

import contextlib
import fcntl
import os
import shutil
import subprocess
import time

from .sources import HOME, OUT, PROGRAM, crate_lines

ROOM = f"{OUT}/places"
NOT_COPIED = shutil.ignore_patterns("out", "must-fail", "*.md")


def link(one, other):
    """Gives a file a second name, but a stamp a second file, since its time is set."""
    if os.path.basename(one) == "stamp":
        return shutil.copy2(one, other)
    try:
        return os.link(one, other)
    except OSError:
        return shutil.copy2(one, other)


def put(one, other, how):
    """Puts a folder where another may stand, by a link of each file or by moving it."""
    if os.path.isdir(one):
        shutil.rmtree(other, ignore_errors=True)
        os.makedirs(os.path.dirname(other), exist_ok=True)
        how(one, other)


def put_links(one, other):
    put(one, other, lambda *both: shutil.copytree(*both, copy_function=link))


@contextlib.contextmanager
def alone_in(crate):
    """Whether no command of the kit works in the crate's folder of the clone; none begins then."""
    folder = os.open(f"{HOME}/crates/{crate}", os.O_RDONLY)
    try:
        fcntl.flock(folder, fcntl.LOCK_EX | fcntl.LOCK_NB)
        yield True
    except BlockingIOError:
        yield False
    finally:
        os.close(folder)


def out_of(crate):
    """Where the clone has what was made of a crate."""
    return f"{HOME}/crates/{crate}/out"


def give_back(crate, place):
    """Moves to the clone what a place has of a crate, where nobody works on it."""
    here, there = f"{place}/crates/{crate}/out", out_of(crate)
    with alone_in(crate) as is_alone:
        if is_alone:
            put(f"{here}/incremental", f"{there}/incremental", os.rename)
            # the kit writes the stamp last, so one without it is not whole
            if os.path.exists(f"{here}/rlib/stamp"):
                put_links(f"{here}/rlib", f"{there}/rlib")


def date(stamp, moment):
    """Gives a stamp, which other copies may have too, a time of its own: what was changed since the
    build began is newer than it."""
    if os.path.exists(stamp):
        shutil.copy(stamp, f"{stamp}.new")
        os.utime(f"{stamp}.new", ns=(moment, moment))
        os.replace(f"{stamp}.new", stamp)


def remove_places():
    """Removes the places. What a build that was killed left in them goes back first."""
    for number in os.listdir(ROOM) if os.path.isdir(ROOM) else ():
        crates = f"{ROOM}/{number}/crates"
        for name in os.listdir(crates) if os.path.isdir(crates) else ():
            is_lost = not os.path.isdir(f"{out_of(name)}/incremental")
            if is_lost and os.path.isdir(f"{crates}/{name}/out/incremental"):
                give_back(name, f"{ROOM}/{number}")
    # what the kit started may need a moment to end
    for _ in range(50):
        shutil.rmtree(ROOM, ignore_errors=True)
        if not os.path.exists(ROOM):
            break
        time.sleep(0.1)


def make_places(needed, count):
    """Makes so many copies, all of the same text: the others are made of the first."""
    remove_places()
    first = f"{ROOM}/0"
    for name in needed:
        shutil.copytree(f"{HOME}/crates/{name}", f"{first}/crates/{name}", ignore=NOT_COPIED)
    if os.path.exists(f"{HOME}/HANDLES"):
        shutil.copy(f"{HOME}/HANDLES", first)
    with open(f"{first}/crates.txt", "w", encoding="utf-8") as it:
        it.writelines(line.strip() + "\n" for name, _, line in crate_lines() if name in needed)
    for number in range(1, count):
        shutil.copytree(first, f"{ROOM}/{number}")
    return [f"{ROOM}/{number}" for number in range(count)]


class Work:
    """A crate that is being made in a place."""

    def __init__(self, name, place, jobs):
        # the program's run makes a small league, so its status says that it was built and runs
        words = ["run", "--jobs", str(jobs), "--", "sample"] if name == PROGRAM else [
            "lib", "--jobs", str(jobs)]
        self.name, self.place, self.jobs, self.began = name, place, jobs, time.monotonic()
        self.out, self.log = f"{place}/crates/{name}/out", f"{place}/log"
        with open(self.log, "wb") as log:
            self.process = subprocess.Popen(
                ["rt", *words], cwd=os.path.dirname(self.out), stdin=subprocess.DEVNULL,
                stdout=log, stderr=subprocess.STDOUT)

    def seconds(self):
        return time.monotonic() - self.began

    def end(self, log):
        """Ends it where it still runs, and puts what was said after the rest."""
        if self.process.poll() is None:
            self.process.terminate()
            self.process.wait()
        with open(log, "ab") as it, open(self.log, "rb") as said:
            it.write(b"== %s\n" % self.name.encode() + said.read())


class Places:
    """The places, which of them are free, and where each library stands that was built."""

    def __init__(self, needed, built, count, log):
        self.began, self.needed, self.log = time.time_ns(), needed, log
        self.home = {it: out_of(it) for it in built}
        self.free = make_places(needed, count)
        self.has = {it: set() for it in self.free}

    def below(self, crate):
        """The crates that a crate stands on, and those below them."""
        found, due = set(), list(self.needed[crate])
        while due:
            it = due.pop()
            if it not in found:
                found.add(it)
                due += self.needed[it]
        return found

    def begin(self, crate, jobs):
        """Begins a crate in a free place, over the libraries below it and its own earlier work."""
        place = self.free.pop(0)
        for it in self.below(crate) - self.has[place]:
            put_links(f"{self.home[it]}/rlib", f"{place}/crates/{it}/out/rlib")
            self.has[place].add(it)
        here, there = f"{place}/crates/{crate}/out", out_of(crate)
        os.makedirs(here, exist_ok=True)
        with alone_in(crate) as is_alone:
            if is_alone:
                put_links(f"{there}/rlib", f"{here}/rlib")
                put(f"{there}/incremental", f"{here}/incremental", os.rename)
                for part in (crate, f"{crate}.stamp") if crate == PROGRAM else ():
                    if os.path.isfile(f"{there}/{part}"):
                        shutil.copy2(f"{there}/{part}", f"{here}/{part}")
        return Work(crate, place, jobs)

    def end(self, work):
        """Frees the place of a crate that has ended, or that is to end; what was made goes back."""
        work.end(self.log)
        if work.process.returncode == 0:
            date(f"{work.out}/rlib/stamp", self.began)
            self.home[work.name] = work.out
            self.has[work.place].add(work.name)
        give_back(work.name, work.place)
        self.free.append(work.place)
