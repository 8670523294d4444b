"""In which order crates are proved, with how many jobs each, and how long it takes.

A crate is begun once those below it stand, the one with the longest chain of crates above it first.
How long each takes stands in docs/CONTRIBUTING.md, in the table of what the gate costs. The time
left is what these times make in the same order, by the pace of the crates that are done.
"""

import os

from .sources import HOME, PROGRAM, newest_of

# what one job of a check may take, in bytes: no more run side by side than have this much each
MEMORY = 3_000_000_000
# the seconds of a crate that the table lacks, and the least that any takes
UNKNOWN, LEAST = 60, 1


def places():
    """How many jobs may run at a time: by the processors and by the memory that is free."""
    with open("/proc/meminfo", encoding="utf-8") as lines:
        free = next(int(it.split()[1]) for it in lines if it.startswith("MemAvailable"))
    return max(1, min(len(os.sched_getaffinity(0)), 1024 * free // MEMORY))


def told_seconds():
    """What the proof of each crate took, as the table tells; nothing if it cannot be read."""
    told, at = {}, None
    try:
        with open(f"{HOME}/docs/CONTRIBUTING.md", encoding="utf-8") as lines:
            rows = [[it.strip() for it in line.split("|")] for line in lines if line[0] == "|"]
    except OSError:
        return told
    for row in rows:
        if "Crate" in row and "Proof" in row:
            at = row.index("Crate"), row.index("Proof")
        elif at and len(row) > max(at):
            try:
                told[row[at[0]]] = 60 * float(row[at[1]])
            except ValueError:
                continue
    return told


def built_at(crate):
    """When the library of a crate was built, in nanoseconds; 0 if there is none."""
    try:
        return os.stat(f"{HOME}/crates/{crate}/out/rlib/stamp").st_mtime_ns
    except OSError:
        return 0


def stands(crate, below):
    """Whether a crate was built as it stands now, over what stands below it, as far as the times of
    files tell. Where they err, the kit builds it for the crate above."""
    return built_at(crate) >= max(newest_of(crate), *map(built_at, below), 1)


def in_layers(needed):
    """The crates, each after those below it."""
    found, more = [], [""]
    while more:
        more = [it for it in needed if it not in found and set(found).issuperset(needed[it])]
        found += more
    return found


class Plan:
    """The crates that are to be made, and what is known of the time that each takes."""

    def __init__(self, needed):
        self.needed, self.seconds, self.due = needed, {}, set()
        layers, told = in_layers(needed), told_seconds()
        for name in layers:
            below = needed[name]
            if name == PROGRAM or self.due.intersection(below) or not stands(name, below):
                self.due.add(name)
            self.seconds[name] = told.get(name, UNKNOWN) if name in self.due else 0
        self.chains = {}
        for name in reversed(layers):
            above = [self.chains[it] for it in needed if name in needed[it]]
            self.chains[name] = self.seconds[name] + max(above, default=0)
        # of the crates that are done: what they took, and what they were told to take
        self.took = self.wanted = 60

    def ready(self, begun, done):
        """The crates that can be begun, those with the longest chain above them first."""
        found = [it for it in self.needed if it not in begun and done.issuperset(self.needed[it])]
        return sorted(found, key=lambda it: -self.chains[it])

    def note(self, name, seconds):
        """Learns how long a crate took."""
        self.took += seconds
        self.wanted += self.seconds[name]

    def seconds_left(self, running, done, at_once):
        """How long the rest takes, where each of `running` has run so many seconds so far."""
        pace = self.took / self.wanted
        ends = {it: max(LEAST, pace * self.seconds[it] - ran) for it, ran in running.items()}
        done, now = set(done), 0
        while True:
            for name in self.ready(done.union(ends), done)[: max(0, at_once - len(ends))]:
                ends[name] = now + pace * self.seconds[name]
            if not ends:
                return now
            first = min(ends, key=ends.get)
            now = ends.pop(first)
            done.add(first)


def jobs_for(ready, running, at_once):
    """How many jobs the next crate gets, where so many can be begun and so many jobs run: one while
    others wait, and all free places where it is alone, as at the two ends of the longest chain."""
    return -(-(at_once - running) // ready)
