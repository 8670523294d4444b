"""What the program is made of: its crates, their files, and one sum over them."""

import hashlib
import os

HOME = os.path.dirname(os.path.dirname(os.path.dirname(os.path.realpath(__file__))))
PROGRAM = "futmax"
OUT = f"{HOME}/crates/{PROGRAM}/out"
# where the program stands, whoever put it there
BUILT = f"{OUT}/{PROGRAM}"
# there while that program is a copy of the one in dist/, and was not built on this machine
TAKEN = f"{OUT}/taken"
PARTS = ("src", "specs", "proofs")


def crate_lines():
    """The lines of crates.txt that name a crate: its name, the crates after it, the line."""
    with open(f"{HOME}/crates.txt", encoding="utf-8") as lines:
        for line in lines:
            head, _, below = line.split("#")[0].partition(":")
            if head.strip():
                yield head.split()[0], below.split(), line.split("#")[0]


def crates_needed():
    """The crates that the program stands on, with those that each of them names, and itself."""
    named = {name: below for name, below, _ in crate_lines()}
    needed, due = {}, [PROGRAM]
    while due:
        name = due.pop()
        if name not in needed:
            needed[name] = [it for it in named[name] if it in named]
            due += needed[name]
    return {it: needed[it] for it in named if it in needed}


def lines_needed():
    """The lines of crates.txt of these crates, each as its words with one space between."""
    needed = crates_needed()
    return sorted(" ".join(line.replace(":", " : ").split())
                  for name, _, line in crate_lines() if name in needed)


def files_of(crate):
    """The files of a crate that its check may read, in a fixed order."""
    found = []
    for part in PARTS:
        for folder, _, names in os.walk(f"{HOME}/crates/{crate}/{part}"):
            found += [f"{folder}/{it}" for it in names]
    return sorted(found)


def sum_of_sources():
    """One SHA-256 over the lines of crates.txt and over path and bytes of each file."""
    total = hashlib.sha256("\n".join(lines_needed()).encode())
    for crate in sorted(crates_needed()):
        for path in files_of(crate):
            with open(path, "rb") as it:
                data = it.read()
            total.update(f"\n{os.path.relpath(path, HOME)} {len(data)}\n".encode())
            total.update(data)
    return total.hexdigest()


def newest_of(crate):
    """When a crate was last changed, in nanoseconds; a folder changes where a file goes."""
    times = [0]
    for part in PARTS:
        for folder, _, names in os.walk(f"{HOME}/crates/{crate}/{part}"):
            times += [os.lstat(it).st_mtime_ns for it in (folder, *(f"{folder}/{it}" for it in names))]
    return max(times)


def is_up_to_date():
    """Whether the program stands there and nothing that it could be made of is newer; the script
    `futmax` asks the same."""
    try:
        made = os.stat(BUILT).st_mtime_ns
    except OSError:
        return False
    return made >= max(os.stat(f"{HOME}/crates.txt").st_mtime_ns,
                       *(newest_of(it) for it in os.listdir(f"{HOME}/crates")))
