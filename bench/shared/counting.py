"""What valgrind counts in a run, for the benches, and the leagues that they are given."""

import os
import re
import subprocess
import tempfile
from double_round import league

ASK = "ask"


def leagues(named, numbers):
    """A name and the lines up to an ask for each word: a number of open rounds of the double round
    of the benches, or a file that holds a league with its feed and an ask at its end. Where no
    word is named, for each of these numbers."""
    for word in [it for it in named if it] or numbers:
        if os.path.exists(str(word)):
            with open(word, encoding="utf-8") as source:
                lines = source.read().split("\n")
            yield os.path.basename(word), [line for line in lines if line not in ("", ASK)]
        else:
            yield f"{word} rounds open", league(int(word))[0]


def text_of(lines):
    """The bytes of these lines."""
    return "\n".join([*lines, ""]).encode()


def write(path, lines):
    """Makes a file of these lines."""
    with open(path, "wb") as it:
        it.write(text_of(lines))


def counted(words, lines=None, within=None):
    """The instructions of a run over these lines, or those of one function with all that it calls,
    and what the run prints."""
    counter = ["valgrind", "--tool=callgrind", "--callgrind-out-file=/dev/null"]
    counter += [] if within is None else [f"--toggle-collect={within}"]
    told = subprocess.run(counter + words, input=None if lines is None else text_of(lines),
                          capture_output=True, check=True)
    return int(re.search(rb"Collected : (\d+)", told.stderr).group(1)), told.stdout.decode()


def functions(words):
    """For each function that is called in a run: its instructions, with all that it calls, and how
    often it is called; and what the run prints."""
    with tempfile.NamedTemporaryFile() as kept:
        told = subprocess.run(["valgrind", "--tool=callgrind", "--compress-strings=no",
                               "--compress-pos=no", f"--callgrind-out-file={kept.name}", *words],
                              capture_output=True, check=True)
        found, name, calls = {}, None, None
        for line in kept.read().decode(errors="replace").split("\n"):
            if line.startswith("cfn="):
                name = line[4:]
            elif line.startswith("calls="):
                calls = int(line[6:].split()[0])
            elif calls is not None:
                count, times = found.get(name, (0, 0))
                found[name] = count + int(line.split()[1]), times + calls
                calls = None
    return found, told.stdout.decode()


def solver(path, variable="SOLVER"):
    """The words that run another search over a file: those of SOLVER, or of another variable, with
    FILE for its name."""
    return [path if word == "FILE" else word.replace("=FILE", f"={path}")
            for word in os.environ[variable].split()]
