"""The words of the command: each stands in the manual page and in the completion of bash."""

from __future__ import annotations

import re
import subprocess

from .counting import HOME, Counter, league, said, sound_end

PARTS = ("ask", "table", "scores", "check", "explain", "places", "board", "live", "sheet", "feed",
         "lint", "names")
EVERYWHERE = {"--help", "--version"}
COMPLETION = HOME / "tools" / "completion" / "league"
MANUAL = HOME / "docs" / "man" / "league.1"


def options_of(part: str) -> set[str]:
    """The long options that the help of a part tells."""
    text = league(part, "--help").stdout.decode("utf-8")
    usage = text.split("\n\n")[0] + text[text.find("\noptions:"):text.find("exit statuses")]
    return set(re.findall(r"--[a-z][a-z-]+", usage)) - EVERYWHERE


def completed(part: str) -> set[str]:
    """The options that bash offers after a part."""
    script = (f'. "{COMPLETION}"; COMP_WORDS=(league {part} --); COMP_CWORD=2; _league; '
              'printf "%s\\n" "${COMPREPLY[@]}"')
    run = subprocess.run(["bash", "-c", script], capture_output=True, check=False)
    return set(run.stdout.decode("utf-8").split()) - EVERYWHERE


def check_words(counter: Counter) -> None:
    """Options in help, manual and completion; help, and words that do not fit."""
    manual = MANUAL.read_text("utf-8").replace("\\-", "-")
    for part in PARTS:
        told = options_of(part)
        faults = [f"not in the manual: {word}" for word in sorted(told) if word not in manual]
        faults += [f"not completed: {word}" for word in sorted(told - completed(part))]
        faults += [f"completed and no word: {word}" for word in sorted(completed(part) - told)]
        counter.check("words of " + part, faults)
    for words in ([], ["lint"], ["sheet"], ["other"], ["live", "a"]):
        run = league(*words)
        name = "words that do not fit: " + " ".join(words)
        counter.check(name, sound_end(run) + said(run, 1, ""))
    check_help_and_version(counter)


def check_help_and_version(counter: Counter) -> None:
    """Help and version of the command and of each part: status 0, on standard output."""
    version = f"league {(HOME / 'VERSION').read_text('utf-8').strip()}\n".encode()
    for part in ([], *[[part] for part in PARTS]):
        for words, says in ((["--help"], "exit statuses"), (["-h"], "usage: league")):
            run = league(*part, *words)
            counter.check("help: " + " ".join(part + words), said(run, 0, says)
                          + (["something on standard error"] if run.stderr else []))
        run = league(*part, "--version")
        faults = said(run, 0, "league")
        counter.check("version: " + " ".join(part), faults + (
            [] if run.stdout == version and not run.stderr else [f"wrote {run.stdout!r}"]))
