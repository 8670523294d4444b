"""The modes of futmax that are asked for verdicts and to check a report: `decide` and
`decide_check`, or the older `verdicts` and `check` where a program has not these; of cups `groups`
and `groups_check`.
"""

from __future__ import annotations

from functools import lru_cache

from .running import run_program

DECIDE, DECIDE_CHECK = "decide", "decide_check"
OLDER = {DECIDE: "verdicts", DECIDE_CHECK: "check"}
GROUPS, GROUPS_CHECK = "groups", "groups_check"
OF_CUPS = {DECIDE: GROUPS, "verdicts": GROUPS, DECIDE_CHECK: GROUPS_CHECK, "check": GROUPS_CHECK}
ONE_THREAD = (DECIDE, DECIDE_CHECK, GROUPS, GROUPS_CHECK)


def known_mode(path: str, mode: str, is_cup: bool = False) -> str:
    """The mode, or the one in its place: of a cup, or where the program does not know it."""
    if is_cup:
        return OF_CUPS.get(mode, mode)
    return OLDER[mode] if mode in OLDER and not _has_decide(path) else mode


def mode_words(mode: str, *words: str, workers: int = 1) -> list[str]:
    """The words that run a mode; by one thread the same input has the same answer."""
    threads = () if mode in ONE_THREAD else ("--workers", str(workers))
    return [mode, *threads, *words]


@lru_cache(maxsize=None)
def _has_decide(path: str) -> bool:
    """Whether the program takes the mode: of an empty input it then refuses the first line."""
    return run_program(path, [DECIDE], b"").status != 1
