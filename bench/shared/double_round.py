"""A double round of 20 clubs with its last rounds open, for the benches of the whole program."""

import os
import subprocess
import tempfile
import time

CLUBS, GOALS = 20, 9


def rounds():
    """The rounds of a double round: each pair once, then each with sides exchanged."""
    ring = list(range(CLUBS - 1))
    first = []
    for turn in range(CLUBS - 1):
        pairs = [(turn, CLUBS - 1)]
        pairs += [(ring[(turn + i) % len(ring)], ring[(turn - i) % len(ring)])
                  for i in range(1, CLUBS // 2)]
        first.append([pair if turn % 2 == 0 else pair[::-1] for pair in pairs])
    return first + [[pair[::-1] for pair in pairs] for pairs in first]


def scores(seed):
    """Goals of 0 to 3, from a fixed generator; the better club, of less number, scores more."""
    while True:
        seed = (6364136223846793005 * seed + 1442695040888963407) % 2 ** 64
        yield (seed >> 33) % 4


def league(left, seed=1, budget=None):
    """The sheet, and the feed up to so many open rounds; then the results of those, in order."""
    played, drawn = rounds(), scores(seed)
    lines = [f"league,Bench,{GOALS}" + ("" if budget is None else f",{budget}")]
    lines += [f"club,K{club:02},{club + 1}" for club in range(CLUBS)]
    lines += [f"match,K{home:02},K{away:02}" for pairs in played for home, away in pairs]
    lines += ["line,1", "line,4", "line,6", "line,17", "season"]
    feed = []
    for number, (home, away) in enumerate([pair for pairs in played for pair in pairs], 1):
        goals = [next(drawn) + (club < CLUBS // 3) for club in (home, away)]
        feed.append(f"result,{number},{goals[0]},{goals[1]}")
    open_matches = left * CLUBS // 2
    return lines + feed[:len(feed) - open_matches], feed[len(feed) - open_matches:]


def run(program, lines, *words):
    """Processor seconds, seconds by the clock, and output of a run over these lines in a file."""
    with tempfile.TemporaryFile() as source, tempfile.TemporaryFile() as sink:
        source.write("\n".join([*lines, ""]).encode())
        source.seek(0)
        begun = time.monotonic()
        started = subprocess.Popen([program, *words], stdin=source, stdout=sink)
        _, status, used = os.wait4(started.pid, 0)
        clock = time.monotonic() - begun
        started.returncode = os.waitstatus_to_exitcode(status)
        if started.returncode != 0:
            raise subprocess.CalledProcessError(started.returncode, started.args)
        sink.seek(0)
        return used.ru_utime + used.ru_stime, clock, sink.read()


def memory(program, lines, *words):
    """The greatest memory of a run in kilobytes, as GNU time tells it: what the system tells of a
    process that python starts is never less than python's own."""
    with tempfile.TemporaryFile() as source:
        source.write("\n".join([*lines, ""]).encode())
        source.seek(0)
        told = subprocess.run(["/usr/bin/time", "-f", "%M", program, *words], stdin=source,
                              stdout=subprocess.DEVNULL, stderr=subprocess.PIPE, check=True)
    return int(told.stderr.split()[-1])


def least_of(times, program, lines, *words):
    """The least processor seconds and the least seconds by the clock of so many runs."""
    runs = [run(program, lines, *words) for _ in range(times)]
    return min(it[0] for it in runs), min(it[1] for it in runs)


def counted(output):
    """How many verdict rows there are, and how many of them are unsettled."""
    rows = [row for row in output.split(b"\n") if row.startswith(b"verdict,")]
    return len(rows), sum(row.endswith(b",unsettled") for row in rows)
