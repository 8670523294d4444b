"""Hosts of a check's own: network namespaces on a bridge, each with a name, an empty /tmp, and what
is started in it. They want the rights of root and the commands `ip` and `unshare`.
"""

import os
import shutil
import signal
import subprocess
import tempfile
import time
from pathlib import Path

# a net of this process, so that two checks at once do not meet
NET = f"10.{200 + os.getpid() % 50}.{os.getpid() // 50 % 250}"
# seconds without any progress after which a check gives up: a busy machine is slow and not at fault
PATIENCE = 300


def quietly(*words: str) -> bool:
    """Whether a command ends with status 0; what it says is not shown."""
    return subprocess.run(words, stdout=subprocess.DEVNULL, stderr=subprocess.DEVNULL,
                          check=False).returncode == 0


def why_not() -> str:
    """Why no host can be made here; nothing if it can."""
    for command in ("ip", "unshare", "mount"):
        if shutil.which(command) is None:
            return f"{command} is not there"
    if os.geteuid() != 0:
        return "network namespaces want root"
    name = f"futmax-try-{os.getpid()}"
    if not quietly("ip", "netns", "add", name):
        return "no network namespace can be made"
    quietly("ip", "netns", "del", name)
    return ""


class Hosts:
    """Some hosts, numbered from 1; to be used with `with`."""

    def __init__(self, count: int) -> None:
        self.count = count
        self.mark = f"fx{os.getpid() % 100_000}"
        self.folder = Path(tempfile.mkdtemp(prefix="futmax-hosts-", dir="/var/tmp"))
        self.processes: dict[int, list[subprocess.Popen]] = {number: [] for number in
                                                             range(count + 1)}

    def __enter__(self):
        quietly("ip", "link", "add", self.mark, "type", "bridge")
        quietly("ip", "addr", "add", f"{NET}.254/24", "dev", self.mark)
        quietly("ip", "link", "set", self.mark, "up")
        for number in range(1, self.count + 1):
            space, link = self.space(number), f"{self.mark}v{number}"
            quietly("ip", "netns", "add", space)
            quietly("ip", "link", "add", link, "type", "veth", "peer", "name", "eth0", "netns",
                    space)
            quietly("ip", "link", "set", link, "master", self.mark, "up")
            for words in (("link", "set", "lo", "up"), ("link", "set", "eth0", "up"),
                          ("addr", "add", f"{self.address(number)}/24", "dev", "eth0")):
                quietly("ip", "-n", space, *words)
        return self

    def __exit__(self, *_: object) -> None:
        for number in range(self.count, -1, -1):
            self.kill(number)
        for number in range(1, self.count + 1):
            quietly("ip", "netns", "del", self.space(number))
        quietly("ip", "link", "del", self.mark)
        shutil.rmtree(self.folder, ignore_errors=True)

    def space(self, number: int) -> str:
        """The network namespace of a host."""
        return f"{self.mark}n{number}"

    def address(self, number: int) -> str:
        """The address of a host; number 0 is the machine that asks."""
        return f"{NET}.{number or 254}"

    def start(self, number: int, *words: str, **more: object) -> subprocess.Popen:
        """Starts a command on a host, or beside them where the number is 0."""
        command = list(words)
        if number:
            inside = f"mount -t tmpfs tmpfs /tmp && hostname host{number} && exec \"$@\""
            command = ["ip", "netns", "exec", self.space(number), "unshare", "--mount", "--uts",
                       "sh", "-c", inside, "sh", *words]
        with open(self.folder / f"log-{number}", "ab") as log:
            process = subprocess.Popen(command, stdin=subprocess.DEVNULL, stdout=log, stderr=log,
                                       start_new_session=True, **more)
        self.processes[number].append(process)
        return process

    def kill(self, number: int) -> None:
        """Kills all that was started on a host, and what that started."""
        pids = []
        if number:
            told = subprocess.run(["ip", "netns", "pids", self.space(number)], check=False,
                                  stdout=subprocess.PIPE, stderr=subprocess.DEVNULL).stdout
            pids = [int(word) for word in told.split()]
        for pid in [*pids, *(process.pid for process in self.processes[number])]:
            try:
                os.kill(pid, signal.SIGKILL)
            except ProcessLookupError:
                pass
        for process in self.processes[number]:
            process.wait()
        self.processes[number] = []


def waits_for(holds, ended=lambda: False, seconds: float = PATIENCE) -> bool:
    """Whether something comes to hold within so many seconds, and before something else ended."""
    end = time.monotonic() + seconds
    while time.monotonic() < end and not ended():
        if holds():
            return True
        time.sleep(0.05)
    return bool(holds())


def starts(holds, what: str) -> None:
    """Waits for what was started; raises `TimeoutError` if it does not come."""
    if not waits_for(holds):
        raise TimeoutError(f"{what} did not start within {PATIENCE} s")
