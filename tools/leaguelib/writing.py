"""Files that are written whole or stay as they were: what is new is written aside, synced, and put
in place. Where another program keeps a file open, as `league live` does, it is added to where it
stands, and what was added is cut off again if there is no room for all of it.

Commands that write into one folder wait for each other; who reads a file first and then adds to it
does both inside `alone`.
"""

from __future__ import annotations

import errno
import fcntl
import itertools
import os
import signal
import stat
import tempfile
import time
from contextlib import contextmanager
from typing import Iterable, Iterator

from . import common

ASIDE = ".league-"
PATIENCE_SECONDS = 20.0
GLANCE_SECONDS = 0.01
AS_BEFORE = "What was there before is as it was"

_held: set[str] = set()


@contextmanager
def alone(path: str) -> Iterator[None]:
    """Keeps other commands from writing into the folder of a file; waits for one that does, and
    raises `Trouble` if it does not end. What a broken command left aside there is removed.
    """
    folder = _folder_of(path)
    if folder in _held:
        yield
        return
    lock = _locked(folder, path)
    _held.add(folder)
    try:
        if lock is not None:
            _drop_left(folder)
        yield
    finally:
        _held.discard(folder)
        if lock is not None:
            os.close(lock)


def replace(path: str, data: bytes | Iterable[bytes], rights: int | None = None) -> None:
    """Puts a file in place whole or not at all; one that was there before stays until then."""
    with alone(path), _told(path):
        if os.path.exists(path) and not os.path.isfile(path):
            _write_to_device(path, data)
        else:
            put_whole(os.path.realpath(path), _pieces(data), rights)


def append(path: str, data: bytes) -> None:
    """Adds to the end of a file, or leaves it as it was; a file that is not there is made."""
    with alone(path), _told(path):
        if not os.path.isfile(path):
            replace(path, data)
        elif _is_kept_open(path):
            _add(path, data)
        else:
            with open(path, "rb") as file:
                before = file.read()
            put_whole(os.path.realpath(path), [before, data])


def free_name(path: str) -> str:
    """The name, or with a number after it where it is taken."""
    names = (path + (str(number) if number > 1 else "") for number in itertools.count(1))
    return next(name for name in names if not os.path.exists(name))


def _folder_of(path: str) -> str:
    """The folder in which a file stands, of a link the one that it leads to."""
    return os.path.dirname(os.path.realpath(path))


def _pieces(data: bytes | Iterable[bytes]) -> Iterable[bytes]:
    return [data] if isinstance(data, bytes) else data


@contextmanager
def _told(path: str) -> Iterator[None]:
    """Raises `Trouble` with the name of the file where it cannot be written."""
    try:
        yield
    except (OSError, ValueError) as fault:
        reason = getattr(fault, "strerror", None) or str(fault)
        raise common.Trouble(f"{path}: cannot be written: {reason}. {AS_BEFORE}",
                             common.CANNOT_WRITE) from fault


def _locked(folder: str, path: str) -> int | None:
    """The lock of a folder; none where it cannot be locked, as on some network drives."""
    try:
        lock = os.open(folder, os.O_RDONLY)
    except OSError:
        return None
    until = time.monotonic() + PATIENCE_SECONDS
    while True:
        try:
            fcntl.flock(lock, fcntl.LOCK_EX | fcntl.LOCK_NB)
            return lock
        except BlockingIOError as fault:
            if time.monotonic() > until:
                os.close(lock)
                raise common.Trouble(
                    f"{path}: another `league` writes into {folder}, and did not end within "
                    f"{PATIENCE_SECONDS:.0f} seconds, so nothing was written. Run this again once "
                    "it has ended", common.CANNOT_WRITE) from fault
            time.sleep(GLANCE_SECONDS)
        except OSError:
            os.close(lock)
            return None


def _drop_left(folder: str) -> None:
    """Removes what a command that was killed had written aside."""
    try:
        for name in os.listdir(folder):
            if name.startswith(ASIDE):
                os.unlink(os.path.join(folder, name))
    except OSError:
        pass


def put_whole(target: str, pieces: Iterable[bytes], rights: int | None = None,
              is_synced: bool = True) -> None:
    """Writes a file aside, and puts it in place; raises `OSError` if it cannot. In a folder where
    others write as well, this stands inside `alone`.
    """
    if os.path.exists(target) and not os.access(target, os.W_OK):
        raise OSError(errno.EACCES, os.strerror(errno.EACCES))
    folder = os.path.dirname(target)
    handle, new = tempfile.mkstemp(prefix=ASIDE, dir=folder)
    try:
        with os.fdopen(handle, "wb") as file:
            file.writelines(pieces)
            file.flush()
            if is_synced:
                os.fsync(file.fileno())
        _take_rights(new, target, rights)
        os.replace(new, target)
    except BaseException:
        os.unlink(new)
        raise
    if is_synced:
        _sync(folder)


def _take_rights(new: str, target: str, rights: int | None) -> None:
    """Gives a new file the owner, group and rights of the one it replaces, or those of a new one.
    """
    if os.path.exists(target):
        facts = os.stat(target)
        try:
            os.chown(new, facts.st_uid, facts.st_gid)
        except OSError:
            pass  # the owner alone may give a file away
        rights = stat.S_IMODE(facts.st_mode) if rights is None else rights
    os.chmod(new, 0o666 & ~_mask() if rights is None else rights)


def _mask() -> int:
    """The rights that new files do not get."""
    mask = os.umask(0)
    os.umask(mask)
    return mask


def _sync(folder: str) -> None:
    """Has the disk keep the names of a folder, where the system can."""
    try:
        handle = os.open(folder, os.O_RDONLY)
    except OSError:
        return
    try:
        os.fsync(handle)
    except OSError:
        pass
    finally:
        os.close(handle)


def _write_to_device(path: str, data: bytes | Iterable[bytes]) -> None:
    """Writes to a device or a pipe, which is not replaced."""
    with open(path, "wb") as target:
        target.writelines(_pieces(data))


def _is_kept_open(path: str) -> bool:
    """Whether another program may have a file open to write, which loses what is put in its place;
    of a file of another user nobody can say.
    """
    file = os.open(path, os.O_RDONLY)
    try:
        # who opens the file right now has this signal sent, which nobody dies of
        fcntl.fcntl(file, fcntl.F_SETSIG, signal.SIGURG)
        fcntl.fcntl(file, fcntl.F_SETLEASE, fcntl.F_RDLCK)
        fcntl.fcntl(file, fcntl.F_SETLEASE, fcntl.F_UNLCK)
        return False
    except (OSError, AttributeError):
        return True
    finally:
        os.close(file)


def _add(path: str, data: bytes) -> None:
    """Adds to a file where it stands, and cuts it off again if not all of it could be added."""
    file = os.open(path, os.O_RDWR | os.O_APPEND)
    before, done = os.fstat(file).st_size, 0
    try:
        while done < len(data):
            done += os.write(file, data[done:])
        os.fsync(file)
    except BaseException:
        if data.startswith(os.pread(file, len(data) + 1, before)):
            os.ftruncate(file, before)
        raise
    finally:
        os.close(file)
