"""Commands over one study take turns: two at once could leave tables of different models beside
each other.

A command that writes holds ``log/lock`` of the study by `flock`, which the kernel frees when the
process ends, however it ends. Tasks of a cluster don't: each writes what no other one writes, and
renames it into its place. Who starts several commands one after the other, as `pitplan desk` does,
may hold the lock for all of them: `PASSED` in the environment then names the open file, which they
inherit.
"""
from __future__ import annotations

import errno
import fcntl
import getpass
import itertools
import json
import os
import time
from collections.abc import Callable, Iterator, Sequence
from contextlib import contextmanager, suppress
from dataclasses import asdict, dataclass
from pathlib import Path
from typing import IO

from ..base.errors import MachineError

_LOCK = Path("log", "lock")  # within a study
PASSED = "PITPLAN_TURN"  # in the environment: the number of an open lock that whoever started this process holds
_EVERY = 0.2  # seconds between two looks whether it is free
# of file systems that know no such locks
_NONE_HERE = (
    errno.ENOLCK,
    errno.EOPNOTSUPP,
    errno.ENOSYS,
    errno.EINVAL,
    errno.EBADF,
)


@dataclass(frozen=True)
class _Holder:
    """Who holds a study: the command, the process, its machine and user, and since when (seconds
    since 1970)."""

    command: str
    pid: int
    host: str
    user: str
    since: float

    def __str__(self) -> str:
        return (
            f"{self.command} (process {self.pid} on {self.host}, of {self.user}, since"
            f" {time.strftime('%H:%M:%S', time.localtime(self.since))})"
        )


class Held(MachineError):
    """Another command has the study."""


_Waiting = Callable[[str], None]


@contextmanager
def turn(
    folder: Path, words: Sequence[str], waits: bool = True, waiting: _Waiting | None = None
) -> Iterator[None]:
    """Has a study to itself for as long as what is within runs.

    Parameters
    ----------
    folder : Path
        Of the study. Where it isn't there, or nothing may be written in it, nothing is held:
        whatever writes there fails by itself.
    words : sequence of str
        The command, for those that wait.
    waits : bool
        Whether it waits for its turn where another command has the study.
    waiting : function, optional
        Is told once who has the study, before it waits.

    Raises
    ------
    Held
        Where another command has the study, and it doesn't wait.
    """
    file = open_lock(folder)
    if file is None:
        yield
        return
    with file:
        if _is_passed(file):
            yield
            return
        taken(file, folder, waits, waiting)
        with suppress(OSError):
            write_holder(file, words)
        yield


def open_lock(folder: Path) -> IO[str] | None:
    """The lock's file; None where there can't be one."""
    if not folder.is_dir():
        return None
    try:
        (folder / _LOCK).parent.mkdir(exist_ok=True)
        return open(folder / _LOCK, "a+", encoding="utf-8")
    except OSError:
        return None


def _is_passed(file: IO[str]) -> bool:
    """Whether this process has inherited the lock of this file, from one that holds it."""
    try:
        mine = int(os.environ.get(PASSED, ""))
        if not os.path.samestat(os.fstat(mine), os.fstat(file.fileno())):
            return False
        # the same open file: already held, or free
        fcntl.flock(mine, fcntl.LOCK_EX | fcntl.LOCK_NB)
        return True
    except (ValueError, OSError):
        return False


def taken(file: IO[str], folder: Path, waits: bool, waiting: _Waiting | None) -> None:
    """Takes the lock, or waits for it. Raises Held where another command has it and this one may
    not wait."""
    for tries in itertools.count():
        try:
            fcntl.flock(file, fcntl.LOCK_EX | fcntl.LOCK_NB)
            return
        except OSError as error:
            if error.errno in _NONE_HERE:
                return
            if error.errno not in (errno.EWOULDBLOCK, errno.EACCES):
                raise
        if tries == 1:  # the first time it may be one that looks whether it is held
            said = f"{_holder(folder) or 'another command'} has the study {folder}"
            if not waits:
                raise Held(
                    said,
                    try_this="the same when it is done; without --no-wait it waits for its turn",
                )
            if waiting:
                waiting(said)
        time.sleep(_EVERY)


def write_holder(file: IO[str], words: Sequence[str]) -> None:
    """Writes who holds it, for others."""
    file.seek(0)
    file.truncate()
    file.write(
        json.dumps(
            asdict(_Holder(" ".join(words), os.getpid(), os.uname().nodename, user(), time.time()))
        )
    )
    file.flush()


def user() -> str:
    """Who runs this process; by number where the machine has no name for it."""
    try:
        return getpass.getuser()
    except (KeyError, OSError):
        return str(os.getuid())


def _holder(folder: Path) -> _Holder | None:
    """Who wrote the lock last; None where that can't be read. Whether it still holds it `is_held`
    says."""
    try:
        found = json.loads((folder / _LOCK).read_text("utf-8"))
        return _Holder(
            str(found["command"]),
            int(found["pid"]),
            str(found["host"]),
            str(found["user"]),
            float(found["since"]),
        )
    except (OSError, ValueError, KeyError, TypeError):
        return None


def is_held(folder: Path) -> _Holder | None:
    """Who has the study now; None where nobody has, or that can't be told."""
    try:
        file = open(folder / _LOCK, encoding="utf-8")
    except OSError:
        return None
    with file:
        try:
            fcntl.flock(file, fcntl.LOCK_SH | fcntl.LOCK_NB)
        except OSError as error:
            return _holder(folder) if error.errno in (errno.EWOULDBLOCK, errno.EACCES) else None
    return None
