"""Digests of files. A file that this process has digested is read again only where it may have
changed since.

Whether it may have is told by what the system keeps of it: device, inode, size, and the times of
its last writing and of its last change. The last of these is set at every write, rename and change
of times, and no program can set it back. A change within the grain of that clock would not show, so
a digest is kept only of a file that had been left alone for `SETTLED` before it was read.

What this doesn't see is what no such time tells: a write through a mapping of the file that was
begun before the digest, bytes that a disk has lost, and what another machine writes within the
seconds for which a network file system keeps its old times. A new process reads every file.
"""
from __future__ import annotations

import hashlib
import os
import time
from pathlib import Path
from typing import NamedTuple

CHUNK_SIZE = 1 << 20  # bytes of a file that are read at a time
SETTLED = 2_000_000_000  # nanoseconds: the coarsest grain of a file system that is about (FAT)


class _Stamp(NamedTuple):
    """What the system keeps of a file, that differs once the file has changed; times in
    nanoseconds."""

    device: int
    inode: int
    size: int
    written: int
    changed: int


_known: dict[Path, tuple[_Stamp, str]] = {}


def stamp_of(path: Path) -> _Stamp:
    """The stamp of a file as it is now."""
    status = path.stat()
    return _Stamp(
        status.st_dev, status.st_ino, status.st_size, status.st_mtime_ns, status.st_ctime_ns
    )


def sha256(path: Path) -> str:
    """The SHA-256 of a file, in hexadecimal: all of it is read."""
    digest = hashlib.sha256()
    with open(path, "rb") as file:
        while data := file.read(CHUNK_SIZE):
            digest.update(data)
    return digest.hexdigest()


def sha256_unless_known(path: Path) -> str:
    """The SHA-256 of a file, in hexadecimal; not read again where this process has read it and its
    stamp is as it was."""
    name = Path(os.path.abspath(path))
    stamp, now = stamp_of(name), time.time_ns()
    known, digest = _known.get(name, (None, ""))
    if stamp == known:
        return digest
    digest = sha256(name)
    # so what changes it from now on, or did meanwhile, gives it another stamp
    if 0 < max(stamp.written, stamp.changed) < now - SETTLED:
        _known[name] = stamp, digest
    return digest
