"""Files and folders that are there whole or not at all."""
from __future__ import annotations

import errno
import itertools
import json
import os
import secrets
import shutil
import tempfile
from collections.abc import Callable, Iterator
from contextlib import contextmanager, suppress
from pathlib import Path
from typing import Any

from .errors import MachineError
from .within import refuse_outside

ROOM = "make room on the disk, and start the same command again: what is done is kept"
FULL = (errno.ENOSPC, errno.EDQUOT)  # a disk has no room, or its user's share of it
# of a file that is about to be put in place of another: the new one, and its place
before_replacing: list[Callable[[Path, Path], None]] = []
_RENAME_ATTEMPTS = 10  # where other processes put theirs in the same place


@contextmanager
def whole_file(target: str | os.PathLike[str]) -> Iterator[Path]:
    """A file to write, which is renamed to `target` at the end; whatever goes wrong before,
    `target` stays as it was.

    It lies in a folder of its own beside the target and has the target's name, since some libraries
    go by the name's ending and some write more files beside it.

    Raises
    ------
    PlanError
        Where it lies outside of the folder of `--within`.
    OSError
        Where it can't be written or renamed; it names the file also where the system doesn't, as on
        a full disk.
    """
    path = Path(target)
    refuse_outside(path.parent, "written")
    path.parent.mkdir(parents=True, exist_ok=True)
    place = f".{path.name}."
    try:
        with tempfile.TemporaryDirectory(prefix=place, dir=path.parent) as work:
            part = Path(work) / path.name
            yield part
            for look in before_replacing:
                look(part, path)
            os.replace(part, path)
    except OSError as error:
        if error.filename is None or str(error.filename).startswith(str(path.with_name(place))):
            error.filename = str(path)
        raise


def write_json(path: Path, content: Any) -> None:
    """Writes a JSON file, there whole or not at all. Raises OSError where that can't be done."""
    with whole_file(path) as part:
        part.write_text(json.dumps(content, indent=1, ensure_ascii=False) + "\n", "utf-8")


def write_bytes(path: Path, content: bytes) -> None:
    """Writes a file of bytes likewise."""
    with whole_file(path) as part:
        part.write_bytes(content)


def put_aside(path: Path) -> Path:
    """Keeps what a file has beside it, under a name that nothing has yet, as study.toml.before or
    study.toml.before-2, and gives the copy's path; one that has the same already is enough.

    Raises
    ------
    OSError
        Where the file can't be read, or nothing can be written beside it.
    """
    text = path.read_bytes()
    place = path.with_name(f"{path.name}.before")
    for n in itertools.count(2):
        if not place.exists():
            with whole_file(place) as part:
                part.write_bytes(text)
        if place.read_bytes() == text:
            break
        place = path.with_name(f"{path.name}.before-{n}")
    return place


@contextmanager
def made_whole(place: Path, is_study: bool = True) -> Iterator[Path]:
    """A folder to write in, that is renamed to `place` at the end; whatever goes wrong before,
    `place` stays as it was. Raises MachineError where the disk refuses.

    Its name says the host and the process, for `sweep`. Within a study (`is_study`) it has its
    parent's mode, so that who works in the one works in the other, but others never write there;
    elsewhere it is as the umask says.
    """
    refuse_outside(place.parent, "written")
    place.parent.mkdir(parents=True, exist_ok=True)
    work = place.with_name(f".{place.name}.{mark()}{secrets.token_hex(4)}")
    work.mkdir()
    if is_study:
        work.chmod(place.parent.stat().st_mode & 0o775)
    try:
        yield work
        put(work, place)
    except OSError as error:
        shutil.rmtree(work, ignore_errors=True)
        hint = ROOM if error.errno in FULL else None
        raise MachineError(f"{error.filename or place}: {error.strerror}", try_this=hint) from error
    except BaseException:
        shutil.rmtree(work, ignore_errors=True)
        raise


def put(work: Path, place: Path) -> None:
    """Renames a folder to `place`, in place of what is there. Where another process puts its own
    there at the same moment, one of them wins. Where this process is killed between its two
    renames, `sweep` puts back what was there.
    """
    older = work.with_name(work.name + ".old")
    for left in reversed(range(_RENAME_ATTEMPTS)):
        try:
            with suppress(FileNotFoundError):
                os.rename(place, older)
            os.rename(work, place)
            break
        except BaseException as error:
            if older.exists() and not place.exists() and work.exists():
                os.rename(older, place)
            if (
                not left
                or not isinstance(error, OSError)
                or error.errno not in (errno.ENOTEMPTY, errno.EEXIST)
            ):
                raise
        finally:
            shutil.rmtree(older, ignore_errors=True)


def host() -> str:
    """This machine's name, without points, since those part the name of a folder."""
    return os.uname().nodename.replace(".", "_")


def mark() -> str:
    """What names a folder of this process, for `sweep`."""
    return f"{host()}.{os.getpid()}."


def sweep(folder: Path, names: str = ".f*") -> None:
    """Takes away what processes of this machine that are no more have left half done. What one of
    them had moved aside, and put nothing in its place, comes back."""
    for half in folder.glob(names):
        parts = half.name.removesuffix(".old").rsplit(".", 3)
        if len(parts) == 4 and parts[1] == host() and not os.path.exists(f"/proc/{parts[2]}"):
            place = folder / parts[0].removeprefix(".")
            if half.name.endswith(".old") and not place.exists():
                with suppress(OSError):  # another process does so at the same moment
                    os.rename(half, place)
            shutil.rmtree(half, ignore_errors=True)
