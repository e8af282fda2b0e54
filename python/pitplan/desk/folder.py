"""The folder that the desk was started for: its studies and tables, and nothing outside of it."""
from __future__ import annotations

import errno
import fcntl
import hashlib
import os
import re
import shlex
import tomllib
import traceback
from collections.abc import Iterator
from contextlib import contextmanager, suppress
from pathlib import Path
from typing import Any

from ..base.error_text import errors_as_data
from ..base.errors import PlanError
from ..base.files import FULL

_NAME = re.compile(r"\w[\w .+-]{0,79}")  # no sign first, so that it is no option of a command
_LETTERS = "letters, digits, blanks and . + - _"
TABLES, DESIGNS = (".csv", ".csv.gz"), (".dxf", ".csv", ".txt")
_SHOWN = ("out", "designs", "log")  # of a study what may be saved, beside study.toml and bundles
HOME = Path("log", "desk")  # within a study, what is the desk's own
BUNDLE = "bundle-"
_NO_PLACE = (errno.ENOENT, errno.ENOTDIR, errno.EISDIR, errno.ELOOP, errno.ENAMETOOLONG)


class Refused(Exception):
    """What the desk doesn't do: the status of HTTP, and why, as an error of pitplan's."""

    def __init__(self, status: int, said: str, advice: str | None = None, **more: Any) -> None:
        super().__init__(said)
        self.status = status
        self.answer = {"errors": [PlanError(said, try_this=advice).as_data()], **more}


class Folder:
    """A folder `root`. Paths are followed to their end before they are used: a link that leads out is outside."""

    def __init__(self, root: Path) -> None:
        self.root = root.resolve()

    def within(self, path: Path) -> Path:
        """The path, followed to its end. Raises Refused where it lies outside."""
        found = path.resolve()
        if not found.is_relative_to(self.root):
            raise Refused(403, f"{path.name} lies outside the folder that the desk was started for")
        return found

    def study(self, name: str) -> Path:
        """The folder of a study that is there. Raises Refused where none is, or its name is none."""
        path = self.place(name)
        if not (path / "study.toml").is_file():
            raise Refused(404, f"there is no study called {name}")
        return path

    def new_study(self, name: str) -> Path:
        """The folder of a study that isn't there yet. Raises Refused where there is one, or its name is none."""
        path = self.place(name)
        if (path / "study.toml").exists():
            raise Refused(409, f"there is a study called {name} already", "another name")
        if path.exists() and not path.is_dir():
            raise Refused(409, f"{name} is a file, and a study is a folder", "another name")
        return path

    def place(self, name: str) -> Path:
        """Where a study of this name is. Raises Refused where that is no name, or leads elsewhere."""
        if not _NAME.fullmatch(name) or name.endswith((" ", ".")):
            raise Refused(404, f"{name!r} is no name of a study", _LETTERS)
        path = self.within(self.root / name)
        if path.parent != self.root:
            raise Refused(403, f"{name} is a link to another study")
        return path

    def file(self, name: str, endings: tuple[str, ...], folder: Path | None = None) -> Path:
        """A file that may be there or come, by its bare name. Raises Refused where it is no such name."""
        if not _NAME.fullmatch(name) or not name.lower().endswith(endings):
            said = f"{name!r} can't be taken: a file here ends in {', '.join(endings)}"
            raise Refused(415, said, f"a name of {_LETTERS}")
        return self.within((folder or self.root) / name)

    def studies(self) -> list[str]:
        """The names of all studies that may be opened by their own name."""
        found = []
        for path in sorted(self.root.glob("*/study.toml")):
            with suppress(Refused):
                if self.study(path.parent.name) == path.parent:
                    found.append(path.parent.name)
        return found

    def tables(self) -> list[dict[str, Any]]:
        """The tables of the folder."""
        files = [path for path in sorted(self.root.iterdir()) if _NAME.fullmatch(path.name)]
        tables = [path for path in files if path.name.lower().endswith(TABLES) and path.is_file()]
        return [
            {**_facts_of(path, path.name), "typed": shlex.join(["pitplan", "init", path.name])}
            for path in tables
        ]

    def table_of(self, study: Path) -> Path | None:
        """The study's table; None where study.toml doesn't say it. Raises Refused where it lies outside."""
        with suppress(ValueError, KeyError, TypeError, RuntimeError):
            said = tomllib.loads((study / "study.toml").read_text("utf-8-sig"))["model"]["table"]
            return self.within(study / Path(said).expanduser())
        return None

    def shown(self, study: Path, path: str) -> Path:
        """A file of a study that may be looked at or saved. Raises Refused where it is none of those."""
        found, parts = self.within(study / path), Path(path).parts
        top = parts[0] if parts else ""
        is_shown = top in _SHOWN or top.startswith(BUNDLE)
        if not found.is_relative_to(study) or not is_shown or not found.is_file():
            raise Refused(404, f"there is no {path}")
        return found

    def results(self, study: Path) -> list[dict[str, Any]]:
        """What there is to take away: tables, pictures, files for CAD, designs, bundles."""
        try:
            inside = [it for top in ("out", "designs") for it in sorted((study / top).rglob("*"))]
            names = [path.relative_to(study).as_posix() for path in inside if path.is_file()]
            found = [_facts_of(study / it, it) for it in names if not re.search(r"(^|/)\.", it)]
        except FileNotFoundError:  # a run has moved it meanwhile
            return self.results(study)
        bundles = [path for path in sorted(study.glob(f"{BUNDLE}*")) if path.is_dir()]
        return found + [{**_facts_of(it, f"{it.name}.zip"), "bytes": None} for it in bundles]


def _facts_of(path: Path, name: str) -> dict[str, Any]:
    """A file's name, size and time."""
    found = path.stat()
    return {"path": name, "bytes": found.st_size, "when": found.st_mtime}


def stamp(path: Path) -> tuple[str, int, int]:
    """What changes when a file does."""
    there = path.stat()
    return str(path), there.st_size, there.st_mtime_ns


def etag(text: bytes) -> str:
    """What names a text."""
    return hashlib.sha256(text).hexdigest()[:16]


@contextmanager
def writing(study: Path) -> Iterator[None]:
    """One at a time, over all desks, changes study.toml."""
    try:
        (study / HOME).mkdir(parents=True, exist_ok=True)
        with open(study / HOME / "edit.lock", "w") as lock:
            fcntl.flock(lock, fcntl.LOCK_EX)
            yield
    except OSError as error:
        error.filename = str(study / "study.toml")  # that, and not the lock, is what isn't written
        raise


def refusal(error: OSError, what: str = "") -> Refused:
    """A full disk, or a folder where nothing may be written, in words; `what` isn't done."""
    where = Path(str(error.filename or "")).name[:80]
    if error.errno in FULL:
        undone = what or f"{where} wasn't written"
        said = f"{undone}: {error.strerror}; what was there before is kept"
        return Refused(507, said, "make room on the disk, and do it again")
    said = f"{where}: {error.strerror}" if where else str(error.strerror)
    if error.errno in (errno.EACCES, errno.EPERM, errno.EROFS):
        user = os.environ.get("USER", "the desk")
        return Refused(403, said, f"a folder that {user} may write in")
    return Refused(404 if error.errno in _NO_PLACE else 503, said)  # as where memory is short


def refused(error: Exception) -> Refused:
    """Any error as an answer. Where one that nobody has foreseen came from stands in the desk's own terminal."""
    match error:
        case Refused():
            return error
        case PlanError():
            return Refused(422, error.said, errors=errors_as_data(error))
        case OSError():
            return refusal(error)
        case RecursionError():
            return Refused(400, "study.toml, or what was sent, is nested too deep")
        case MemoryError():
            return Refused(503, "memory was refused", "a machine with more memory")
    traceback.print_exception(error)
    is_of_asking = isinstance(error, (ValueError, LookupError, TypeError))
    said = f"the desk can't do that: {type(error).__name__}: {error}"
    return Refused(400 if is_of_asking else 500, said)
