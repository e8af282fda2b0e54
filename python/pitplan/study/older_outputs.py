"""Tables and pictures in a study's `out` that are of another model than the one that stands there.

What a command writes there is noted, with the model that it is of, in `out/.written.json`. When a
build makes another model, what was noted is moved to `out/older`, and what isn't noted stays. What
shows a schedule is noted with that one too, and moved once another schedule is found.

What isn't as it was written, since a planner has changed it, is never lost: it is moved to
`out/older/changed`, in place of nothing, where it is older and before a command writes over it. A
file whose bytes are those that were noted isn't changed, whatever its time, as after a plain copy
of a study.
"""
from __future__ import annotations

import filecmp
import hashlib
import itertools
import json
import os
from collections.abc import Callable
from pathlib import Path
from typing import TYPE_CHECKING, NamedTuple

from ..base.digests import sha256
from ..base.files import before_replacing, whole_file

if TYPE_CHECKING:
    from ..model.grid import Grid
    from ..slopes.slopes import Slopes

_NOTES, OLDER = ".written.json", "older"
CHANGED = "what isn't as pitplan wrote it"
_Stamp = tuple[int, int]  # of a file: its bytes, and when it was written, in nanoseconds
_shown: list[str] = []  # the digest of the schedule that is shown


def key_of_walls(slopes: Slopes, grid: Grid) -> str:
    """What names the walls that are asked for and the blocks that they are built of."""
    return hashlib.sha256(repr((slopes, grid.size, grid.rotation)).encode()).hexdigest()


def _stamps(folder: Path) -> dict[str, _Stamp]:
    """The files of a folder, by their names in it, but for hidden ones and those that are known to
    be older."""
    found = {}
    for path in folder.rglob("*"):
        parts = path.relative_to(folder).parts
        if parts[0] != OLDER and not any(part.startswith(".") for part in parts) and path.is_file():
            found["/".join(parts)] = _stamp(path)
    return found


def _stamp(path: Path) -> _Stamp:
    status = path.stat()
    return status.st_size, status.st_mtime_ns


class _Watched(NamedTuple):
    """What is written in a folder from now on: of which model, what stood there before, whom to tell
    what is put aside, and the names of what was written so far."""

    model: str
    before: dict[str, _Stamp]
    tell: Callable[[str], None]
    written: set[str]


_watched: dict[Path, _Watched] = {}


def watch(folder: Path, model: str, tell: Callable[[str], None]) -> None:
    """From now on until `note` what is written in a folder is of this model. What it is written over
    and isn't as it was written is put aside, and told."""
    _watched.setdefault(folder, _Watched(model, _stamps(folder), tell, set()))
    if _keep_changed not in before_replacing:
        before_replacing.append(_keep_changed)


def _keep_changed(new: Path, place: Path) -> None:
    """Puts a file aside that is about to be written over, unless this process or an earlier command
    has written it so, or the new one has the same."""
    for folder, watched in _watched.items():
        if not place.is_relative_to(folder) or place.name.startswith("."):
            continue
        name = place.relative_to(folder).as_posix()
        is_first = name not in watched.written
        watched.written.add(name)
        if not is_first or not place.is_file():
            continue
        noted = _noted(folder).get(name)
        is_own = noted is not None and noted.is_of(place)
        if not is_own and not filecmp.cmp(new, place, shallow=False):
            watched.tell(f"{folder / OLDER} has {CHANGED}: {_put_changed(folder, name)}")


def _put_changed(folder: Path, name: str) -> str:
    """Moves a file that somebody has changed to `older`, in place of nothing, and says where it is
    there."""
    tops = itertools.chain(["changed"], (f"changed-{n}" for n in itertools.count(2)))
    place = next(f"{top}/{name}" for top in tops if not (folder / OLDER / top / name).exists())
    _move(folder, name, folder / OLDER / place)
    return place


def _move(folder: Path, name: str, target: Path) -> None:
    """Moves a file, and takes away a folder within `folder` that it leaves empty."""
    target.parent.mkdir(parents=True, exist_ok=True)
    os.replace(folder / name, target)
    if (folder / name).parent != folder and not any((folder / name).parent.iterdir()):
        (folder / name).parent.rmdir()


class _Note(NamedTuple):
    """What is noted of a file: its model, its stamp, the schedule that it shows, empty where it
    shows none, and its digest, which notes of an older version have not."""

    model: str
    size: int
    when: int
    schedule: str = ""
    digest: str = ""

    def is_of(self, path: Path) -> bool:
        """Whether a file is as it was noted: by its time, or else by what it has."""
        size, when = _stamp(path)
        return size == self.size and (when == self.when or sha256(path) == self.digest)


def watch_schedule(digest: str) -> None:
    """From now on until `note` what is written shows the schedule with this digest."""
    _shown[:] = [digest]


def note() -> None:
    """Notes what was written since `watch`. Where that fails, as on a full disk, files stay where
    they are later on."""
    shown = _shown[0] if _shown else ""
    for folder, (model, before, *_) in _watched.items():
        try:
            new = {
                name: stamp for name, stamp in _stamps(folder).items() if before.get(name) != stamp
            }
            if new:
                _keep(
                    folder,
                    _noted(folder)
                    | {
                        name: _Note(model, *stamp, shown, sha256(folder / name))
                        for name, stamp in new.items()
                    },
                )
        except OSError:
            pass
    _watched.clear()
    _shown.clear()


def _noted(folder: Path) -> dict[str, _Note]:
    """What is noted of each file; nothing where the notes can't be read."""
    try:
        return {
            str(name): _Note(str(model), int(size), int(when), *map(str, more))
            for name, (model, size, when, *more) in json.loads(
                (folder / _NOTES).read_text()
            ).items()
        }
    except (OSError, ValueError, TypeError, AttributeError):
        return {}


def _keep(folder: Path, notes: dict[str, _Note]) -> None:
    """Writes the notes of the files that are there."""
    with whole_file(folder / _NOTES) as part:
        part.write_text(
            json.dumps(
                {name: entry for name, entry in sorted(notes.items()) if (folder / name).is_file()}
            )
        )


def set_aside(folder: Path, models: set[str]) -> tuple[list[str], list[str]]:
    """Moves what was written of other models than these to `older`, in place of what lies there
    under its name.

    Parameters
    ----------
    folder : Path
        The study's `out`; it needn't be there.
    models : set of str
        What `watch` was told by those whose files are still good.

    Returns
    -------
    list of str, list of str
        The files that were moved; and those that weren't as they were written, by where they are
        in `older` now.
    """
    return _moved(folder, lambda noted: noted.model not in models)


def set_schedules_aside(folder: Path, digest: str) -> tuple[list[str], list[str]]:
    """Moves what shows another schedule than the one with this digest, as `set_aside` does."""
    return _moved(folder, lambda noted: noted.schedule not in ("", digest))


def _moved(folder: Path, is_stale: Callable[[_Note], bool]) -> tuple[list[str], list[str]]:
    """Moves the files of which that is so, as `set_aside` gives them."""
    notes, there = _noted(folder), _stamps(folder)
    stale = [name for name, noted in notes.items() if is_stale(noted) and name in there]
    moved = [name for name in stale if notes[name].is_of(folder / name)]
    for name in moved:
        _move(folder, name, folder / OLDER / name)
    changed = [_put_changed(folder, name) for name in stale if name not in moved]
    if stale:
        _keep(folder, notes)
    return moved, changed
