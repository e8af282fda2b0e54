"""What is kept of a schedule in ``runs/schedule`` of a study, so that the same command goes on: the
best bound with its multipliers and certificate, the partition, and the best schedule.

It counts where it names the production that is asked for; what is of another one, as of older
prices or rates, is never read.
"""
from __future__ import annotations

import gzip
import hashlib
import json
import shutil
from collections.abc import Callable
from dataclasses import asdict, dataclass
from pathlib import Path
from typing import Any

import numpy as np

from ..base import kept_json
from ..base.arrays import Array
from ..base.files import made_whole, sweep, whole_file
from ..model import store
from .search_ends import KINDS, End
from .production import Production
from .destinations import Timetable

_BOUND: dict[str, kept_json.Holds] = {
    "production": kept_json.is_digest,
    "said": kept_json.is_amount,
    "multipliers": kept_json.is_list(kept_json.is_list(kept_json.is_count)),
    "certificate": kept_json.is_digest,
    "closures": kept_json.is_count,
    "pit": kept_json.is_list(kept_json.is_word),
}
_SCRATCH = (".bound.*", ".closures.*", ".judged.*")  # folders that a killed search leaves
_PIECE = 1 << 20  # bytes of a certificate that are read at a time
# what NumPy, zip and gzip say of files that are cut off or have other bytes
_UNREADABLE = (OSError, *store.DAMAGED)


@dataclass(frozen=True)
class Bound:
    """A bound that `pit bound` accepted.

    Attributes
    ----------
    production : str
        The digest of the production that it is of.
    said : str
        What `pit bound` says.
    multipliers : list of lists of int
        As `Relaxed` has them: without them what was said is no bound.
    certificate : str
        The sha256 of the certificate.
    closures : int
        How many such pits were found before.
    pit : list of str
        What the program said of itself.
    """

    production: str
    said: str
    multipliers: list[list[int]]
    certificate: str
    closures: int
    pit: list[str]


def _refuse_other(packed: Path, digest: str, again: str) -> None:
    """Refuses a packed certificate that isn't the one with this digest. Raises Damaged."""
    found = hashlib.sha256()
    try:
        with gzip.open(packed) as file:
            while piece := file.read(_PIECE):
                found.update(piece)
    except FileNotFoundError:
        raise kept_json.Damaged(f"{packed} is gone", try_this=again) from None
    except _UNREADABLE as error:
        raise kept_json.Damaged(f"{packed} is damaged: {error}", try_this=again) from None
    if found.hexdigest() != digest:
        raise kept_json.Damaged(
            f"{packed} is damaged: it isn't the certificate that was kept", try_this=again
        )


def is_lost(folder: Path) -> bool:
    """Whether a bound is kept in a folder without the schedule, which comes before it."""
    return (folder / "bound").is_dir() and not (folder / "schedule.npz").exists()


def lost(folder: Path) -> kept_json.Damaged:
    """The error of a schedule that is gone from where it was kept."""
    again = f"rm -r {folder / 'bound'}: the next search begins anew"
    return kept_json.Damaged(f"{folder / 'schedule.npz'} is gone", try_this=again)


class Kept:
    """The folder of what is kept.

    Parameters
    ----------
    folder : Path
        Of the study.
    production : Production
        What is read has to be of it.
    """

    def __init__(self, folder: Path, production: Production) -> None:
        self.folder = folder / "runs" / "schedule"
        self.production = production
        self.folder.mkdir(parents=True, exist_ok=True)
        for names in _SCRATCH:
            sweep(self.folder, names)

    @property
    def certificate(self) -> Path:
        """The certificate of the best bound."""
        return self.folder / "bound" / "bound.cert.gz"

    def bound(self) -> Bound | None:
        """The best bound, where there is one of this production. Raises Damaged where its file or
        its certificate is."""
        place = self.folder / "bound"
        again = f"rm -r {place}: the next search finds a bound anew"
        try:
            found = kept_json.read(place / "bound.json", _BOUND, again)
        except (FileNotFoundError, NotADirectoryError):
            if place.is_dir():  # it is put there whole
                raise kept_json.Damaged(f"{place}/bound.json is gone", try_this=again) from None
            return None
        shape = self.production.capacities.shape
        bound = Bound(**{name: found[name] for name in _BOUND})
        is_whole = len(bound.multipliers) == shape[0] and all(
            len(row) == shape[1] for row in bound.multipliers
        )
        if bound.production != self.production.key or not is_whole:
            return None
        _refuse_other(self.certificate, bound.certificate, again)
        return bound

    def keep_bound(self, bound: Bound, certificate: Path) -> None:
        """Keeps a bound and its certificate, in place of the one before."""
        with made_whole(self.folder / "bound") as work:
            (work / "bound.json").write_text(json.dumps(asdict(bound), indent=1))
            shutil.copyfile(certificate, work / self.certificate.name)

    def end(self) -> End | None:
        """Why the last search ended, where it was of this production."""
        kinds = {"production": kept_json.is_digest, **KINDS}
        try:
            path = self.folder / "end.json"
            found = kept_json.read(path, kinds, f"rm {path}")
        except (FileNotFoundError, NotADirectoryError):
            return None
        is_own = found["production"] == self.production.key
        return End(**{name: found[name] for name in KINDS}) if is_own else None

    def keep_end(self, end: End) -> None:
        """Keeps why a search ended, in place of what ended the one before."""
        with whole_file(self.folder / "end.json") as part:
            part.write_text(json.dumps({"production": self.production.key} | asdict(end)))

    def arrays(self, name: str, tell: Callable[[str], None] | None = None) -> dict[str, Array]:
        """The arrays that were kept under a name, none where they aren't of this production, or can't
        be read: those beside the schedule are made anew, and nothing is lost. What can't be read is
        told in a line."""
        try:
            return self.whole_arrays(name)
        except kept_json.Damaged as error:
            if tell:
                tell(f"{error.what}; the search goes on without it, and makes it anew")
            return {}

    def whole_arrays(self, name: str) -> dict[str, Array]:
        """As `arrays`. Raises Damaged where they are there and can't be read."""
        path = self.folder / f"{name}.npz"
        try:
            with np.load(path, allow_pickle=False) as file:
                found: dict[str, Any] = {key: file[key] for key in file.files}
        except (FileNotFoundError, NotADirectoryError):
            return {}
        except _UNREADABLE as error:
            again = f"rm -r {self.folder / 'bound'} {path}: the next search begins anew"
            raise kept_json.Damaged(f"{path} is damaged: {error}", try_this=again) from None
        if str(found.pop("production", "")) != self.production.key:
            return {}
        return found

    def keep_arrays(self, name: str, **arrays: Array) -> None:
        """Keeps arrays under a name, in place of those before."""
        with whole_file(self.folder / f"{name}.npz") as part:
            np.savez_compressed(part, production=np.array(self.production.key), **arrays)

    def schedule(self) -> Timetable | None:
        """The best schedule, where there is one of this production that is feasible. Raises Damaged
        where its file is, or isn't there beside a bound, which comes after a schedule."""
        found = self.whole_arrays("schedule")
        if is_lost(self.folder) and self.bound():
            raise lost(self.folder)
        period, sent = found.get("period"), found.get("sent")
        units, millable = self.production.units, len(self.production.millable.block)
        if period is None or period.shape != (units,) or period.dtype.kind not in "iu":
            return None
        if sent is None or sent.shape != (millable,) or sent.dtype != bool:
            return None
        if period.min(initial=0) < 0 or period.max(initial=0) > self.production.periods:
            return None
        plan = Timetable(period.astype(np.int64), sent.astype(bool))
        return None if self.production.wrong(plan) else plan

    def keep_schedule(self, plan: Timetable) -> None:
        """Keeps a schedule, in place of the one before."""
        self.keep_arrays("schedule", period=plan.period.astype(np.int16), sent=plan.sent)
