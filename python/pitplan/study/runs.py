"""Pits are found: run by `pit`, added up again from the planner's table, and put in their place
whole."""
from __future__ import annotations

import hashlib
import json
import tempfile
import time
from collections.abc import Callable, Sequence
from pathlib import Path

import numpy as np

from ..base.errors import Disagreement
from ..base.files import host, made_whole, mark
from ..base.units_shown import share_text
from ..pit.program import Accepted, Stated
from .verdicts import Verdict, Verdicts

# a factor, what is done for it, and how far that is, from 0 to 1
FactorProgress = Callable[[int, str, float], None]


class Runs(Verdicts):
    """The runs of a study.

    Attributes
    ----------
    keeps_certificates : bool
        Whether the certificate of each pit is kept, packed, beside it; otherwise only its digest
        is.
    preparation_seconds : float
        What it took to write files for `pit` that aren't kept; the next pit's time includes it.
    """

    keeps_certificates = True
    preparation_seconds = 0.0

    def room(self, work: Path) -> Path:
        """The folder in which a certificate is written while it is checked: beside the result,
        unless a class says otherwise."""
        return work

    def run(
        self,
        factor: int,
        progress: FactorProgress | None = None,
        before_keeping: Callable[[], None] | None = None,
    ) -> Verdict:
        """One pit with its certificate: found, checked, added up again, and put in its place whole.
        Where it is there already, nothing is done; where the pit is there without a certificate, it
        has to be the same.

        Parameters
        ----------
        factor : int
            Of the revenue, in thousandths.
        progress : function, optional
            Is told the factor, what is done for it, and how far that is.
        before_keeping : function, optional
            Called before anything is kept: as that of `verifying`, which raises where files changed meanwhile.

        Raises
        ------
        NotAccepted
            Where `pit check` doesn't accept.
        Disagreement
            Where the planner's own table doesn't add up to what `pit` says, or `pit shells` stated
            another pit. Nothing is kept then.
        """
        done = self.certified(factor)
        if done:
            return done
        start, place = time.monotonic() - self.preparation_seconds, self.place(factor)
        self.preparation_seconds = 0.0
        stated = self.mask(factor) if self.verdict(factor) else None
        with made_whole(place) as work:
            found = self.program.best(
                self.files,
                factor,
                self.room(work) / "best.cert",
                _solving(progress, factor),
                self.keeps_certificates,
            )
            self.agree(found, factor)
            if stated is not None and (stated != found.mask).any():
                raise Disagreement(
                    (
                        f"at factor {share_text(factor)} pit shells stated another pit than pit"
                        " solve found, and the best pit is one"
                    ),
                    try_this="keep the folder, and tell the maintainers",
                )
            if before_keeping:
                before_keeping()
            return self.kept(work, found, time.monotonic() - start)

    def kept(self, work: Path, verdict: Accepted | Stated, seconds: float) -> Verdict:
        """Writes a pit that has been added up, and its verdict, into a folder that is then renamed
        to its place."""
        bits = np.packbits(verdict.mask)
        np.savez_compressed(work / "pit.npz", bits=bits)
        done = Verdict(
            factor=verdict.factor,
            count=verdict.count,
            worth=verdict.worth,
            certificate=verdict.certificate,
            bits=hashlib.sha256(bits.tobytes()).hexdigest(),
            model=self.key,
            pit=self.version,
            seconds=round(seconds, 2),
            host=host(),
        )
        (work / "verdict.json").write_text(json.dumps(done, indent=1))
        self.added_up.add((verdict.factor, done["bits"], verdict.count, verdict.worth))
        return done

    def run_series(
        self,
        factors: Sequence[int],
        workers: int = 1,
        progress: FactorProgress | None = None,
        before_keeping: Callable[[], None] | None = None,
    ) -> None:
        """The pits at some factors without certificates, from one run of `pit shells`: each added
        up again, and put in its place.

        Parameters
        ----------
        factors : sequence of int
            In thousandths, ascending, at most `program.MOST_FACTORS`.
        workers, progress, before_keeping
            As of `run`; `workers` is how many factors `pit` solves at a time.

        Raises
        ------
        NotAccepted, Disagreement
            As `run`.
        """
        start, pits = time.monotonic(), self.folder / "runs" / "base"
        pits.mkdir(parents=True, exist_ok=True)
        with tempfile.TemporaryDirectory(
            prefix=f".f{factors[0]:05d}-{factors[-1]:05d}.{mark()}", dir=pits
        ) as work:
            found = self.program.series(
                self.files, factors, Path(work), workers, _proving(progress)
            )
        for pit in found:
            self.agree(pit, pit.factor)
        if before_keeping:
            before_keeping()
        for pit in found:
            with made_whole(self.place(pit.factor)) as work_of_pit:
                self.kept(work_of_pit, pit, (time.monotonic() - start) / len(found))
            if progress:
                progress(pit.factor, "done", 1.0)


def _solving(progress: FactorProgress | None, factor: int) -> Callable[[int, int], None] | None:
    """How far `pit solve` is, in the words of `FactorProgress`."""
    if progress is None:
        return None
    listener = progress
    listener(factor, "solving", 0.0)
    return lambda settled, of: listener(factor, "solving", settled / of if of else 0.0)


def _proving(progress: FactorProgress | None) -> Callable[[int], None] | None:
    """Which pits `pit shells` has proved, in the words of `FactorProgress`."""
    if progress is None:
        return None
    listener = progress
    return lambda factor: listener(factor, "proved", 1.0)
