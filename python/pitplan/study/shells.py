"""The pits of a series of factors, one within the next, and what is asked of them."""
from __future__ import annotations

from collections.abc import Iterable, Mapping
from functools import cached_property
from typing import TYPE_CHECKING

import numpy as np
import pandas as pd

from ..base.amounts import LARGEST_FACTOR, THOUSAND
from ..base.arrays import Array, Bools, Shorts
from ..base.errors import Disagreement, PlanError
from ..base.units_shown import share_text
from . import edges, pit_by_pit

if TYPE_CHECKING:
    from ..base.amounts import Priced
    from ..model.outlines import Benches
    from .runs import FactorProgress
    from .study import Study
    from .verdicts import Verdict


def thousandths(share: float) -> int:
    """A share of the price as `pit` takes it: whole thousandths, from 0 to 10,000.

    Raises
    ------
    PlanError
        Where it is none.

    >>> thousandths(0.85)
    850
    """
    if (
        isinstance(share, bool)
        or not isinstance(share, (int, float, np.floating, np.integer))
        or not abs(share) < float("inf")
    ):
        raise PlanError(f"a factor is {share!r}, and has to be a share of the price, as 0.85")
    found = round(float(share) * THOUSAND) if 0 <= share <= LARGEST_FACTOR else -1
    if not 0 <= found <= LARGEST_FACTOR or abs(found - share * THOUSAND) > 1e-6:
        hint = share_text(share) if LARGEST_FACTOR / THOUSAND < share <= LARGEST_FACTOR else None
        raise PlanError(
            (
                f"a factor is {share:g}, and has to be a share of the price in whole thousandths,"
                f" from 0 to {LARGEST_FACTOR // THOUSAND}"
            ),
            try_this=hint,
        )
    return found


def factors(low: float, high: float, step: float) -> list[int]:
    """Factors in thousandths, as `pit` takes them, from shares of the price. Raises PlanError where
    there are none, or `step` is below a thousandth.

    >>> factors(0.9, 1.1, 0.05)
    [900, 950, 1000, 1050, 1100]
    """
    if not (0 < step < float("inf") and -float("inf") < low <= high):
        raise PlanError(
            f"factors from {low:g} to {high:g} by {step:g}: there are none",
            try_this="from = 0.30, to = 1.20, step = 0.05",
        )
    if step * THOUSAND < 1 - 1e-6:
        raise PlanError(
            (
                f"factors from {low:g} to {high:g} by {step:g}: factors are whole thousandths, so"
                " that a step is at least 0.001"
            ),
            try_this="step = 0.05",
        )
    # so many that one of them is above the largest, if `high` is far above it
    count = int(min((high - low) / step, LARGEST_FACTOR + 1) + 1e-9)
    return [thousandths(round(low + i * step, 9)) for i in range(count + 1)]


def series_of(shares: Iterable[float]) -> list[int]:
    """Shares of the price in ascending order, as factors in thousandths. Raises PlanError where
    they don't ascend."""
    found = [thousandths(share) for share in shares]
    if not found or any(b <= a for a, b in zip(found, found[1:])):
        raise PlanError(
            f"factors = {[f / THOUSAND for f in found]} aren't in ascending order",
            try_this="factors = { from = 0.30, to = 1.20, step = 0.05 } for a series",
        )
    return found


class Shells:
    """The proved pits of a study at a series of factors. A shell is what a pit adds to the one
    before it.

    Every pit is checked again as it is read: the digests of the model's files and of the pit, its
    count, its worth by the planner's own table, and that it lies within the next. A file that
    nobody has touched since this process digested it isn't read again (`digests`), and bits that
    this study has just added up aren't added up again (`Study.mask`).

    Parameters
    ----------
    study : Study
    series : iterable of int
        Factors in thousandths, that have been run.

    Attributes
    ----------
    factors : list of int
        In thousandths, ascending.
    shell : int array of shape (blocks,)
        The first pit that has a block, as an index into `factors`; ``len(factors)`` where none has
        it.
    verdicts : list of dict
        What is kept of each pit: factor, count, worth, certificate (None where there is none) and
        more, as `study.Verdict`.

    Raises
    ------
    PlanError
        Where a pit hasn't been run, or a file of the model isn't the one that was built.
    Disagreement
        Where a check contradicts what was accepted. Nothing is shown then.
    """

    called = "shell"  # what a block's first pit is called where blocks are listed
    by = "factor"  # what tells one pit from another in files

    def __init__(self, study: Study, series: Iterable[int]) -> None:
        self.study = study
        self.factors = sorted(series)
        self.shell: Shorts = np.full(study.manifest["blocks"], len(self.factors), np.int16)
        self.verdicts: list[Verdict] = []
        with study.verifying():
            self.read()

    def read(self) -> None:
        """Reads each pit with all checks, the largest first. Raises Disagreement where a pit isn't
        within the next larger one."""
        below: Bools | None = None
        for i in reversed(range(len(self.factors))):
            mask = self.study.mask(self.factors[i])
            if below is not None and (mask & ~below).any():
                raise Disagreement(
                    (
                        f"the pit at {share_text(self.factors[i])} isn't within that at"
                        f" {share_text(self.factors[i + 1])}, and pit proves that it is"
                    ),
                    try_this="were results of several models mixed in this folder?",
                )
            self.shell[mask] = i
            below = mask
            verdict = self.study.verdict(self.factors[i])
            assert verdict is not None  # its mask has just been read
            self.verdicts.insert(0, verdict)

    def __len__(self) -> int:
        return len(self.factors)

    @property
    def certified(self) -> int:
        """How many of the pits have a certificate that `pit check` accepted; the others are as `pit
        shells` states them."""
        return sum(verdict["certificate"] is not None for verdict in self.verdicts)

    def with_certificates(
        self, workers: int | None = None, progress: FactorProgress | None = None
    ) -> Shells:
        """The same pits, each with its certificate: those that have none yet are found by
        themselves, checked, and have to be the same.

        Parameters
        ----------
        workers, progress
            As of `Study.shells`.
        """
        return (
            self
            if self.certified == len(self)
            else self.study.shells(self.factors, workers, progress, certificates=True)
        )

    @cached_property
    def dug(self) -> Shorts:
        """As `shell`, of rock alone: blocks of air have ``len(factors)``. What is drawn and
        measured is rock."""
        return np.where(self.study.model.is_rock, self.shell, np.int16(len(self.factors)))

    @property
    def priced(self) -> Priced:
        """What each block is worth, and whether it goes to the mill, in files of these pits."""
        return self.study.priced

    def mark(self, i: int) -> float:
        """What tells pit i from the others: its factor as a share of the price."""
        return self.factors[i] / THOUSAND

    def worth(self, i: int) -> str:
        """What pit i is worth at its factor, as `pit` states it."""
        return str(self.verdicts[i]["worth"])

    @cached_property
    def traced(self) -> dict[int, Benches]:
        """What `outlines` has made."""
        return {}

    def outlines(self, i: int) -> Benches:
        """The level and the outline of each bench of pit i's rock, as `by_bench` gives them; they
        are traced once for all files that have them."""
        from ..model.outlines import by_bench, cube_of

        if i not in self.traced:
            self.traced[i] = list(by_bench(cube_of(self.study.model, self.dug <= i, False)))
        return self.traced[i]

    def holds(self, i: int) -> Bools:
        """Whether a block is in pit i, of shape (blocks,). Raises IndexError where there is no such
        pit."""
        if not 0 <= i < len(self.factors):
            raise IndexError(f"there are pits 0 to {len(self.factors) - 1}")
        held: Bools = self.shell <= i
        return held

    @property
    def first(self) -> Array:
        """The factor of the first pit that has each block, as a share of the price; nan where none
        has it."""
        shares = np.array([*(factor / THOUSAND for factor in self.factors), np.nan])
        found: Array = shares[self.shell]
        return found

    def of_blocks(self) -> pd.DataFrame:
        """The first shell that has each block: ``id``, ``row`` (as a spreadsheet counts it; 0 for
        blocks that were added) and ``shell``, the factor as a share of the price, empty where no
        pit has the block."""
        model = self.study.model
        return pd.DataFrame(
            {"id": model.blocks["id"].to_numpy(), "row": model.table_row, "shell": self.first}
        )

    def table(
        self,
        base: float = THOUSAND,
        mining_rate: float | None = None,
        mill_rate: float | None = None,
        discount: float = 0.10,
        process_rates: Mapping[str, float | None] | None = None,
    ) -> pd.DataFrame:
        """Pit by pit: a row for each factor. See `pit_by_pit.table`."""
        rates = pit_by_pit.Rates(mining_rate, mill_rate, discount, process_rates or {})
        return pit_by_pit.table(self, int(base), rates)

    def benches(self, base: int = THOUSAND) -> pd.DataFrame:
        """Bench by shell. See `pit_by_pit.benches`."""
        return pit_by_pit.benches(self, base)

    def touches_edge(self, i: int) -> int:
        """How many blocks of pit i have a slope that asks for a place outside the model. See
        `edges.touching`."""
        return int(np.count_nonzero(self.touching & self.holds(i)))

    def reaches_floor(self, i: int) -> int:
        """How many blocks of pit i are the lowest of their column in the model. See
        `edges.on_floor`."""
        return int(np.count_nonzero(self.floor & self.holds(i)))

    @cached_property
    def floor(self) -> Bools:
        """Whether a block is the lowest of its column, of shape (blocks,)."""
        return edges.on_floor(self.study.model)

    @cached_property
    def touching(self) -> Bools:
        """Whether a block of the largest pit has such a slope, of shape (blocks,); those of a
        smaller pit are among them."""
        touching: Bools = edges.touching(self.study) & (self.shell < len(self.factors))
        return touching
