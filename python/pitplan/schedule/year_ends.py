"""The mine at the end of each year of a schedule in the place of pits, for files that are made of
either."""
from __future__ import annotations

from functools import cached_property
from typing import TYPE_CHECKING

import numpy as np

from ..base.amounts import THOUSAND, Priced
from ..base.arrays import Array
from ..study.shells import Shells

if TYPE_CHECKING:
    from .plan import Schedule


class YearEnds(Shells):
    """The mine at the end of each year, or of each period where a year has several.

    Attributes
    ----------
    factors : list of int
        Years from 1, up to the last in which something is dug.
    shell : int array of shape (blocks,)
        As of `Shells`, by years.
    goes : int array of shape (blocks,)
        Which way each block goes that is dug, as of `Schedule`; of others the way by which they are
        worth most.
    """

    def __init__(self, schedule: Schedule) -> None:
        count = int(schedule.period.max()) + 1
        self.called = self.by = "period" if schedule.production.terms.per_year > 1 else "year"
        self.study, self.factors = schedule.shells.study, list(range(1, count + 1))
        self.goes = np.where(
            schedule.period >= 0, schedule.goes, self.study.priced.way_of(THOUSAND)
        )
        self.shell = np.where(schedule.period >= 0, schedule.period, count).astype(np.int16)
        self.verdicts = []

    @cached_property
    def priced(self) -> Priced:
        """What each block is worth where it goes as the schedule sends it."""
        return self.study.priced.sent_by(self.goes)

    def mark(self, i: int) -> int:
        """The year."""
        return self.factors[i]

    def worth(self, i: int) -> str:
        """What the mine at the end of year i is worth at the full price, undiscounted: exactly."""
        return self.priced.worth_of(self.holds(i), THOUSAND)

    @property
    def first(self) -> Array:
        """The year of each block; 0 where none digs it, and of air."""
        return np.where(self.dug < len(self), self.dug + 1, 0).astype(np.int16)
