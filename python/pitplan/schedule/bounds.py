"""What no schedule is worth more than: `pit solve --periods` finds the richest pit of a mine of blocks
and periods at some multipliers, and `pit bound` says the bound by it."""
from __future__ import annotations

import time
from abc import ABC, abstractmethod
from decimal import Decimal
from pathlib import Path
from typing import NamedTuple

import numpy as np

from ..base.arrays import Bools, Ints
from ..pit.process import OutOfTime, left_until
from ..pit.program import Periodic, Pit
from .destinations import MULTIPLIERS_IN_ONE
from .production import Production
from .terms import MILLION

CERTIFICATE = "bound.cert"  # the name of the file


class Closed(NamedTuple):
    """A richest pit at some multipliers.

    Attributes
    ----------
    bound : str
        The bound by it that `pit bound` says, in units of currency.
    dug : bool array of shape (units, periods)
        Whether each unit is dug by the end of each period.
    certificate : str
        The sha256 of its certificate.
    """

    bound: str
    dug: Bools
    certificate: str


def _capacities_paid(production: Production, multipliers: Ints) -> list[int]:
    """What each period's capacities come to at the multipliers, in billionths."""
    return [
        sum(int(price) * int(room) for price, room in zip(prices, rooms))
        for prices, rooms in zip(multipliers.T, production.capacities.T)
    ]


def _costs_paid(production: Production, paid: list[int]) -> int:
    """What capacities pay of fixed costs, in billionths. A period in which rock is dug pays for its
    capacities at most, and has its fixed cost; one in which none is dug pays for nothing. So what a
    period adds to a bound is its capacities less its fixed cost, or nothing where that is below 0.
    """
    each = production.terms.fixed_cost * MULTIPLIERS_IN_ONE
    return sum(min(one, int(weight) * each) for one, weight in zip(paid, production.weights))


class Bounds(ABC):
    """The bounds of a production, by its blocks or units as a mine of `pit`.

    Parameters
    ----------
    production : Production

    Attributes
    ----------
    count : int
        Blocks of that mine whose nodes `pit` counts; the first ones are the units.
    """

    def __init__(self, production: Production) -> None:
        self.production, self.count = production, production.units

    @abstractmethod
    def written(self, program: Pit, folder: Path, seconds: float | None = None) -> Periodic:
        """Its files in a folder, all but that of its periods; those that are there stay. Raises
        OutOfTime where `pit` takes longer for one of them."""

    @abstractmethod
    def periods(self, multipliers: Ints) -> str:
        """The text of its periods."""

    def mine(
        self, program: Pit, folder: Path, multipliers: Ints, seconds: float | None = None
    ) -> Periodic:
        """The mine with its periods, at some multipliers; as `written`."""
        found = self.written(program, folder, seconds)
        found.periods.write_text(self.periods(multipliers))
        return found

    def total(self, said: str, multipliers: Ints) -> int:
        """What no schedule is worth more than, in millionths of a unit of currency, rounded up: what
        `pit bound` says, less the fixed costs that capacities pay."""
        paid = _costs_paid(self.production, _capacities_paid(self.production, multipliers))
        exact = Decimal(said) * MILLION - Decimal(paid) / MULTIPLIERS_IN_ONE
        return int(exact.to_integral_value(rounding="ROUND_CEILING"))

    def closed(
        self, program: Pit, folder: Path, multipliers: Ints, seconds: float | None
    ) -> Closed | None:
        """The richest pit at some multipliers; None where finding it takes longer, files and all."""
        ends = None if seconds is None else time.monotonic() + seconds
        try:
            mine = self.mine(program, folder, multipliers, seconds)
        except OutOfTime:
            return None
        pit = program.bound(mine, folder / CERTIFICATE, left_until(ends))
        if pit is None:
            return None
        dug = np.zeros(self.count * self.production.periods, bool)
        dug[pit.nodes] = True
        of_units = dug.reshape(self.production.periods, self.count)[:, : self.production.units]
        return Closed(pit.bound, of_units.T, pit.certificate)
