"""Simulated annealing (Kirkpatrick and others, 1983): moves and swaps of cones between neighbouring
periods, of which some that lose are taken, fewer and fewer, so that a schedule comes out of the best
that swaps which gain lead to."""
from __future__ import annotations

from typing import NamedTuple

import numpy as np

from . import swaps
from .unit_moves import Mine, Plan
from .swaps import Heat
from .destinations import Timetable
from .sorting import Sorting

_HOT, _COLD = 0.1, 0.01  # temperatures, as shares of the mean loss of a swap that loses
_LEVELS = 30  # temperatures from the one to the other
_PROBES = 400  # swaps between each two periods, by which that mean is found
_SWAPS_AT_A_TIME = 2000  # swaps between two looks at the clock
_SEEDS = 1 << 31


class _Batch(NamedTuple):
    """So many swaps between a period and the next; the seed is of all that is at random."""

    period: int
    tries: int
    seed: int


class Annealing:
    """Makes a schedule better by annealing.

    Parameters
    ----------
    sorting : Sorting
        Of the mine; it says when the time is over.
    seed : int
        Of all that is at random.
    """

    def __init__(self, sorting: Sorting, seed: int) -> None:
        self.sorting = sorting
        self.steps: list[int] = sorting.steps.tolist()
        self.random = np.random.default_rng(seed)

    def annealed(self, plan: Timetable, tries: int) -> Timetable:
        """The best schedule that is seen, at looks after swaps in each second pair of periods.
        Slopes, sink rate, capacities, panels and pushbacks are kept at every step; where blocks go
        stays until the end.

        Parameters
        ----------
        plan : Timetable
        tries : int
            Swaps between each two neighbouring periods at each temperature.
        """
        mine, more = self.sorting.mine_of(plan.sent), self.sorting.loose(plan)
        best, most, now = more.period.copy(), 0.0, 0.0
        for mean in np.geomspace(_HOT, _COLD, _LEVELS) * self.mean_loss(mine, more):
            for first in self.random.permutation(2).tolist():
                seeds = self.random.integers(_SEEDS, size=len(self.steps)).tolist()

                def gained(s: int, mean: float = mean, seeds: list[int] = seeds) -> float:
                    return self.gained(mine, more, _Batch(s, tries, seeds[s]), mean)

                now += sum(self.sorting.at_once(gained, range(first, len(self.steps), 2)))
                if now > most:
                    best, most = more.period.copy(), now
        return self.sorting.moved(self.sorting.resent(Timetable(best, plan.sent)))

    def gained(self, mine: Mine, plan: Plan, batch: _Batch, mean: float) -> float:
        """What swaps gain at a temperature, until the time is over."""
        s, tries, seed = batch
        found, heat = 0.0, Heat(self.steps[s], mean)
        for done in range(0, tries, _SWAPS_AT_A_TIME):
            if self.sorting.is_late:
                break
            piece = min(_SWAPS_AT_A_TIME, tries - done)
            found += swaps.swap_units(
                mine, plan, s, piece, seed + done // _SWAPS_AT_A_TIME, heat
            ).gain
        return found

    def mean_loss(self, mine: Mine, plan: Plan) -> float:
        """What a swap that loses does in the mean, of some that are tried and not taken; 0 where
        none does."""
        found = []
        for s, step in enumerate(self.steps):
            seed = int(self.random.integers(_SEEDS))
            found.append(swaps.swap_units(mine, plan, s, _PROBES, seed, Heat(step, -1.0)))
        return sum(each.lost for each in found) / max(sum(each.losing for each in found), 1)
