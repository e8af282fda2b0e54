"""Which unit rests on which, as rows of numbers."""
from __future__ import annotations

from typing import NamedTuple

import numpy as np

from ..base.arrays import Bools, Ints


class Pairs(NamedTuple):
    """The units that each unit rests on: those of unit b are ``other[first[b] : first[b + 1]]``,
    ascending.

    Attributes
    ----------
    first : int array of shape (units + 1,)
    other : int array of shape (pairs,)
    """

    first: Ints
    other: Ints

    @classmethod
    def of(cls, blocks: Ints, others: Ints, units: int) -> Pairs:
        """Of pairs in any order; one that comes twice counts once."""
        keys = np.unique(blocks.astype(np.int64) * units + others)
        first = np.zeros(units + 1, np.int64)
        np.cumsum(np.bincount(keys // units, minlength=units), out=first[1:])
        return cls(first, keys % units)

    @property
    def blocks(self) -> Ints:
        """The unit that rests, of each pair."""
        found: Ints = np.repeat(np.arange(len(self.first) - 1), np.diff(self.first))
        return found

    @property
    def most(self) -> int:
        """Those of the unit that rests on most."""
        return int(np.diff(self.first).max(initial=0))

    def columns(self) -> Ints:
        """The pairs as columns, of shape (most, units): what a unit rests on stands in the first, and
        its own number in the others."""
        units = np.arange(len(self.first) - 1)
        found = np.repeat(units[None, :], self.most, axis=0)
        found[np.arange(len(self.other)) - self.first[self.blocks], self.blocks] = self.other
        return found

    def turned(self) -> Pairs:
        """The pairs the other way round: those that rest on each unit."""
        return Pairs.of(self.other, self.blocks, len(self.first) - 1)

    def broken(self, period: Ints, lag: int, never: int) -> Bools:
        """Of each pair whether its block is dug, and the other not `lag` periods before or more."""
        mine, other = period[self.blocks], period[self.other]
        found: Bools = (mine < never) & (other + lag > mine)
        return found
