"""How many pairs of a block and a predecessor a model has by its slopes, and what looks wrong of
them.

Where sizes or coordinates are wrong, offsets lead to places that no block is at. Such a mine has no
walls, and every program would find its pits without a word.
"""
from __future__ import annotations

from collections.abc import Iterator, Sequence
from dataclasses import dataclass

import numpy as np

from ..base.arrays import Indices, Ints
from ..base.strange import Strange
from ..slopes.offsets import Offset

_HARDLY = 0.1  # the share of blocks that is hardly any


@dataclass(frozen=True)
class PairCounts:
    """How many pairs of a block and a predecessor a model has.

    Attributes
    ----------
    count : int
        How many there are.
    listed : int
        How many there would be if a block stood at each place that an offset leads to.
    lower : int
        The blocks that others lie above, in the model's other levels.
    with_any : int
        Those of `lower` that have a predecessor.
    leading_aside : int
        Those of `lower` whose region has an offset to another column that ends within the model.
    with_any_aside : int
        Those of `leading_aside` that have a predecessor in another column.
    """

    count: int
    listed: int
    lower: int
    with_any: int
    leading_aside: int
    with_any_aside: int

    def __str__(self) -> str:
        share = 100 * self.count / self.listed if self.listed else 0.0
        return (
            f"{self.count:,} pairs of a block and a predecessor, {share:.0f} % of what the slopes"
            " list; the others lead out of the model, or to places without a block"
        )

    def strange(self) -> Iterator[Strange]:
        """What looks wrong: hardly any block rests on another, or only on those straight above it."""
        wrong = "a block rests on those above it", "size in [model], or the columns of x, y and z"
        if self.with_any < _HARDLY * self.lower:
            yield Strange(
                f"{self.with_any:,} of the {self.lower:,} blocks below the highest level rest on"
                f" another by the slopes: {_none_or_few(self.with_any)} walls are held",
                *wrong,
                ("model", "size"),
            )
        elif self.with_any_aside < _HARDLY * self.leading_aside:
            yield Strange(
                f"{self.with_any_aside:,} of the {self.leading_aside:,} blocks that slopes lead aside"
                f" from rest on a block of another column: {_none_or_few(self.with_any_aside)} walls"
                " are held but upright ones",
                *wrong,
                ("model", "size"),
            )


def counted_pairs(index: Indices, region: Ints, offsets: Sequence[Sequence[Offset]]) -> PairCounts:
    """How many pairs of a block and a predecessor a model has.

    Parameters
    ----------
    index : int array of the grid's shape
        The number of the block at each place, -1 where there is none.
    region : int array of shape (blocks,)
        The region of slopes of each block.
    offsets
        Those of each region.
    """
    there = index >= 0
    level = np.arange(index.shape[2])
    top = int(level[there.any(axis=(0, 1))].max(initial=0))
    of_lower = there & (level < top)
    regions = np.where(there, region.astype(np.int16)[index], np.int16(-1))
    count = listed = 0
    any_at, aside_at, leads_aside = (np.zeros_like(there) for _ in range(3))
    for r, ways in enumerate(offsets):
        here = regions == r
        listed += len(ways) * int(np.count_nonzero(here))
        for offset in ways:
            low, high = _before(offset, index.shape), _before([-d for d in offset], index.shape)
            pair = here[low] & there[high]
            count += int(np.count_nonzero(pair))
            any_at[low] |= pair
            if offset[0] or offset[1]:
                leads_aside[low] |= here[low]
                aside_at[low] |= pair
    return PairCounts(
        count,
        listed,
        int(np.count_nonzero(of_lower)),
        int(np.count_nonzero(any_at & of_lower)),
        int(np.count_nonzero(leads_aside & of_lower)),
        int(np.count_nonzero(aside_at & of_lower)),
    )


def _before(step: Sequence[int], shape: tuple[int, ...]) -> tuple[slice, ...]:
    """The places of a grid from which a step leads to another of them."""
    return tuple(
        slice(min(max(-d, 0), side), max(side - max(d, 0), 0)) for d, side in zip(step, shape)
    )


def _none_or_few(count: int) -> str:
    return "hardly any" if count else "no"
