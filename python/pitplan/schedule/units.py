"""The units of a schedule and what rests on what: blocks, or panels of them, and gates between
pushbacks.

A gate of a pushback and a bench stands for all blocks of this pushback and of those before it on the
bench and above. It is a unit without rock: it rests on them, and what comes later rests on it.
"""
from __future__ import annotations

from typing import TYPE_CHECKING, NamedTuple

import numpy as np

from ..base.arrays import Bools, Ints
from ..base.errors import PlanError
from ..base.next_command import command
from ..study.predecessors import Resting
from .pairs import Pairs

if TYPE_CHECKING:
    from ..study.study import Study


class Units(NamedTuple):
    """Which unit each block of a pit is in, and where each unit is.

    Attributes
    ----------
    of_blocks : int array of shape (blocks of the pit,)
    level : int array of shape (units,)
        The bench, from the bottom.
    pushback : int array of shape (units,)
    """

    of_blocks: Ints
    level: Ints
    pushback: Ints

    @property
    def size(self) -> int:
        """How many there are."""
        return len(self.level)

    def summed(self, values: Ints) -> Ints:
        """Whole numbers of the pit's blocks, added up by units."""
        found = np.zeros(self.size, np.int64)
        np.add.at(found, self.of_blocks, values)
        return found


class _Gated(NamedTuple):
    """Units with the gates after them, and the pairs that gates have: what rests, and on what."""

    units: Units
    resting: Ints
    on: Ints


class _PitPairs(NamedTuple):
    """The pairs of a pit's blocks: by the slopes, and by the sink rate."""

    above: Pairs
    sinking: Pairs


class _Rows(NamedTuple):
    """Pairs of units, as two columns."""

    units: Ints
    others: Ints


def units_of(study: Study, blocks: Ints, pushback: Ints, panel: int) -> Units:
    """The units of a pit's blocks, of which the pushback is given: panels are squares of the plan,
    from the model's corner, of one pushback each."""
    b, (nx, ny, nz) = study.model.blocks, study.model.grid.shape
    x, y, z = (b[name].to_numpy().astype(np.int64)[blocks] for name in ("ix", "iy", "iz"))
    if panel == 1:
        return Units(np.arange(len(blocks), dtype=np.int64), z, pushback)
    squares = ((pushback * nz + z) * nx + x // panel) * ny + y // panel
    keys, unit = np.unique(squares, return_inverse=True)
    benches = keys // (nx * ny)
    return Units(unit.astype(np.int64), benches % nz, benches // nz)


def gated(units: Units, lead: int) -> _Gated:
    """The units and the gates between their pushbacks.

    A unit of a later pushback rests on the gate `lead` benches below its own of the pushback before
    it.
    """
    last, count = int(units.pushback.max()), units.size
    if not last:
        return _Gated(units, np.zeros(0, np.int64), np.zeros(0, np.int64))
    low, high = int(units.level.min()), int(units.level.max())
    level = np.tile(np.arange(high, low - 1, -1), last)
    pushback = np.repeat(np.arange(last), high - low + 1)

    def gate(of: Ints, bench: Ints) -> Ints:
        found: Ints = count + of * (high - low + 1) + high - np.maximum(bench, low)
        return found

    inner, later = np.flatnonzero(units.pushback < last), np.flatnonzero(units.pushback > 0)
    below, later_gates = np.flatnonzero(level < high), np.flatnonzero(pushback > 0)
    pairs = (
        (gate(units.pushback[inner], units.level[inner]), inner),
        (later, gate(units.pushback[later] - 1, units.level[later] - lead)),
        (count + below, count + below - 1),
        (count + later_gates, gate(pushback[later_gates] - 1, level[later_gates])),
    )
    more = Units(
        units.of_blocks, np.append(units.level, level), np.append(units.pushback, pushback)
    )
    resting, on = (np.concatenate(column) for column in zip(*pairs))
    return _Gated(more, resting, on)


def pairs_of(study: Study, sink: int | None, blocks: Ints) -> _PitPairs:
    """The pairs of the slopes within a pit, and those of the sink rate, by places in `blocks`.
    Raises PlanError where a block rests on one outside the pit, or where a sink rate needs the
    block straight above and the slopes don't."""
    resting = Resting(study)
    place = np.full(study.manifest["blocks"], -1, np.int64)
    place[blocks] = np.arange(len(blocks))
    found = [(b, p, offset) for b, p, offset in resting.pairs(blocks)]
    every = [
        np.concatenate(each) if each else np.zeros(0, np.int64)
        for each in zip(*[f[:2] for f in found])
    ]
    below, over = every if every else (np.zeros(0, np.int64), np.zeros(0, np.int64))
    if (place[over] < 0).any():
        raise PlanError(
            "a block of the pit rests on one outside it",
            try_this=command("build", study.named),
        )
    above = Pairs.of(place[below], place[over], len(blocks))
    if sink is None:
        return _PitPairs(above, Pairs.of(np.zeros(0, np.int64), np.zeros(0, np.int64), len(blocks)))
    straight = [offsets for offsets in resting.offsets if (0, 0, 1) not in offsets]
    if straight:
        raise PlanError(
            "[schedule] sink: by these slopes a block doesn't rest on the one straight above it, so"
            " that a schedule of the best pit alone might not be the best",
            try_this="leave sink out, or blocks that are less high",
            key=("schedule", "sink"),
        )
    step = np.full(len(blocks), -1, np.int64)
    for b, p, offset in found:
        if offset == (0, 0, 1):
            step[place[b]] = place[p]
    is_rock = study.model.is_rock[blocks]
    at = np.arange(len(blocks))
    for _ in range(min(sink, study.model.index.shape[2])):  # after all benches none is left
        at = np.where(at >= 0, step[at], -1)
    lower = np.flatnonzero((at >= 0) & is_rock)
    lower = lower[is_rock[at[lower]]]
    return _PitPairs(above, Pairs.of(lower, at[lower], len(blocks)))


def waits_of(study: Study, sink: int, blocks: Ints) -> Ints:
    """Of each of some blocks the one for which it waits by the sink rate: so many benches straight
    above it, of rock as it is, with a block at each bench between. Its own number where there is
    none. By places alone: `pairs_of` goes by the slopes."""
    index, is_rock, b = study.model.index, study.model.is_rock, study.model.blocks
    x, y, z = (b[name].to_numpy()[blocks] for name in ("ix", "iy", "iz"))
    top, found, waits = index.shape[2] - 1, blocks, is_rock[blocks]
    for step in range(1, min(sink, top + 1) + 1):
        found = np.where(z + step <= top, index[x, y, np.minimum(z + step, top)], -1)
        waits = waits & (found >= 0)
    return np.where(waits & is_rock[found], found, blocks).astype(np.int64)


def of_units(pairs: Pairs, units: Units, is_apart: bool, gates: _Gated | None = None) -> Pairs:
    """The pairs of units that some of their blocks have, and those of gates; within a unit none
    where `is_apart`."""
    below, over = units.of_blocks[pairs.blocks], units.of_blocks[pairs.other]
    keep: Bools = below != over if is_apart else np.ones(len(below), bool)
    low, high = below[keep], over[keep]
    if gates is not None:
        low, high = np.append(low, gates.resting), np.append(high, gates.on)
    return Pairs.of(low, high, units.size)


def rows_of(pairs: Pairs, units: Ints) -> _Rows:
    """The pairs of some units."""
    counts = pairs.first[units + 1] - pairs.first[units]
    rows = np.repeat(units, counts)
    starts = np.repeat(pairs.first[units] - np.append(0, np.cumsum(counts)[:-1]), counts)
    return _Rows(rows, pairs.other[starts + np.arange(len(rows))])
