"""Air above steep ground: a block depends on those further up through the places between, and
beside a cliff or an old pit these are air, that tables have no rows for.

So the places of air that a slope leads through from rock to rock become blocks of the model:
without tonnes, at no cost. Where the ground is nowhere steeper than the slopes there are none.
"""
from __future__ import annotations

from collections.abc import Iterator, Sequence
from dataclasses import replace
from typing import TYPE_CHECKING, Tuple

import numpy as np

from ..base.arrays import Bools, Shorts
from ..model.gaps import added
from ..table.column_names import AIR

if TYPE_CHECKING:
    from ..model.model import Model
    from .slopes import Slopes

_Offsets = Sequence[Sequence[Tuple[int, int, int]]]
_Slices = Tuple[slice, slice]


def with_air(model: Model, slopes: Slopes) -> Model:
    """The model with a block at each place of air that a slope leads through from rock to rock; the
    model itself where there is none.

    A place of air has the region of the highest block of its column.

    Parameters
    ----------
    model : Model
    slopes : Slopes

    Returns
    -------
    Model
        The blocks of `model`, in their order, then those of air: their `row` is -1.
    """
    index = model.index
    top = np.where(
        (index >= 0).any(axis=2), index.shape[2] - 1 - (index >= 0)[:, :, ::-1].argmax(axis=2), -1
    )
    highest = np.take_along_axis(index, np.maximum(top, 0)[:, :, None], axis=2)[:, :, 0]
    air = (np.arange(index.shape[2]) > top[:, :, None]) & (top >= 0)[:, :, None]
    region = np.where(air, highest[:, :, None], index)
    region = np.where(region >= 0, slopes.region_of(model).astype(np.int16)[region], np.int16(-1))
    found = led_through(
        index >= 0, air, region, list(slopes.offsets_by_region(model.grid).values())
    )
    i, j, k = np.nonzero(found)
    if not len(i):
        return model
    new = model.blocks.iloc[highest[i, j]].copy()
    new["ix"], new["iy"], new["iz"] = (v.astype(np.int32) for v in (i, j, k))
    new["tonnes"], new["rock"] = 0.0, AIR
    note = (
        f"{len(new):,} blocks of air added, without tonnes: slopes lead through them to rock above,"
        " where the ground is steep"
    )
    found_model = replace(model, notes=[*model.notes, note])
    added(found_model, new, model.grid)
    return found_model


def led_through(there: Bools, air: Bools, region: Shorts, offsets: _Offsets) -> Bools:
    """Which places of air a block is led through to another block.

    Parameters
    ----------
    there, air : bool arrays of the grid's shape
        Where blocks are, and where air is that no block stands for.
    region : int array of that shape
        An index into `offsets`; -1 where nothing is.
    offsets : the offsets of each region
    """
    to, of = np.zeros_like(air), np.zeros_like(air)
    levels = np.flatnonzero(air.any(axis=(0, 1))).tolist()
    for k in reversed(levels):  # from the top: which air leads to a block
        for r, low, high, up in _steps(offsets, air.shape, range(k + 1, air.shape[2]), k):
            to[(*low, k)] |= (
                (there[(*high, up)] | to[(*high, up)]) & air[(*low, k)] & (region[(*low, k)] == r)
            )
    if not to.any():
        return to
    for k in levels:  # from below: to which of it a block leads
        for r, low, high, down in _steps(offsets, air.shape, range(k), k):
            of[(*high, k)] |= (
                (there[(*low, down)] | of[(*low, down)])
                & (region[(*low, down)] == r)
                & to[(*high, k)]
            )
    return of


def _steps(
    offsets: _Offsets, shape: tuple[int, ...], levels: range, at: int
) -> Iterator[tuple[int, _Slices, _Slices, int]]:
    """The offsets between a level and others: the region, the columns that an offset leads from and
    to, and the other level."""
    for r, every in enumerate(offsets):
        for dx, dy, dz in every:
            for other in (at + dz, at - dz):
                if other in levels and abs(dx) < shape[0] and abs(dy) < shape[1]:
                    yield r, (_before(dx, shape[0]), _before(dy, shape[1])), (
                        _before(-dx, shape[0]),
                        _before(-dy, shape[1]),
                    ), other


def _before(step: int, count: int) -> slice:
    """The places of so many from which a step leads to another of them."""
    return slice(max(-step, 0), count - max(step, 0))
