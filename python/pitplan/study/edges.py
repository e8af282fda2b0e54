"""Where a pit touches the side of the model: its slopes ask for places that the model doesn't have,
so no wall is held there. And where it reaches the model's floor: what lies below it, ore too, isn't
in the model."""
from __future__ import annotations

from collections.abc import Iterable, Iterator, Sequence
from typing import TYPE_CHECKING

import numpy as np

from ..base.arrays import Bools, Ints
from ..model.gaps import enclosed

if TYPE_CHECKING:
    from ..model.model import Model
    from .folder import StudyFolder


# What is said of a pit that touches the model's side, or reaches its floor, and what to try; the
# first with how many blocks do.
SIDE = (
    (
        "touches the side of the model ({}): a place that the slope asks for isn't in the model, so"
        " no wall is held there"
    ),
    "a wider model, or widen in [model]",
)
FLOOR = (
    (
        "reaches the model's floor ({}): what lies deeper isn't in the model, so no pit can follow"
        " ore down there"
    ),
    "a model that goes deeper",
)


def ground(model: Model) -> tuple[Ints, Ints]:
    """The highest level of rock and the lowest level with a row of each column, of shape (nx, ny);
    of a column without rows, those of the nearest column that has some, as far as one can tell by
    going along the axes. Rows of air, without tonnes, are no ground.
    """
    index = model.index
    # the last is that of -1: no row
    there, rock = (
        index >= 0,
        np.append(model.blocks["tonnes"].to_numpy() > 0, False)[index],
    )
    has = there.any(axis=2)
    top = np.where(rock.any(axis=2), there.shape[2] - 1 - rock[:, :, ::-1].argmax(axis=2), -1)
    low = np.where(has, there.argmax(axis=2), 0)
    while not has.all() and has.any():
        before = has.copy()
        for axis in (0, 1):
            for step in (1, -1):
                near, up, down = (np.roll(v, step, axis) for v in (before, top, low))
                edge = [slice(None), slice(None)]
                edge[axis] = slice(0, 1) if step == 1 else slice(-1, None)
                near[tuple(edge)] = False
                new = near & ~has
                top[new], low[new] = up[new], down[new]
                has |= new
    return top, low


def touching(study: StudyFolder) -> Bools:
    """Which blocks have a slope that asks for a place that isn't in the model and isn't air: beyond
    its sides, where the ground goes on as high as in the nearest column; in a column that has no
    row; or below the lowest row of a column. Rows of air, without tonnes, don't count: nothing has
    to hold there.

    Returns
    -------
    bool array of shape (blocks,)
    """
    b = study.model.blocks
    x, y, z = (b[name].to_numpy() for name in ("ix", "iy", "iz"))
    found, rock = np.zeros(len(b), bool), b["tonnes"].to_numpy() > 0
    for region, highest in enumerate(study.sides):
        found |= rock & (study.region == region) & (z <= highest[x, y])
    return found


def highest_touching(model: Model, regions: Iterable[Sequence[Sequence[int]]]) -> Iterator[Ints]:
    """For the offsets of each region the highest level at which a block of each column asks for
    such a place, of shape (nx, ny). Every block below that level asks for one too: the same offset
    leads it to a lower place of the same column.
    """
    top, low = ground(model)
    columns = (model.index >= 0).any(axis=2)
    # a study with such columns was built only where the planner called them air
    shaft = enclosed(columns)
    x, y = np.indices(columns.shape)
    for offsets in regions:
        highest = np.full(columns.shape, -1)
        for dx, dy, dz in offsets:
            near = np.clip(x + dx, 0, columns.shape[0] - 1), np.clip(
                y + dy, 0, columns.shape[1] - 1
            )
            beyond = (near[0] != x + dx) | (near[1] != y + dy) | ~(columns | shaft)[near]
            within = np.where(shaft[near], -1, low[near] - 1)  # below the lowest row
            highest = np.maximum(highest, np.where(beyond, top[near], within) - dz)
        yield highest


def on_floor(model: Model) -> Bools:
    """Which blocks are the lowest rock of their column: the model has no row below them.

    Returns
    -------
    bool array of shape (blocks,)
    """
    b = model.blocks
    _, low = ground(model)
    found: Bools = (b.iz.to_numpy() == low[b.ix, b.iy]) & (b.tonnes.to_numpy() > 0)
    return found
