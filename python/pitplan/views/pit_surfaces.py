"""How deep each column of the model is dug: the surface of a pit as one height for each column.

A block of a pit comes with all blocks straight above it, so that its surface is whole by these
heights.
"""
from __future__ import annotations

import base64
import zlib
from collections.abc import Iterable
from typing import TYPE_CHECKING

import numpy as np

from ..base.arrays import Bools, Indices, Levels
from ..base.errors import PlanError
from ..base.next_command import command

if TYPE_CHECKING:
    from ..study.study import Study

NO_COLUMN = 65535  # the model has no rock here


def surfaces(study: Study, pits: Iterable[tuple[str, Bools]]) -> Levels:
    """How many benches from the model's floor up are left standing.

    Parameters
    ----------
    study : Study
    pits : iterable of (str, bool array of shape (blocks,))
        Each by what an error calls it and its blocks.

    Returns
    -------
    uint16 array of shape (pits + 1, columns along x, columns along y)
        The ground as it is, then the surface of each pit; NO_COLUMN where the model has no rock.

    Raises
    ------
    PlanError
        Where a pit has a block and not all rock above it, since one height can't show that. Air
        within rock may be left out of it, as it is of pushbacks.
    """
    index = study.model.index
    # rows of air above the ground are no ground
    rock, high = (
        _placed(study.model.is_rock, index),
        index.shape[2],
    )
    ground = np.where(rock.any(axis=2), high - rock[:, :, ::-1].argmax(axis=2), 0)
    below = np.arange(high) < ground[:, :, None]
    out = [ground]
    for name, held in pits:
        dug = _placed(held, index) & below
        level = np.where(dug.any(axis=2), dug.argmax(axis=2), ground)
        hung = (rock & ~dug & (np.arange(high) >= level[:, :, None])).any(axis=2)
        if hung.any():
            raise _overhang(
                study, name, index[(*np.argwhere(hung)[0], level[hung][0])], int(hung.sum())
            )
        out.append(level)
    return np.where(ground == 0, NO_COLUMN, np.stack(out)).astype(np.uint16)


def _placed(held: Bools, index: Indices) -> Bools:
    """Whether a set has the block at each place of the grid; a place without a block is at number
    -1, the last."""
    found: Bools = np.append(held, False)[index]
    return found


def _overhang(study: Study, name: str, block: int, count: int) -> PlanError:
    """The error of a set that has a block without what is straight above it."""
    places = f"; {count:,} columns are so" if count > 1 else ""
    return PlanError(
        (
            f"{name} has block {study.model.blocks['id'].iloc[int(block)]} without all that is"
            f" above it{places}: its surface isn't one height for each column"
        ),
        try_this=f"{command('plot', study.named)}, which draws sections and benches as they are",
    )


def packed_marks(held: Bools, index: Indices) -> str:
    """A set of blocks as text: a bit for each place of the grid, level by level of each column, by
    zlib and base64; "" for none."""
    return (
        base64.b64encode(zlib.compress(np.packbits(_placed(held, index)).tobytes(), 9)).decode()
        if held.any()
        else ""
    )


def packed(levels: Levels) -> str:
    """Heights as text: the ground, then how much lower each surface is than the one before, by zlib
    and base64."""
    lower = np.concatenate([levels[:1], levels[:-1] - levels[1:]])
    return base64.b64encode(zlib.compress(lower.astype("<u2").tobytes(), 9)).decode()
