"""Places that no row of the table is for: air above the ground, holes within the model, and the
rock around it."""
from __future__ import annotations

from collections.abc import Mapping
from dataclasses import replace
from typing import TYPE_CHECKING, Any

import numpy as np
import pandas as pd

from ..base.arrays import Bools
from ..base.errors import MOST_PLACES, PlanError, Remedy, toml_spelled
from ..table.column_names import AIR
from .grid import Grid

if TYPE_CHECKING:
    from .model import Model

_LARGEST = 1 << 24  # blocks that pit reads
_MISSING = ("model", "missing")


def enclosed(columns: Bools) -> Bools:
    """Which empty columns no way through empty columns leads out of.

    Parameters
    ----------
    columns : bool array of shape (nx, ny)
        Whether a column has any block.
    """
    free = np.pad(~columns, 1, constant_values=True)
    reached = np.zeros_like(free)
    reached[[0, -1], :] = reached[:, [0, -1]] = True
    while True:
        more = reached.copy()
        more[1:] |= reached[:-1]
        more[:-1] |= reached[1:]
        more[:, 1:] |= reached[:, :-1]
        more[:, :-1] |= reached[:, 1:]
        more &= free
        if (more == reached).all():
            holes: Bools = (free & ~reached)[1:-1, 1:-1]
            return holes
        reached = more


def close(model: Model, missing: str, fill: Mapping[str, Any], table: str) -> None:
    """Tells missing rows apart. Above the ground they are air, and may be left out. Within the
    model they are holes that no wall is held through: refused, unless the planner says what they
    are; then blocks are added to the model.

    Parameters
    ----------
    missing : {"refuse", "air", "rock"}
    fill : mapping
        For "rock": ``tonnes`` of a block, ``rock``, and other columns.

    Raises
    ------
    PlanError
        Where there is a hole, and the planner didn't say what it is; with the place of the first.
    """
    cube = model.index >= 0
    columns: Bools = cube.any(axis=2)
    levels = np.arange(cube.shape[2])
    top = np.where(columns, cube.shape[2] - 1 - cube[:, :, ::-1].argmax(axis=2), -1)
    floor = np.where(columns, cube.argmax(axis=2), cube.shape[2])
    within = ~cube & (levels < top[:, :, None]) & (levels > floor[:, :, None])
    _shafts(model, enclosed(columns), missing, table)
    low = int((~cube & columns[:, :, None] & (levels < floor[:, :, None])).sum())
    if low:
        model.notes.append(
            f"{low:,} places below the lowest block of their column have no row: a pit can't go"
            " there, and no wall is held through them"
        )
    above = int((~cube & columns[:, :, None] & (levels > top[:, :, None])).sum())
    if above:
        model.notes.append(
            f"{above:,} places above the highest block of their column have no row: air"
        )
    if not within.any():
        return
    if missing == "refuse":
        places = [_place(model, *map(int, each)) for each in np.argwhere(within)[:MOST_PLACES]]
        filled = Remedy(("model", "fill"), _mean_block(model))
        raise PlanError(
            (
                f"{places[0]} has no row, with blocks above and below it"
                f" ({int(within.sum()):,} such); through such a hole no wall is held"
            ),
            table=table,
            try_this=(
                'missing = "air" in [model] (old workings), or missing = "rock" with fill ='
                f" {toml_spelled(filled.value)}"
            ),
        ).with_places(places).with_remedy(
            Remedy(_MISSING, "rock", "if these are rock", other="air", also=(filled,))
        )
    _add_within(model, within, missing, fill)


def _mean_block(model: Model) -> dict[str, Any]:
    """What a block of rock has in the mean, as `fill` says it: its tonnes, and the commonest
    rock."""
    rock = model.blocks[model.is_rock]
    commonest = str(rock["rock"].mode().iloc[0]) if len(rock) else "waste"
    tonnes = round(float(rock["tonnes"].mean())) if len(rock) else 0
    return {"tonnes": tonnes, "rock": commonest}


def _shafts(model: Model, holes: Bools, missing: str, table: str) -> None:
    """Refuses whole columns that are missing within the model, unless they are air."""
    if not holes.any():
        return
    if missing != "air":
        worlds = (model.grid.world(int(i), int(j), 0) for i, j in np.argwhere(holes)[:MOST_PLACES])
        places = [f"({east:.10g}, {north:.10g})" for east, north, _ in worlds]
        raise PlanError(
            (
                f"the whole column at {places[0]} is missing within the model"
                f" ({int(holes.sum()):,} such); through such a gap no wall is held"
            ),
            table=table,
            try_this='export it too, or missing = "air" in [model], if it is a shaft',
        ).with_places(places).with_remedy(Remedy(_MISSING, "air", "if it is a shaft"))
    model.notes.append(f"{int(holes.sum()):,} whole columns within the model left empty, as air")


def _place(model: Model, i: int, j: int, k: int) -> str:
    """A place by the table's own coordinates."""
    x, y, z = model.grid.world(i, j, k)
    return f"({x:.10g}, {y:.10g}, {-z if model.depth else z:.10g})"


def _add_within(model: Model, within: Bools, missing: str, fill: Mapping[str, Any]) -> None:
    """Adds a block at each hole: its columns are those of the next block above, but for what `fill`
    says."""
    if missing == "air":
        fill = {"tonnes": 0.0, "rock": AIR}
    elif "tonnes" not in fill or "rock" not in fill:
        raise PlanError(
            '[model] missing = "rock": what is a block that has no row?',
            try_this=Remedy(("model", "fill"), _mean_block(model)),
            key=("model", "fill"),
        )
    i, j, k = np.nonzero(within)
    index = model.index
    above = np.full(len(i), -1)
    for up in range(1, index.shape[2]):
        at = np.minimum(k + up, index.shape[2] - 1)
        above = np.where(above < 0, index[i, j, at], above)
        if (above >= 0).all():
            break
    new = model.blocks.iloc[above].copy()
    new["ix"], new["iy"], new["iz"] = (v.astype(np.int32) for v in (i, j, k))
    for name, value in fill.items():
        if name not in new:
            raise PlanError(f"[model] fill: the table has no column {name!r}")
        new[name] = value
    added(model, new, model.grid)
    model.notes.append(
        f"{len(new):,} blocks added where rows are missing: "
        + ", ".join(f"{name} = {value}" for name, value in fill.items())
    )


def widen(model: Model, n: int) -> None:
    """Adds n columns of barren rock on each side: the nearest column of the model again, which is
    never ore. Raises PlanError where `pit` reads no model of so many blocks."""
    g = model.grid
    nx, ny, nz = g.shape
    if (nx + 2 * n) * (ny + 2 * n) > _LARGEST:
        raise PlanError(
            f"[model] widen = {n:,} makes more blocks than pit reads",
            try_this="widen = 10: so many columns on each side",
        )
    i, j = (
        v.ravel() for v in np.meshgrid(np.arange(-n, nx + n), np.arange(-n, ny + n), indexing="ij")
    )
    outside = (i < 0) | (i >= nx) | (j < 0) | (j >= ny)
    i, j = i[outside], j[outside]
    source = model.index[np.clip(i, 0, nx - 1), np.clip(j, 0, ny - 1)]
    column, level = np.nonzero(source >= 0)
    new = model.blocks.iloc[source[column, level]].copy()
    new["ix"], new["iy"], new["iz"] = (
        (i[column] + n).astype(np.int32),
        (j[column] + n).astype(np.int32),
        level.astype(np.int32),
    )
    model.blocks["ix"] += np.int32(n)
    model.blocks["iy"] += np.int32(n)
    east, north, low = (float(v) for v in g.world(-n, -n, 0))
    added(model, new, Grid((east, north, low), g.size, (nx + 2 * n, ny + 2 * n, nz), g.rotation))
    model.notes.append(f"widened by {n} columns on each side: {len(new):,} blocks of barren rock")


def added(model: Model, new: pd.DataFrame, grid: Grid) -> None:
    """Puts blocks after those of the table; their coordinates are where they are. The labels of
    `new` are the numbers of the blocks that they are copies of."""
    if model.parts:
        model.parts = replace(
            model.parts, source=np.concatenate([model.parts.source, model.parts.source[new.index]])
        )
    new["row"], new["id"] = np.int32(-1), ""
    x, y, z = grid.world(new["ix"], new["iy"], new["iz"])
    for key, values in (("x", x), ("y", y), ("z", -z if model.depth else z)):
        new[model.columns[key]] = values
    model.blocks = pd.concat([model.blocks, new], ignore_index=True)
    model.grid = grid
