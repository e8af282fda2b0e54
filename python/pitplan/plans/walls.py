"""How steep a design's walls are where it breaks the slopes."""
from __future__ import annotations

import math
from typing import TYPE_CHECKING, Any

import numpy as np
import pandas as pd

from ..base.arrays import Bools, Ints
from ..model.grid import Grid
from ..slopes.offsets import Outline, wall

if TYPE_CHECKING:
    from ..model.model import Model
    from ..study.predecessors import Resting

_SECTORS = 16  # of bearings: each 22.5 degrees wide, the first around north
_LEVELS = 6  # over which a wall is measured, where the slopes look at fewer
_COLUMNS = ("bearing", "pairs", "steepest", "built", "height", "away", "id", "x", "y", "bench")


def sector_of(bearing: float) -> int:
    """The sector of a bearing in degrees.

    >>> sector_of(0.0), sector_of(349.0), sector_of(90.0)
    (0, 0, 4)
    """
    return int((bearing % 360) * _SECTORS / 360 + 0.5) % _SECTORS


def away_of(grid: Grid, dx: int, dy: int) -> tuple[float, float]:
    """How far away a column so many blocks along x and y is, and at which bearing, in degrees."""
    east, north, _ = Grid((0.0, 0.0, 0.0), grid.size, rotation=grid.rotation).world(dx, dy, 0)
    return math.hypot(float(east), float(north)), math.degrees(
        math.atan2(float(east), float(north))
    )


def worst(
    model: Model, resting: Resting, held: Bools, broken: tuple[Ints, Ints, Ints]
) -> pd.DataFrame:
    """The steepest wall of each sector of bearings in which a design breaks the slopes.

    A wall is measured from the centre of a block that the design digs, and that breaks the slopes
    in this sector, up to the centre of the highest block that stands beside it, over no more levels
    than the slopes look at (or 6). Bearings are those of the wall seen from the bottom of the pit,
    clockwise from north.

    Parameters
    ----------
    held : bool array of shape (blocks,)
    broken :
        As `Resting.broken` gives it.

    Returns
    -------
    DataFrame
        Steepest first: ``bearing`` (of the sector's steepest wall; not a number where the design
        leaves a block that stands straight above one that it digs), ``pairs`` (how many are broken
        in the sector), ``steepest`` (degrees), ``built`` (degrees of a deep wall at that bearing,
        by the slopes that were built), ``height`` and ``away`` (of the wall's top from its foot),
        and of the foot ``id``, ``x``, ``y``, ``bench``.
    """
    blocks, _, offsets = broken
    if not len(blocks):
        return pd.DataFrame(columns=list(_COLUMNS))
    ways, way, counts = np.unique(offsets[:, :2], axis=0, return_inverse=True, return_counts=True)
    sectors = np.array(
        [sector_of(away_of(model.grid, dx, dy)[1]) if dx or dy else -1 for dx, dy in ways.tolist()]
    )[way.ravel()]
    lines = _steepest(
        model,
        resting,
        held,
        {int(sector): np.unique(blocks[sectors == sector]) for sector in np.unique(sectors)},
    )
    rows: dict[int, dict[str, Any]] = {}
    for (dx, dy), count in zip(ways.tolist(), counts.tolist()):
        if dx == dy == 0:
            at = np.flatnonzero((offsets[:, :2] == 0).all(axis=1))
            rows[-1] = {
                "bearing": math.nan,
                "pairs": count,
                "steepest": 90.0,
                "built": math.nan,
                "height": int(offsets[at, 2].max()) * model.grid.size[2],
                "away": 0.0,
                "block": int(blocks[at[0]]),
            }
            continue
        sector = sector_of(away_of(model.grid, dx, dy)[1])
        row = rows.setdefault(sector, dict(lines[sector], pairs=0))
        row["pairs"] += count
    found = pd.DataFrame(list(rows.values())).sort_values(
        "steepest", ascending=False, kind="stable", ignore_index=True
    )
    foot = found["block"].to_numpy()
    x, y, z = model.xyz()
    return found.assign(
        id=model.blocks["id"].to_numpy()[foot], x=x[foot], y=y[foot], bench=z[foot]
    )[list(_COLUMNS)]


def _steepest(
    model: Model, resting: Resting, held: Bools, feet: dict[int, Ints]
) -> dict[int, dict[str, Any]]:
    """The steepest line of each sector from one of the sector's own `feet` up to rock that stands:
    a block that breaks the slopes elsewhere may lie in a region whose walls may be steeper.

    Returns
    -------
    dict
        By sector: ``bearing``, ``steepest``, ``built``, ``height``, ``away``, ``block``.
    """
    grid, weight = model.grid, model.blocks.tonnes.to_numpy() > 0
    standing = np.full(grid.shape[:2], -1, np.int64)
    place = resting.place[~held & weight]
    np.maximum.at(standing, (place[:, 0], place[:, 1]), place[:, 2])
    levels, reach_x, reach_y = _window(resting)
    found: dict[int, dict[str, Any]] = {}
    for dx in range(-reach_x, reach_x + 1):
        for dy in range(-reach_y, reach_y + 1):
            away, bearing = away_of(grid, dx, dy)
            sector = sector_of(bearing)
            foot = feet.get(sector)
            if foot is None or dx == dy == 0:
                continue
            x, y, z = resting.place[foot].T
            inside = (
                (x + dx >= 0) & (x + dx < grid.shape[0]) & (y + dy >= 0) & (y + dy < grid.shape[1])
            )
            if not inside.any():
                continue
            up = np.minimum(standing[x[inside] + dx, y[inside] + dy] - z[inside], levels)
            at = int(np.argmax(up))
            angle = math.degrees(math.atan2(int(up[at]) * grid.size[2], away))
            if up[at] > 0 and (sector not in found or angle > found[sector]["steepest"]):
                found[sector] = {
                    "steepest": angle,
                    "bearing": round(bearing, 6) % 360,
                    "height": int(up[at]) * grid.size[2],
                    "away": away,
                    "block": int(foot[inside][at]),
                }
    outlines = [
        Outline(wall(grid.size, 45.0, grid.rotation), offsets) for offsets in resting.offsets
    ]
    return {
        sector: {
            **line,
            "built": outlines[int(resting.region[line["block"]])].slope(line["bearing"]),
        }
        for sector, line in found.items()
    }


def _window(resting: Resting) -> tuple[int, int, int]:
    """Over how many levels, and how many blocks along x and y, walls are looked at."""
    every = np.array([offset for offsets in resting.offsets for offset in offsets] or [(1, 1, 1)])
    highest = int(every[:, 2].max())
    times = -(-_LEVELS // highest)
    return (
        highest * times,
        int(np.abs(every[:, 0]).max()) * times,
        int(np.abs(every[:, 1]).max()) * times,
    )
