"""Outlines of blocks in plan: polygons with holes, bench by bench.

In the grid's own units a block is one long and wide, with its centre at its whole index, so that
corners lie at halves and areas are exact counts of blocks. `placed` brings polygons to the
planner's coordinates.
"""
from __future__ import annotations

from collections.abc import Iterator
from typing import TYPE_CHECKING, Any

import numpy as np
from scipy import ndimage
from shapely.geometry import MultiPolygon, Polygon

from ..base.arrays import Array, Bools, Floats, Indices, Ints

if TYPE_CHECKING:
    from .grid import Grid
    from .model import Model

Benches = list[tuple[int, MultiPolygon]]


def cube_of(model: Model, values: Array, empty: Any) -> Array:
    """A value for each place of the grid, of the grid's shape; `empty` where no block is.

    Parameters
    ----------
    values : array of shape (blocks,)
    """
    cube = np.full(model.grid.shape, empty, values.dtype)
    b = model.blocks
    cube[b.ix.to_numpy(), b.iy.to_numpy(), b.iz.to_numpy()] = values
    return cube


def outline(plane: Bools) -> MultiPolygon:
    """The outline of the cells of a plane that are set, in the grid's own units.

    Parameters
    ----------
    plane : bool array of shape (nx, ny)

    Returns
    -------
    MultiPolygon
        Valid, without corners on straight lines, outer rings counterclockwise and holes clockwise;
        empty where no cell is set. Cells that meet at a corner alone lie in polygons of their own.
    """
    box = [slice(it.min(), it.max() + 1) for it in np.nonzero(plane) if it.size]
    piece, _ = ndimage.label(plane[tuple(box)])
    low = np.array([it.start for it in box]) - 0.5
    found: dict[int, tuple[Floats, list[Floats]]] = {}
    for own, is_hole, corners in _traced(np.pad(piece, 1)):
        if is_hole:
            found[own][1].append(corners + low)
        else:
            found[own] = corners + low, []
    return MultiPolygon([Polygon(*it) for it in found.values()])


def _traced(piece: Indices) -> Iterator[tuple[int, bool, Ints]]:
    """The rings around pieces of cells, each with its piece on the left of its way.

    Parameters
    ----------
    piece : int array of shape (nx + 2, ny + 2)
        Which piece each cell is of, from 1; 0 for no piece, as of all cells at the rim. Cells of a
        piece hang together by their sides.

    Yields
    ------
    own : int
        The piece.
    is_hole : bool
        An outer ring comes before its holes.
    corners : int array of shape (corners, 2)
        (0, 0) is where the first four cells meet. A ring comes to a corner once: where a piece
        meets itself at a corner alone, a ring goes to each side of it.
    """
    sw, se, nw, ne = piece[:-1, :-1], piece[1:, :-1], piece[:-1, 1:], piece[1:, 1:]
    # whether a ring goes from here east, north, west and south: a cell lies on the left alone
    goes = np.stack(
        [(ne > 0) & (se == 0), (nw > 0) & (ne == 0), (sw > 0) & (nw == 0), (se > 0) & (sw == 0)], 2
    )
    meets_itself = (sw == ne) & (nw == se) & (sw != nw)
    sides = np.flatnonzero(goes)
    way, column = sides % 4, 4 * sw.shape[1]
    corner = sides - way + np.array([column, 4, -column, -4])[way]  # at the side's end
    left, right = corner + (way + 1) % 4, corner + (way - 1) % 4
    goes_left = goes.flat[left] & ~meets_itself.flat[corner // 4]
    after = np.where(goes_left, left, np.where(goes.flat[right], right, corner + way))
    turns, nexts = after % 4 != way, np.searchsorted(sides, after).tolist()
    is_done = bytearray(len(sides))
    for first, side in enumerate(sides.tolist()):
        if is_done[first]:
            continue
        ring, at = [], first
        while not is_done[at]:
            is_done[at] = True
            ring.append(at)
            at = nexts[at]
        # of the lowest column's lowest corner: there an outer ring goes east, a hole's north
        is_hole = side % 4 == 1
        own = (nw if is_hole else ne).flat[side // 4]
        x, y = np.divmod(corner[ring][turns[ring]] // 4, sw.shape[1])
        yield int(own), is_hole, np.column_stack([x, y])


def cut(shape: MultiPolygon, reach: float = 0.5) -> MultiPolygon:
    """The same outline with its corners cut off, `reach` of a block from each: a staircase becomes
    a straight line.

    The area is no longer that of the blocks: by an eighth of a block less at each corner that
    points out, and more at each that points in.
    """

    def ring(points: Any) -> Floats:
        at = np.asarray(points.coords)[:-1]
        ways = np.stack([np.roll(at, 1, axis=0) - at, np.roll(at, -1, axis=0) - at], axis=1)
        ways /= np.linalg.norm(ways, axis=2, keepdims=True)
        found = (at[:, None] + reach * ways).reshape(-1, 2)
        once: Floats = found[(found != np.roll(found, 1, axis=0)).any(axis=1)]
        return once

    return MultiPolygon(
        [Polygon(ring(p.exterior), [ring(hole) for hole in p.interiors]) for p in shape.geoms]
    )


def placed(shape: MultiPolygon, grid: Grid) -> MultiPolygon:
    """A shape in the grid's own units, brought to the planner's coordinates, also of a turned
    model."""

    def ring(points: Any) -> Floats:
        at = np.asarray(points.coords)
        east, north, _ = grid.world(at[:, 0], at[:, 1], 0)
        return np.column_stack([east, north])

    return MultiPolygon(
        [Polygon(ring(p.exterior), [ring(hole) for hole in p.interiors]) for p in shape.geoms]
    )


def rings(shape: MultiPolygon) -> Iterator[tuple[Floats, bool]]:
    """The rings of a shape: points of shape (n, 2), the first not repeated, and whether it is a
    hole."""
    for p in shape.geoms:
        yield np.asarray(p.exterior.coords)[:-1], False
        for hole in p.interiors:
            yield np.asarray(hole.coords)[:-1], True


def by_bench(cube: Bools) -> Iterator[tuple[int, MultiPolygon]]:
    """The outline on each level that has a cell, from the top, in the grid's own units.

    Parameters
    ----------
    cube : bool array of the grid's shape
    """
    for level in np.flatnonzero(cube.any(axis=(0, 1)))[::-1].tolist():
        yield level, outline(cube[:, :, level])


def footprint(cube: Bools) -> MultiPolygon:
    """The outline of all columns that have a cell: the rim of a pit, in the grid's own units."""
    return outline(cube.any(axis=2))
