"""How much room there is on a bench: the widest machine that comes to every place, by plan
morphology."""
from __future__ import annotations

import math

import numpy as np
from scipy import ndimage

from ..base.arrays import Bools, Floats

STEPS = 4  # radii that are tried, in the shorter side of a block: widths are told to half a block
_FINE = 32  # steps up to which each is tried
_SLACK = 1e-9
_WIDTH_TOLERANCE = 1e-3  # of a cell's side: a width that is wanted and is more by less than that is as good as there


def widths(plane: Bools, size: tuple[float, float], wanted: float = 0.0) -> Floats:
    """The width of a set of cells at each of them.

    A cell is as wide as the widest circle or square that lies within the set and covers it. Squares
    are of whole cells, along the model's axes: they come to right-angled corners. Circles come to
    walls at other bearings; whole cells make steps of these, so a circle covers a cell whose centre
    is no more than a quarter of a cell beside it.

    So a strip is as wide as it is along its whole length, its ends and bends too. A passage that is
    at most two cells long may be told wider than it is.

    Parameters
    ----------
    plane : bool array of shape (nx, ny)
    size : 2 floats
        Of a cell along the two axes.
    wanted : float
        A width that is tried too, so that `width >= wanted` is exact, in the unit of `size`.

    Returns
    -------
    float array of shape (nx, ny)
        In the unit of `size`: `wanted`, or rounded down to half of a cell's shorter side, above 16
        such sides by at most a tenth; 0 outside the set.

    Notes
    -----
    Openings by `scipy.ndimage`, from the widest down, until every cell has its width. The distance
    to the border is taken at the centres, sides and corners of cells, so it is exact along the
    axes.
    """
    found = np.zeros(plane.shape)
    cells = np.argwhere(plane)
    if not len(cells):
        return found
    low, high = cells.min(axis=0), cells.max(axis=0) + 1
    here = (slice(low[0], high[0]), slice(low[1], high[1]))
    window, width = plane[here], found[here]
    half = (size[0] / 2, size[1] / 2)
    room = ndimage.distance_transform_edt(lattice(window), sampling=half)
    step = min(size) / STEPS
    radii = {step * k for k in rungs(math.floor(room.max() / step + _SLACK))} | (
        {wanted / 2} if wanted > 0 else set()
    )
    for radius in sorted(radii, reverse=True):
        width[
            window
            & (width == 0)
            & (by_squares(window, 2 * radius, size) | by_circles(room, radius, half))
        ] = (2 * radius)
        if (width[window] > 0).all():
            break
    return found


def rungs(most: int) -> list[int]:
    """The radii that are tried, counted in steps: each up to 32, from there on a tenth further each
    time, and the last."""
    found = list(range(1, min(most, _FINE) + 1))
    while found and found[-1] < most:
        found.append(min(most, found[-1] + found[-1] // 10))
    return found


def thinnest(width: Floats, size: tuple[float, float]) -> float:
    """The least of some widths, rounded down to half of a cell's shorter side."""
    unit = 2 * min(size) / STEPS
    return (
        math.floor(float(width[width > 0].min()) / unit + _SLACK) * unit
        if (width > 0).any()
        else math.nan
    )


def by_squares(plane: Bools, side: float, size: tuple[float, float]) -> Bools:
    """The cells that a square of at least this side covers, of whole cells within the set."""
    across = cells_across(side, size)
    if across[0] > plane.shape[0] or across[1] > plane.shape[1]:
        return np.zeros_like(plane)
    pad = max(across)
    found: Bools = ndimage.grey_opening(np.pad(plane, pad).astype(np.uint8), size=across)[
        pad:-pad, pad:-pad
    ].astype(bool)
    return found


def cells_across(width: float, size: tuple[float, float]) -> list[int]:
    """How many whole cells a width takes along the two axes.

    >>> cells_across(40.0001, (20, 20)), cells_across(40.1, (20, 10))
    ([2, 2], [3, 5])
    """
    return [math.ceil(width / side - _WIDTH_TOLERANCE) for side in size]


def lattice(plane: Bools) -> Bools:
    """Which centres, sides and corners of cells lie within a set of cells and not on its border, of
    shape (2 nx + 1, 2 ny + 1): odd places are centres."""
    pad = np.pad(plane, 1)
    inside = np.zeros((2 * plane.shape[0] + 1, 2 * plane.shape[1] + 1), bool)
    inside[1::2, 1::2] = plane
    inside[::2, 1::2] = pad[:-1, 1:-1] & pad[1:, 1:-1]
    inside[1::2, ::2] = pad[1:-1, :-1] & pad[1:-1, 1:]
    inside[::2, ::2] = pad[:-1, :-1] & pad[1:, :-1] & pad[:-1, 1:] & pad[1:, 1:]
    return inside


def by_circles(room: Floats, radius: float, half: tuple[float, float]) -> Bools:
    """The cells that circles of a radius cover, where they lie within the set; `room` is the
    distance to its border on `lattice`."""
    fits = room >= radius - _WIDTH_TOLERANCE * min(half)
    if not fits.any():
        return np.zeros((room.shape[0] // 2, room.shape[1] // 2), bool)
    away = ndimage.distance_transform_edt(~fits, sampling=half)[1::2, 1::2]
    found: Bools = away <= (radius + min(half) / 2) * (1 + _SLACK)
    return found
