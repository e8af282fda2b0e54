"""A bench or a vertical section of a block model, as the arrays that a picture is drawn from."""
from __future__ import annotations

from dataclasses import dataclass

import numpy as np

from ..base.arrays import Bools, Floats, Indices
from ..base.errors import PlanError
from ..base.units_shown import length_text
from ..model.model import Model
from ..model.outlines import outline, rings


@dataclass(frozen=True)
class Plane:
    """The blocks that a plane cuts.

    Attributes
    ----------
    number : int array of shape (rows, columns)
        The block of rock at each cell, -1 where there is none. Rows go north or up, columns east or
        along the section.
    across, up : float arrays of shape (rows + 1, columns + 1)
        The corners of the cells in the user's coordinates; `across` is a distance along the section
        in a turned model.
    labels : (str, str)
        What the two axes are.
    title, note : str
        Where the plane lies and how one looks at it; where a slanting section begins and ends.
    """

    number: Indices
    across: Floats
    up: Floats
    labels: tuple[str, str]
    title: str
    note: str = ""


def _of_rock(model: Model) -> Indices:
    """As `Model.index`, without the blocks of air."""
    index = model.index
    return np.where(np.append(model.is_rock, False)[index], index, np.int32(-1))


def bench_at(model: Model, elevation: float) -> int:
    """The level of the bench that an elevation lies on; the toe belongs to the bench, the crest to
    the next one.

    Raises PlanError where the model has no bench there.
    """
    g = model.grid
    toe = g.origin[2] - g.size[2] / 2
    level = _step_of(elevation, toe, g.size[2])
    if not 0 <= level < g.shape[2]:
        top = toe + g.shape[2] * g.size[2]
        raise PlanError(
            f"{model.name} has no bench at elevation {length_text(elevation)}",
            try_this=f"an elevation from {length_text(toe)} to {length_text(top)}",
        )
    return level


def _step_of(place: float, low: float, length: float) -> int:
    """Which block of a length a place lies in, counted from a lower end: a side belongs to the
    block beyond it, also as a list shows it, with one decimal."""
    step = int(np.floor((place - low) / length + 1e-9))
    side = low + (step + 1) * length
    return step + 1 if length_text(side) == length_text(place) else step


def line_at(model: Model, axis: str, coordinate: float) -> int:
    """The row (axis "y") at a northing, or the column (axis "x") at an easting, of a model that
    isn't turned.

    Raises PlanError in a turned model, where no row has one northing, and beside the model.
    """
    g, d = model.grid, "xy".index(axis)
    word, option = (("easting", "--column"), ("northing", "--row"))[d]
    if g.rotation % 360 != 0:
        raise PlanError(
            (
                f"{model.name} is turned by {g.rotation:g} degrees: its {option[2:]}s cross every"
                f" {word} at a slant"
            ),
            try_this=(
                f"{option} N, from 0 to {g.shape[d] - 1}, a section along the model's own axis"
            ),
        )
    low = g.origin[d] - g.size[d] / 2
    index = _step_of(coordinate, low, g.size[d])
    if not 0 <= index < g.shape[d]:
        high = low + g.shape[d] * g.size[d]
        raise PlanError(
            f"{model.name} has no block at {word} {length_text(coordinate)}",
            try_this=f"{word}s from {length_text(low)} to {length_text(high)}",
        )
    return index


def bench(model: Model, level: int) -> Plane:
    """The plan of a bench, in true coordinates also where the model is turned."""
    g = model.grid
    unit = model.units.length
    u, v = np.meshgrid(np.arange(g.shape[0] + 1) - 0.5, np.arange(g.shape[1] + 1) - 0.5)
    east, north, _ = g.world(u, v, 0)
    toe = g.origin[2] + (level - 0.5) * g.size[2]
    return Plane(
        _of_rock(model)[:, :, level].T,
        np.asarray(east),
        np.asarray(north),
        (f"Easting ({unit})", f"Northing ({unit})"),
        f"bench {length_text(toe)} (toe) to {length_text(toe + g.size[2])} {unit} (crest)",
    )


def section(model: Model, axis: str, index: int) -> Plane:
    """The section along row `index` (axis "y", seen along the y axis) or column `index` (axis "x").

    Raises PlanError where the model has no such row or column.
    """
    g, fixed = model.grid, "xy".index(axis)
    along, unit = 1 - fixed, model.units.length
    if not 0 <= index < g.shape[fixed]:
        raise PlanError(
            f"{model.name} has no {('column', 'row')[fixed]} {index}",
            try_this=f"a number from 0 to {g.shape[fixed] - 1}",
        )
    turned = g.rotation % 360 != 0
    # a turned section is measured from its own end
    start = g.size[along] / 2 if turned else g.origin[along]
    u, v = np.meshgrid(
        start + (np.arange(g.shape[along] + 1) - 0.5) * g.size[along],
        g.origin[2] + (np.arange(g.shape[2] + 1) - 0.5) * g.size[2],
    )
    cut = _of_rock(model)[index] if axis == "x" else _of_rock(model)[:, index]
    # to the right lies the axis along the section, so one looks a quarter turn to the left of it
    right = (90.0, 0.0)[along] + g.rotation
    looking = (right - 90) % 360
    if turned:
        label = (
            f"Distance along the model's {'xy'[along]} axis ({unit}), towards bearing"
            f" {right % 360:03.0f}°"
        )
        where = (
            f"section of {('column', 'row')[fixed]} {index}, looking towards bearing"
            f" {looking:03.0f}°"
        )
    else:
        label = (f"Easting ({unit})", f"Northing ({unit})")[along]
        where = (
            f"section at {('easting', 'northing')[fixed]}"
            f" {length_text(g.origin[fixed] + index * g.size[fixed])},"
            f" looking {('west', 'north')[fixed]}"
        )
    return Plane(
        cut.T,
        u,
        v,
        (label, f"Elevation ({unit})"),
        where,
        _ends(model, axis, index) if turned else "",
    )


def _ends(model: Model, axis: str, index: int) -> str:
    """From where to where a section runs, left to right in the picture, in the user's
    coordinates."""
    g = model.grid
    along = (-0.5, g.shape[1 if axis == "x" else 0] - 0.5)
    places = [(float(index), at) if axis == "x" else (at, float(index)) for at in along]
    texts = ["{:,.0f} E, {:,.0f} N".format(*map(float, g.world(i, j, 0)[:2])) for i, j in places]
    return "from " + " to ".join(texts)


def borders(inside: Bools, plane: Plane) -> tuple[Floats, Floats]:
    """The border of a set of cells as one line with gaps (nan), which matplotlib draws at once: a
    closed ring for each outline and hole, so that dashes run on round the corners of small
    cells."""
    gap = np.full(1, np.nan)
    xs, ys = [gap[:0]], [gap[:0]]
    for ring, _ in rings(outline(inside.T)):
        i, j = np.rint(np.concatenate([ring, ring[:1]]) + 0.5).astype(int).T
        xs += [plane.across[j, i], gap]
        ys += [plane.up[j, i], gap]
    return np.concatenate(xs), np.concatenate(ys)
