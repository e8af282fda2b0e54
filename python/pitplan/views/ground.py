"""A model from above, before any pit: its ground, its highest grades, or what stands at the
ground."""
from __future__ import annotations

from typing import Any

import numpy as np
import pandas as pd
from matplotlib import colormaps
from matplotlib.colors import LightSource, ListedColormap
from matplotlib.figure import Figure
from matplotlib.patches import Patch

from ..base.errors import PlanError
from ..base.near_words import meant
from ..model.model import Model
from .pictures import PLACES

_GROUND = "ground"
_MOST_WORDS = 20  # that are named beside the picture
_LAND = ListedColormap(colormaps["terrain"](np.linspace(0.27, 0.93, 128)))  # without its sea
_SHADE = ListedColormap([(0, 0, 0, alpha) for alpha in np.linspace(0, 0.6, 64)])


def from_above(model: Model, what: str = _GROUND, unit: str = "m", grade_unit: str = "") -> Figure:
    """Draws a model from above.

    Parameters
    ----------
    model : Model
    what : str
        `_GROUND`, its elevation; or a column: of numbers the greatest of each column of blocks, of
        words those at the ground.
    unit : str
        Of the coordinates.
    grade_unit : str
        Of the numbers of a column; "" where it isn't known.

    Raises
    ------
    PlanError
        Where there is no such column.
    """
    blocks, (nx, ny, _) = model.blocks, model.grid.shape
    if what != _GROUND and what not in blocks.columns:
        raise PlanError(f"there is no column {what!r}{meant(what, map(str, blocks.columns))}")
    rock = blocks.tonnes.to_numpy() > 0
    at, iz = (blocks.ix * ny + blocks.iy).to_numpy(), blocks.iz.to_numpy()
    high = np.full(nx * ny, -1)
    np.maximum.at(high, at[rock], iz[rock])
    ix, iy = np.meshgrid(np.arange(nx + 1) - 0.5, np.arange(ny + 1) - 0.5, indexing="ij")
    east, north, _ = model.grid.world(ix, iy, 0)
    figure = Figure(figsize=(5.6, 4.7), layout="constrained")
    axes = figure.subplots()
    if what == _GROUND:
        elevation = np.where(high >= 0, model.grid.world(0, 0, high + 0.5)[2], np.nan)
        drawn = _draw_ground(axes, (east, north), elevation.reshape(nx, ny), model.grid.size)
        label = f"elevation of the ground ({unit})"
        figure.colorbar(drawn, ax=axes, label=label, shrink=0.8, format=PLACES)
    elif pd.api.types.is_numeric_dtype(blocks[what]):
        values = np.full(nx * ny, np.nan)
        np.fmax.at(values, at[rock], blocks[what].to_numpy(float)[rock])
        drawn = axes.pcolormesh(east, north, values.reshape(nx, ny), cmap="magma_r", shading="flat")
        named = f"{what} ({grade_unit})" if grade_unit else what
        label = f"greatest {named} of each column of blocks"
        figure.colorbar(drawn, ax=axes, label=label, shrink=0.8)
    else:
        here = rock & (iz == high[at])
        _draw_words(axes, (east, north), (at[here], blocks[what][here]), (nx, ny))
    axes.set_aspect("equal")
    axes.tick_params(labelsize=8)
    axes.tick_params(axis="x", labelrotation=30)
    axes.set_xlabel(f"Easting ({unit})")
    axes.set_ylabel(f"Northing ({unit})")
    axes.xaxis.set_major_formatter(PLACES)
    axes.yaxis.set_major_formatter(PLACES)
    return figure


def _draw_ground(axes: Any, corners: Any, high: Any, size: Any) -> Any:
    """The elevation of the ground in colours, with the shade of a sun in the north-west."""
    drawn = axes.pcolormesh(*corners, high, cmap=_LAND, shading="flat")
    solid = np.where(np.isnan(high), np.nanmin(high), high)
    light = LightSource(315, 45).hillshade(
        solid.T, vert_exag=1.5, dx=size[0], dy=size[1], fraction=1.0
    )
    shade = np.ma.masked_where(np.isnan(high), 1 - light.T)  # type: ignore[no-untyped-call]
    axes.pcolormesh(*corners, shade, cmap=_SHADE, shading="flat")
    return drawn


def _draw_words(axes: Any, corners: Any, ground: tuple[Any, Any], shape: tuple[int, int]) -> None:
    """The words of a column at the ground, each in a colour of its own."""
    at, words = ground
    codes, names = pd.factorize(words.astype(str).str.strip(), sort=True)
    values = np.full(shape[0] * shape[1], np.nan)
    values[at] = codes
    colours = colormaps["tab20" if len(names) > 8 else "Set2"].resampled(max(len(names), 1))
    axes.pcolormesh(
        *corners,
        values.reshape(shape),
        cmap=colours,
        vmin=-0.5,
        vmax=len(names) - 0.5,
        shading="flat",
    )
    axes.legend(
        handles=[Patch(color=colours(i), label=n or "empty") for i, n in enumerate(names)][
            :_MOST_WORDS
        ],
        title=f"{words.name} at the ground",
        loc="center left",
        bbox_to_anchor=(1, 0.5),
        frameon=False,
    )
