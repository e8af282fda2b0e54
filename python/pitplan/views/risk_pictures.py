"""A section by likelihood: how many of the realisations dig a block."""
from __future__ import annotations

from typing import TYPE_CHECKING

import numpy as np

from ..base.amounts import THOUSAND
from ..base.units_shown import share_text
from .plane import borders, section as cut_of

if TYPE_CHECKING:
    from matplotlib.figure import Figure

    from ..plans.risk import Risk

_LINES = ((0.1, ":"), (0.5, "-"), (0.9, "--"))


def section(risk: Risk, factor: int = THOUSAND, row: int | None = None) -> Figure:
    """A section across the model's y axis, each block coloured by its likelihood, with the outlines
    of the pits of at least 10, 50 and 90 %.

    Parameters
    ----------
    factor : int
        In thousandths.
    row : int, optional
        Of the grid along its y axis. Default: the one with the most likely rock.
    """
    from matplotlib import colormaps
    from matplotlib.lines import Line2D
    from matplotlib.patches import Patch
    from .pictures import (
        CASING,
        ROCK_EDGE,
        ROCK_HATCH,
        PLACES,
        add_fence,
        exaggeration_of,
        fullest_row,
        hatch,
        second_line,
        sentence,
        sheet,
    )

    likelihood, model = risk.likelihood(factor), risk.study.model
    if row is None:
        along = model.blocks.iy.to_numpy()
        row = fullest_row(np.bincount(along, likelihood, model.grid.shape[1]))
    cut = cut_of(model, "y", row)
    exaggeration = exaggeration_of(cut)
    there = cut.number >= 0
    shut = there & risk.study.priced.forbidden[cut.number]
    values = np.where(there, likelihood[cut.number], np.nan)
    figure, axes, beside = sheet(float(np.ptp(cut.across)), float(np.ptp(cut.up)) * exaggeration)
    image = axes.pcolormesh(
        cut.across,
        cut.up,
        np.where(values > 0, values, np.nan),
        cmap=colormaps["cividis_r"],
        vmin=0,
        vmax=1,
    )
    hatch(axes, there & ~(values > 0) & ~shut, cut)
    axes.plot(*borders(there, cut), color="#555555", linewidth=0.6)
    handles = []
    for share, stroke in _LINES:
        pen = {"color": "black", "linestyle": stroke}
        line = borders(there & risk.pit(share, factor)[cut.number], cut)
        axes.plot(*line, linewidth=1.4, path_effects=CASING, **pen)
        handles.append(Line2D([], [], label=f"Blocks of at least {share:.0%}", **pen))
    rock = {"facecolor": "white", "edgecolor": ROCK_EDGE, "hatch": ROCK_HATCH}
    handles.append(Patch(label="Rock in no pit", **rock))
    handles += add_fence(axes, shut, cut)
    figure.colorbar(image, cax=beside, label=f"Likelihood over {risk.count} realisations")
    axes.set_aspect(exaggeration)
    heading = f"{sentence(cut.title)}: likelihood of each block at factor {share_text(factor)}"
    axes.set_title(heading + second_line(cut, exaggeration), fontsize=12)
    for each in (axes.xaxis, axes.yaxis):
        each.set_major_formatter(PLACES)
    axes.set(xlabel=cut.labels[0], ylabel=cut.labels[1])
    figure.legend(handles=handles, loc="lower center", ncol=4, frameon=False)
    return figure
