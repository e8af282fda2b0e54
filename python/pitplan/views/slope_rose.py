"""The rose of the slopes: the angles of walls all round, asked and built."""
from __future__ import annotations

import math
from typing import TYPE_CHECKING

from matplotlib.figure import Figure

if TYPE_CHECKING:
    from ..model.grid import Grid
    from ..slopes.slopes import Slopes


def rose(slopes: Slopes, grid: Grid) -> Figure:
    """The angles over the bearings: asked dashed, built drawn through.

    Parameters
    ----------
    slopes : Slopes
    grid : Grid
        Whose blocks they are built of.
    """
    patterns, outlines = slopes.patterns(grid), slopes.outlines(grid)
    figure = Figure(figsize=(7, 7))
    axes = figure.add_subplot(projection="polar")
    axes.set_theta_zero_location("N")
    axes.set_theta_direction(-1)
    bearings = [math.radians(b) for b in range(361)]
    lowest = 90.0
    for i, (name, pattern) in enumerate(patterns.items()):
        asked, built = (
            [slope(b) for b in range(361)] for slope in (pattern.wall.slope, outlines[name].slope)
        )
        lowest = min(lowest, *asked, *built)
        axes.plot(
            bearings,
            built,
            color=f"C{i}",
            linewidth=1.8,
            label=f"{name}: built, {len(pattern.offsets)} offsets",
        )
        axes.plot(
            bearings,
            asked,
            color=f"C{i}",
            linewidth=1.2,
            linestyle=(0, (4, 3)),
            label=f"{name}: asked",
        )
    axes.set_rlim(max(0.0, 5 * math.floor(lowest / 5) - 5), None)
    axes.set_xticks(
        [math.radians(b) for b in range(0, 360, 45)],
        ["N", "45", "E", "135", "S", "225", "W", "315"],
    )
    axes.set_title("Overall slope of the walls by bearing, in degrees")
    axes.legend(loc="upper center", bbox_to_anchor=(0.5, -0.06), ncol=2, frameon=False)
    return figure
