"""The plan of a bench with a design and the best pit: what both have, what the design leaves, what
it takes beyond."""
from __future__ import annotations

from typing import TYPE_CHECKING, Any

import numpy as np
from matplotlib.figure import Figure
from matplotlib.lines import Line2D
from matplotlib.patches import Patch

from ..base.arrays import Bools
from ..base.units_shown import factor_text
from . import plane as planes
from .pictures import CASING, PLACES, add_north_and_scale

if TYPE_CHECKING:
    from ..model.model import Model
    from ..plans.compare import Comparison

# Of each kind of cell: its colour and its hatch, so that the picture says the same in black and
# white.
_BOTH, _LEFT, _OVER = ("#dcdcdc", ""), ("#9ecae1", "///"), ("#fdae6b", "...")
_MOST_INCHES = (7.6, 8.0)


def widest_bench(comparison: Comparison) -> float:
    """The bench on which the design and the best pit differ by most tonnes."""
    benches = comparison.benches
    return (
        float(benches.bench[(benches.left_t + benches.over_t).idxmax()])
        if len(benches)
        else float("nan")
    )


def plan(model: Model, comparison: Comparison, elevation: float) -> Figure:
    """The plan of the bench at an elevation, in true coordinates.

    The best pit's outline is a full line, the design's a dashed one. Raises PlanError where the
    model has no such bench.
    """
    cut = planes.bench(model, planes.bench_at(model, elevation))
    there = cut.number >= 0
    held, best = (there & mask[cut.number] for mask in (comparison.design.held, comparison.optimum))
    (left, right), (low, top) = _frame(held | best, cut)
    wide, high = right - left, top - low
    scale = min(_MOST_INCHES[0] / wide, _MOST_INCHES[1] / high)
    width, height = max(wide * scale + 1.6, 8.0), high * scale + 2.3
    figure = Figure(figsize=(width, height))
    axes = figure.add_axes(
        (
            (width - wide * scale) / 2 / width + 0.03,
            1.5 / height,
            wide * scale / width,
            high * scale / height,
        )
    )
    for cells, (colour, hatch) in (
        (held & best, _BOTH),
        (best & ~held, _LEFT),
        (held & ~best, _OVER),
    ):
        _fill(axes, cells, cut, colour, hatch)
    axes.plot(*planes.borders(there, cut), color="#777777", linewidth=0.6)
    axes.plot(*planes.borders(best, cut), color="black", linewidth=2.0, path_effects=CASING)
    axes.plot(*planes.borders(held, cut), color="#b2182b", linewidth=1.6, linestyle=(0, (4, 1.5)))
    axes.set_aspect("equal")
    axes.set_xlim(left, right)
    axes.set_ylim(low, top)
    axes.set_xlabel(cut.labels[0])
    axes.set_ylabel(cut.labels[1])
    for each in (axes.xaxis, axes.yaxis):
        each.set_major_formatter(PLACES)
    axes.locator_params(axis="x", nbins=6)
    add_north_and_scale(axes, model.units.length)
    axes.set_title(
        (
            f"{comparison.design.name} beside the best pit at factor {factor_text(comparison.factor)}:"
            f" {cut.title}"
        ),
        fontsize=11,
    )
    figure.legend(handles=_key(held, best), loc="lower center", ncol=3, frameon=False)
    return figure


def _frame(cells: Bools, cut: planes.Plane) -> tuple[tuple[float, float], tuple[float, float]]:
    """From where to where a picture of some cells goes, in x and in y, with a margin; of none, over
    the whole plan."""
    at = np.argwhere(cells)
    if not len(at):
        return (float(cut.across.min()), float(cut.across.max())), (
            float(cut.up.min()),
            float(cut.up.max()),
        )
    corners = np.concatenate([at + step for step in ((0, 0), (0, 1), (1, 0), (1, 1))])
    spans = []
    for places in (cut.across, cut.up):
        found = places[corners[:, 0], corners[:, 1]]
        margin = 0.12 * float(np.ptp(found))
        spans.append((float(found.min()) - margin, float(found.max()) + margin))
    return spans[0], spans[1]


def _fill(axes: Any, cells: Bools, cut: planes.Plane, colour: str, hatch: str) -> None:
    """Colours some cells: one polygon for each run of cells in a row."""
    from matplotlib.collections import PolyCollection

    edge = np.diff(np.pad(cells, ((0, 0), (1, 1))).astype(np.int8), axis=1)
    (rows, first), (_, end) = np.nonzero(edge == 1), np.nonzero(edge == -1)
    corners = np.stack(
        [
            np.stack([cut.across[j, i], cut.up[j, i]], axis=-1)
            for j, i in ((rows, first), (rows, end), (rows + 1, end), (rows + 1, first))
        ],
        axis=1,
    )
    axes.add_collection(
        PolyCollection(
            list(corners),
            facecolor=colour,
            edgecolor="#606060" if hatch else colour,
            hatch=hatch or None,
            linewidth=0 if hatch else 0.5,
        )
    )


def _key(held: Bools, best: Bools) -> list[Any]:
    """What colours and lines are."""

    def patch(cells: Bools, kind: tuple[str, str], word: str) -> Patch:
        return Patch(
            facecolor=kind[0],
            hatch=kind[1] or None,
            edgecolor="#606060",
            linewidth=0.4,
            label=word + ("" if cells.any() else ": none here"),
        )

    return [
        patch(held & best, _BOTH, "In both"),
        patch(best & ~held, _LEFT, "Left by the design"),
        patch(held & ~best, _OVER, "Beyond the best pit"),
        Line2D([], [], color="black", linewidth=2.0, label="Best pit"),
        Line2D([], [], color="#b2182b", linewidth=1.6, linestyle=(0, (4, 1.5)), label="Design"),
    ]
