"""Pictures for a report: the plan of a bench, a section, the pit-by-pit graph.

Each function gives a matplotlib Figure, which `save` writes. Colours go from dark to light in one
direction and lines differ in their strokes, so that a picture says the same in black and white.
"""
from __future__ import annotations

import io
import os
import re
from dataclasses import dataclass
from pathlib import Path
from typing import Any

import numpy as np
import pandas as pd
from matplotlib import colormaps, patheffects
from matplotlib.colors import BoundaryNorm, Colormap, ListedColormap, Normalize
from matplotlib.figure import Figure
from matplotlib.font_manager import FontProperties
from matplotlib.lines import Line2D
from matplotlib.patches import Patch, PathPatch
from matplotlib.path import Path as Outline
from matplotlib.ticker import FuncFormatter
from mpl_toolkits.axes_grid1.anchored_artists import AnchoredSizeBar

from ..base.arrays import Array, Bools, Floats, Ints
from ..base.amounts import THOUSAND
from ..base.errors import PlanError
from ..base.files import whole_file
from ..base.near_words import meant
from ..base.next_command import command
from ..base.units_shown import Scale, factor_text, length_text, scale_of
from ..study.shells import Shells
from ..study.study import Study
from . import plane as planes
from .plane import Plane
from .pit_colours import tones

ROCK_HATCH, ROCK_EDGE = "....", "#9a9a9a"
FENCE_HATCH, _FENCE_EDGE = "xxxx", "#6b6b6b"
_FLAT = 1 / 8  # of its width: a section that is lower is drawn higher
_EASY = 1 / 5  # of its width: how high, about
_MOST_EXAGGERATED = 20
CASING = [patheffects.withStroke(linewidth=3.6, foreground="white")]
# black dots on the darkest colour need one too
_THIN_CASING = [patheffects.withStroke(linewidth=2.4, foreground="white")]
SEPARATED = FuncFormatter(lambda value, _: f"{value:,.10g}")
PLACES = FuncFormatter(lambda value, _: length_text(value))  # coordinates and elevations
_LABELS_AN_INCH = 4.5  # elevations beside a section, one above the other
_MOST_LABELS = 12
_TICKS_AN_INCH = 24
_STEPS = [n * 10**power for power in range(9) for n in (1, 2, 5)]  # benches from label to label
LIGHTEST = 0.9  # of the scale of colours
MANY_WORDS = 8  # words of a text column that get a colour of their own


@dataclass(frozen=True)
class Style:
    """How a plan or a section is drawn.

    Attributes
    ----------
    colour : str
        "shell" (the first pit that has the block), "value" (worth at the base price), or a column
        of the model.
    pit : float or None
        The factor of the pit that is drawn by a thick line; None is 1, or the largest factor where
        1 isn't there.
    exaggeration : float or None
        How much longer a metre up is drawn than a metre along, in sections; None is 1, or a whole
        number in a flat model.
    """

    colour: str = "shell"
    pit: float | None = None
    exaggeration: float | None = None


@dataclass(frozen=True)
class Paint:
    """What gives each block its colour; a block of value nan gets none."""

    values: Floats
    colours: Colormap
    norm: Normalize
    label: str
    ticks: list[tuple[float, str]] | None = None
    beyond: str = "neither"  # which ends of the scale are cut off


def pit_index(shells: Shells, factor: float | None) -> int:
    """Where a factor stands in the series. Raises PlanError where no pit was found at it."""
    wanted = THOUSAND if factor is None else round(factor * THOUSAND)
    if wanted in shells.factors:
        return shells.factors.index(wanted)
    if factor is None:
        return len(shells.factors) - 1
    known = ", ".join(factor_text(k) for k in shells.factors)
    raise PlanError(
        f"there is no pit at factor {factor:g}",
        try_this=(
            f"one of {known}; or put it into factors in [shells] of study.toml, then:"
            f" {command('shells', shells.study.named)}"
        ),
    )


def paint(shells: Shells, colour: str) -> Paint:
    """The colours of the blocks. Raises PlanError where the model has no such column."""
    if colour == "shell":
        return paint_shells(shells)
    if colour == "value":  # what is forbidden is priced beyond all else, which no scale can show
        priced = shells.study.priced
        return paint_numbers(
            np.where(priced.forbidden, np.nan, priced.worth(THOUSAND)),
            f"Worth of a block at factor 1 ({shells.study.currency})",
        )
    blocks, names = shells.study.model.blocks, shells.study.priced.process_names
    if colour == "to" and names and colour not in blocks.columns:
        goes = pd.Series(shells.study.priced.destinations(THOUSAND))
        return paint_words(goes, "Where a block goes at factor 1")
    if colour not in blocks.columns:
        known = [
            "shell",
            "value",
            *(["to"] if names else []),
            *(str(c) for c in blocks.columns if c not in ("ix", "iy", "iz", "row")),
        ]
        raise PlanError(
            f"there is no column {colour!r} to colour by{meant(colour, known)}",
            table=shells.study.model.name,
        )
    column = blocks[colour]
    if pd.api.types.is_numeric_dtype(column):
        return paint_numbers(column.to_numpy(float), with_unit(shells.study, colour))
    return paint_words(column.astype(str), colour)


def paint_shells(shells: Shells) -> Paint:
    """A colour for the first pit of each block, the darker the lower its factor; spaced by the
    tonnes that each pit adds."""
    count = len(shells.factors)
    rock = np.bincount(shells.shell, shells.study.model.blocks["tonnes"], count + 1)[:count]
    # the lightest yellow is left out: on paper it can't be told from rock that no pit has
    table = ListedColormap(shades(LIGHTEST * np.array(tones(rock.tolist()))))
    ticks = [(float(i), factor_text(k)) for i, k in enumerate(shells.factors)]
    values = np.where(shells.shell < count, shells.shell, np.nan).astype(float)
    return Paint(
        values,
        table,
        BoundaryNorm(np.arange(count + 1) - 0.5, count),
        "First pit with the block (factor)\nColours are spaced by tonnes",
        ticks,
    )


def with_unit(study: Study, column: str) -> str:
    """The name of a column, and where it has a metal's grade the unit of that."""
    units = {
        each["grade_unit"] for each in study.manifest["metals"].values() if each["grade"] == column
    }
    return f"{column} ({units.pop()})" if len(units) == 1 else column


def shades(at: Floats) -> Floats:
    """Colours of viridis at places from 0 to 1, also between its 256 steps: pits of few tonnes lie
    close to one another."""
    steps = colormaps["viridis"](np.linspace(0, 1, 256))[:, :3]
    found: Floats = np.stack(
        [np.interp(at, np.linspace(0, 1, 256), part) for part in steps.T], axis=-1
    )
    return found


def paint_numbers(values: Floats, label: str) -> Paint:
    """Dark is high. The scale leaves out the outermost hundredths, so that one rich block doesn't
    make all others pale."""
    known = values[np.isfinite(values)]
    low, high = np.percentile(known, [1, 99]) if len(known) else (0.0, 1.0)
    if low == high:
        low, high = (
            (float(known.min()), float(known.max()))
            if len(known) and known.min() < known.max()
            else (low - 0.5, high + 0.5)
        )
    ends = (bool((known < low).any()), bool((known > high).any()))
    beyond = {
        (False, False): "neither",
        (True, False): "min",
        (False, True): "max",
        (True, True): "both",
    }[ends]
    return Paint(values, colormaps["YlGnBu"], Normalize(low, high), label, None, beyond)


def paint_words(column: "pd.Series[str]", label: str) -> Paint:
    """A colour for each word, the most frequent first where there are too many."""
    words = column.value_counts().index[:MANY_WORDS].sort_values().tolist()
    values = (
        column.map({w: float(i) for i, w in enumerate(words)}).fillna(len(words)).to_numpy(float)
    )
    names = words + (["others"] if (values == len(words)).any() else [])
    table = ListedColormap(
        colormaps["viridis"](np.linspace(0.15, 0.95, max(len(names), 2)))[: len(names)]
    )
    return Paint(
        values,
        table,
        BoundaryNorm(np.arange(len(names) + 1) - 0.5, len(names)),
        label,
        [(float(i), str(w)) for i, w in enumerate(names)],
    )


def middle_of(shells: Shells, style: Style = Style()) -> tuple[float, int]:
    """Where to look where nothing is asked for: the toe of the bench halfway down the outlined pit,
    and its row with most blocks."""
    model = shells.study.model
    inside = shells.dug <= pit_index(shells, style.pit)
    blocks = model.blocks[inside] if inside.any() else model.blocks
    level = int(np.median(blocks["iz"].unique()))
    return model.grid.origin[2] + (level - 0.5) * model.grid.size[2], fullest_row(
        np.bincount(blocks["iy"], minlength=model.grid.shape[1])
    )


def fullest_row(amounts: Array) -> int:
    """The row of the model with most of something; its first and last only where no other has any,
    since no wall is held beyond them."""
    inner = amounts[1:-1]
    return 1 + int(np.argmax(inner)) if (inner > 0).any() else int(np.argmax(amounts))


def exaggeration_of(cut: Plane, exaggeration: float | None = None) -> float:
    """How much longer heights are drawn in a section: as given, or so that a flat one is no
    strip."""
    if exaggeration is not None:
        return exaggeration
    wide, high = float(np.ptp(cut.across)), float(np.ptp(cut.up))
    return (
        1.0
        if high >= wide * _FLAT
        else float(min(max(round(wide * _EASY / high), 2), _MOST_EXAGGERATED))
    )


def plan(shells: Shells, elevation: float, style: Style = Style()) -> Figure:
    """The plan of the bench at an elevation (its toe, or anything below its crest), in true
    coordinates.

    Raises PlanError where there is no such bench, column or pit.
    """
    model = shells.study.model
    figure, axes = draw(shells, planes.bench(model, planes.bench_at(model, elevation)), style, 1.0)
    add_north_and_scale(axes, model.units.length)
    return figure


def section(
    shells: Shells,
    *,
    north: float | None = None,
    east: float | None = None,
    row: int | None = None,
    column: int | None = None,
    style: Style = Style(),
) -> Figure:
    """A vertical section at a northing or easting (models that aren't turned), or along a row or
    column of the model.

    Raises PlanError where the model isn't cut there, and where not one place alone is given.
    """
    model = shells.study.model
    places = [
        (axis, at, is_index)
        for axis, at, is_index in (
            ("y", north, False),
            ("x", east, False),
            ("y", row, True),
            ("x", column, True),
        )
        if at is not None
    ]
    if len(places) != 1:
        raise PlanError(
            "a section lies at one place", try_this="one of north, east, row and column"
        )
    axis, at, is_index = places[0]
    cut = planes.section(
        model, axis, int(at) if is_index else planes.line_at(model, axis, float(at))
    )
    figure, axes = draw(shells, cut, style, exaggeration_of(cut, style.exaggeration))
    add_benches(figure, axes, cut)
    return figure


def add_benches(figure: Figure, axes: Any, cut: Plane) -> None:
    """The toes of benches beside a section: a tick at each, labels and lines as room allows."""
    toes = np.unique(cut.up)
    high = figure.get_figheight() * axes.get_position().height  # inches
    axes.set_yticks(bench_ticks(toes, min(_MOST_LABELS, max(2, int(high * _LABELS_AN_INCH)))))
    if len(toes) <= high * _TICKS_AN_INCH:
        axes.set_yticks(toes, minor=True)  # a tick at each bench
    axes.grid(axis="y", color="#888888", linewidth=0.3)


def bench_ticks(toes: Floats, most: int) -> Floats:
    """The benches that get a label: every first, second, fifth, tenth and so on, those of the
    roundest elevations.

    Parameters
    ----------
    toes : float array
        Elevations of the benches' toes and of the last crest, ascending and evenly apart.
    most : int
        How many there is room for, at least 2.
    """
    step = next(n for n in _STEPS if len(toes) <= n * most)
    starts = toes[: max(1, min(step, len(toes) - step))]  # so that there are two
    past = np.round(starts / (toes[1] - toes[0]), 6) % step  # of a round number of benches
    return toes[int(np.argmin(past)) :: step]


def draw(shells: Shells, cut: Plane, style: Style, exaggeration: float) -> tuple[Figure, Any]:
    """The blocks of a plane, the outlines of pits, the key and the titles."""
    colours, fence = paint(shells, style.colour), shells.study.priced.forbidden
    figure, axes, beside = sheet(float(np.ptp(cut.across)), float(np.ptp(cut.up)) * exaggeration)
    shown = np.where(cut.number >= 0, colours.values[cut.number], np.nan)
    image = axes.pcolormesh(cut.across, cut.up, shown, cmap=colours.colours, norm=colours.norm)
    shut = (cut.number >= 0) & fence[cut.number]
    hatch(axes, (cut.number >= 0) & np.isnan(shown) & ~shut, cut)
    handles = add_outlines(axes, shells, cut, pit_index(shells, style.pit))
    if style.colour == "shell":
        handles.append(
            Patch(facecolor="white", edgecolor=ROCK_EDGE, hatch=ROCK_HATCH, label="Rock in no pit")
        )
    handles += add_fence(axes, shut, cut)
    add_colour_bar(figure, beside, image, colours)
    axes.set_aspect(exaggeration)
    axes.set_xlabel(cut.labels[0])
    axes.set_ylabel(cut.labels[1])
    for each in (axes.xaxis, axes.yaxis):
        each.set_major_formatter(PLACES)
    axes.locator_params(axis="x", nbins=7)
    figure.legend(handles=handles, loc="lower center", ncol=4, frameon=False)
    shows = {"shell": "first pit with each block", "value": "worth of each block"}
    what = shows.get(style.colour, style.colour)
    title = f"{sentence(cut.title)}: {what}{second_line(cut, exaggeration)}"
    axes.set_title(title, fontsize=12)
    return figure, axes


def sentence(words: str) -> str:
    """Words as a title begins with them."""
    return words[:1].upper() + words[1:]


def second_line(cut: Plane, exaggeration: float) -> str:
    """What stands below a title: from where to where a slanting section runs, and by how much
    heights are drawn longer."""
    words = [cut.note] * bool(cut.note) + [f"vertical exaggeration {exaggeration:g}"] * (
        exaggeration != 1
    )
    return "\n" + ", ".join(words) if words else ""


def sheet(wide: float, high: float) -> tuple[Figure, Any, Any]:
    """A sheet for a picture of these lengths, with room for labels: the figure, the axes, and
    those of the scale beside.

    Measures are inches; the picture is as large as fits into 7.6 x 8 inches.
    """
    scale = min(7.6 / wide, 8.0 / high)
    width, height = wide * scale, high * scale
    left, right, bottom, top = 1.15, 1.35, 1.05, 0.65
    bar = max(height, 2.5)  # a long flat section has a scale that is higher than it
    spare = bar - height
    whole_width, whole_height = max(width + left + right, 8.0), height + bottom + top + spare
    left += (whole_width - left - right - width) / 2
    figure = Figure(figsize=(whole_width, whole_height))
    low = bottom + spare / 2
    axes = figure.add_axes(
        (left / whole_width, low / whole_height, width / whole_width, height / whole_height)
    )
    beside = figure.add_axes(
        (
            (left + width + 0.18) / whole_width,
            bottom / whole_height,
            0.22 / whole_width,
            bar / whole_height,
        )
    )
    return figure, axes, beside


def add_colour_bar(figure: Figure, beside: Any, image: Any, colours: Paint) -> None:
    """The scale beside the picture; of many factors as many are named as there is room for, with
    the first and the last."""
    bar = figure.colorbar(image, cax=beside, extend=colours.beyond, label=colours.label)
    beside.minorticks_off()
    if colours.ticks is None:
        beside.yaxis.set_major_formatter(SEPARATED)
    else:
        room = max(8, int(figure.get_figheight() * 4) - 7)
        *more, last = colours.ticks
        step = -(-len(colours.ticks) // room)
        ticks = [*more[: len(more) - step + 1 : step], last]
        bar.set_ticks([at for at, _ in ticks], labels=[text for _, text in ticks])


def add_outlines(axes: Any, shells: Shells, cut: Plane, chosen: int) -> list[Any]:
    """The chosen pit by a thick line, the smallest and the largest by thin ones of other strokes;
    gives their handles."""
    there = cut.number >= 0
    axes.plot(*planes.borders(there, cut), color="#555555", linewidth=0.6)
    handles = []
    # at low factors no pit may pay
    first, last = (
        min(int(shells.shell.min()), len(shells.factors) - 1),
        len(shells.factors) - 1,
    )
    for i, width, stroke, word in (
        (chosen, 2.0, "-", "Pit"),
        (first, 1.2, ":", "Smallest pit,"),
        (last, 1.2, "--", "Largest pit,"),
    ):
        inside = there & (shells.shell[cut.number] <= i)
        label = f"{word} at factor {factor_text(shells.factors[i])}" + (
            "" if inside.any() else ": not here"
        )
        if word == "Pit" or (i != chosen and inside.any()):
            axes.plot(
                *planes.borders(inside, cut),
                color="black",
                linewidth=width,
                linestyle=stroke,
                path_effects=CASING if word == "Pit" else _THIN_CASING,
                zorder=3 if word == "Pit" else 2.5,
            )
            handles.append(
                Line2D([], [], color="black", linewidth=width, linestyle=stroke, label=label)
            )
    return handles


def add_fence(axes: Any, cells: Bools, cut: Plane) -> list[Any]:
    """Crosses over what may not be dug, upon whatever colour it has; gives their handle, or none
    where nothing is forbidden here."""
    if not cells.any():
        return []
    hatch(axes, cells, cut, (FENCE_HATCH, _FENCE_EDGE), "none")
    return [
        Patch(facecolor="white", edgecolor=_FENCE_EDGE, hatch=FENCE_HATCH, label="May not be dug")
    ]


def hatch(
    axes: Any,
    cells: Bools,
    cut: Plane,
    pattern: tuple[str, str] = (ROCK_HATCH, ROCK_EDGE),
    face: str = "white",
) -> None:
    """A pattern over a set of cells, by default dots: one outline for each run of cells in a
    row."""
    edge = np.diff(np.pad(cells, ((0, 0), (1, 1))).astype(np.int8), axis=1)
    (rows, first), (_, end) = np.nonzero(edge == 1), np.nonzero(edge == -1)
    if not len(rows):
        return
    corners = [(rows, first), (rows, end), (rows + 1, end), (rows + 1, first), (rows, first)]
    points = np.stack(
        [np.stack([cut.across[c], cut.up[c]], axis=-1) for c in corners], axis=1
    ).reshape(-1, 2)
    codes = np.tile(
        [Outline.MOVETO, Outline.LINETO, Outline.LINETO, Outline.LINETO, Outline.CLOSEPOLY],
        len(rows),
    )
    axes.add_patch(
        PathPatch(
            Outline(points, codes),
            facecolor=face,
            edgecolor=pattern[1],
            hatch=pattern[0],
            linewidth=0,
            zorder=0.5 if face == "white" else 1.5,
        )
    )


def add_north_and_scale(axes: Any, unit: str = "m") -> None:
    """An arrow to the north, which is up in every plan, and a bar of a round length in a unit."""
    low, high = axes.get_xlim()
    fifth = (high - low) / 5
    power = 10.0 ** np.floor(np.log10(fifth))
    length = power * max(k for k in (1, 2, 5) if k * power <= fifth)
    axes.add_artist(
        AnchoredSizeBar(
            axes.transData,
            length,
            f"{length:,g} {unit}",
            "lower right",
            pad=0.4,
            borderpad=0.6,
            sep=4,
            size_vertical=(high - low) / 300,
            fontproperties=FontProperties(size=9),
        )
    )
    axes.annotate(
        "N",
        xy=(0.97, 0.97),
        xytext=(0.97, 0.87),
        xycoords="axes fraction",
        ha="center",
        va="center",
        fontsize=12,
        fontweight="bold",
        arrowprops={"arrowstyle": "-|>", "linewidth": 2, "color": "black"},
        bbox={
            "boxstyle": "round,pad=0.15",
            "facecolor": "white",
            "edgecolor": "none",
            "alpha": 0.8,
        },
    )


_LINES = (
    ("worth_at_base", "Undiscounted", "-", "s", "black"),
    ("npv_best", "Discounted, pit after pit (best case)", "--", "o", "#1b5e8c"),
    ("npv_worst", "Discounted, bench after bench (worst case)", ":", "^", "#a3341f"),
)


def pit_by_pit(
    table: pd.DataFrame, currency: str = "$", name: str = "", weight: str = "t"
) -> Figure:
    """The graph that a pit is chosen from: ore and waste of each pit as bars, its worth at the base
    price as lines.

    Parameters
    ----------
    table : DataFrame
        As `Shells.table` gives it: factor, ore_t, waste_t in tonnes, worth_at_base, npv_best,
        npv_worst in `currency`.
    currency, name : str
        The unit of money for the axis, and whose pits these are for the title.
    weight : str
        The unit of rock.
    """
    figure = Figure(figsize=(10.5, 6.2))
    axes = figure.add_axes((0.085, 0.27, 0.825, 0.67))
    at = np.arange(len(table))
    rock = scale_of(table["ore_t"] + table["waste_t"], weight)
    add_ore(axes, at, table, rock.divisor)
    axes.bar(
        at,
        table["waste_t"] / rock.divisor,
        bottom=table["ore_t"] / rock.divisor,
        color="#f1efe9",
        edgecolor="#777777",
        hatch="///",
        linewidth=0.4,
        width=0.8,
        label="Waste",
    )
    step = -(-len(at) // 24)
    axes.set_xticks(
        at[::step],
        [factor_text(round(f * THOUSAND)) for f in table["factor"][::step]],
        rotation=90 if len(at) > 12 else 0,
    )
    axes.set_xlabel("Factor of the price")
    axes.set_ylabel(f"Rock in the pit ({rock.unit})")
    axes.set_ylim(0, float((table["ore_t"] + table["waste_t"]).max()) / rock.divisor * 1.05 or 1.0)
    add_worths(axes.twinx(), axes, table, at, currency)
    title = "Pit by pit: ore, waste and worth at each factor of the price"
    axes.set_title(f"{title}\n{name}" if name else title, fontsize=12)
    return figure


def processes_in(table: pd.DataFrame) -> list[str]:
    """The processes of which a table has columns, as `Cells.by_process` names them; none where all
    ore goes to one mill.

    >>> processes_in(pd.DataFrame(columns=["ore_t", "process_heap leach_ore_t"]))
    ['heap leach']
    """
    found = (re.fullmatch("process_(.*)_ore_t", str(column)) for column in table.columns)
    return [each[1] for each in found if each]


def add_ore(axes: Any, at: Array, table: pd.DataFrame, divisor: float) -> None:
    """Bars of ore; of several processes one above the other, each in a lighter grey."""
    names, bottom = processes_in(table), np.zeros(len(table))
    columns = [(f"process_{name}_ore_t", f"Ore to {name}") for name in names] or [("ore_t", "Ore")]
    for i, (column, label) in enumerate(columns):
        ore = table[column].to_numpy(float) / divisor
        axes.bar(
            at,
            ore,
            bottom=bottom,
            color=f"{0.3 + 0.5 * i / (len(names) - 1):.2f}" if names else "#8a8a8a",
            edgecolor="black",
            linewidth=0.4,
            width=0.8,
            label=label,
        )
        bottom = bottom + ore


def add_worths(right: Any, left: Any, table: pd.DataFrame, at: Ints, currency: str) -> None:
    """The lines of worth with a ring at the greatest of each, and one key for bars and lines."""
    money: Scale = scale_of(table["worth_at_base"], currency)
    for column, label, stroke, mark, colour in _LINES:
        if column not in table:
            continue
        worth = table[column].to_numpy(float) / money.divisor
        best = int(np.argmax(worth))
        right.plot(
            at,
            worth,
            linestyle=stroke,
            marker=mark,
            markersize=4,
            color=colour,
            linewidth=1.6,
            path_effects=CASING,
            label=(
                f"{label}; greatest at"
                f" {factor_text(round(float(table['factor'].iloc[best]) * THOUSAND))}"
            ),
        )
        right.plot(
            at[best],
            worth[best],
            marker="o",
            markersize=11,
            markerfacecolor="none",
            markeredgecolor=colour,
            linestyle="none",
        )
    all_worths = table[[c for c, *_ in _LINES if c in table]].to_numpy(float) / money.divisor
    low, high = min(0.0, float(all_worths.min())), max(0.0, float(all_worths.max()))
    right.set_ylim(low * 1.05, high * 1.05 or 1.0)
    right.set_ylabel(f"Worth at factor 1 ({money.unit})")
    for each in (left.yaxis, right.yaxis):
        each.set_major_formatter(SEPARATED)
    handles = [h for a in (right, left) for h in a.get_legend_handles_labels()[0]]
    left.legend(
        handles,
        [h.get_label() for h in handles],
        loc="upper center",
        bbox_to_anchor=(0.5, -0.17),
        ncol=2,
        frameon=False,
    )


def png_of(figure: Figure, dpi: int = 120) -> io.BytesIO:
    """A figure with all that belongs to it, as a legend, as a file of pixels in memory."""
    found = io.BytesIO()
    figure.savefig(found, format="png", dpi=dpi, bbox_inches="tight")
    found.seek(0)
    return found


def save(figure: Figure, path: str | os.PathLike[str], dpi: int = 120) -> Path:
    """Writes a figure as the name's ending says (.png, .pdf, .svg).

    Raises OSError where the folder can't be written.
    """
    with whole_file(path) as part:
        figure.savefig(part, dpi=dpi)
    return Path(path)
