"""A schedule in pictures: its years as bars beside the rates and the bound, and a bench or a
section by year."""
from __future__ import annotations

import textwrap
from collections.abc import Iterable
from typing import Any

import numpy as np
import pandas as pd
from matplotlib import patheffects
from matplotlib.colors import BoundaryNorm, ListedColormap
from matplotlib.figure import Figure
from matplotlib.patches import Patch

from ..base.amounts import THOUSAND
from ..base.units_shown import Scale, printed_scale, scale_of
from ..schedule.plan import Schedule
from . import plane as planes
from .pictures import (
    CASING,
    LIGHTEST,
    ROCK_EDGE,
    ROCK_HATCH,
    SEPARATED,
    Paint,
    add_benches,
    add_colour_bar,
    add_north_and_scale,
    add_ore,
    exaggeration_of,
    fullest_row,
    hatch,
    processes_in,
    second_line,
    shades,
    sheet,
)
from .plane import Plane
from .study_names import name_of

_WASTE, _FLOW, _DISCOUNTED = "#f1efe9", "#c9d9e6", "#5b86a8"
_MINING, _WORTH = "#a3341f", "black"
# of the mill, or of each process
_MILLS = ("#1b5e8c", "#7a4a9e", "#2e7d32", "#b26a00", "#5d4037", "#00838f", "#ad1457")
_SHEET = (10.5, 6.5)  # inches: as it is saved it stands in a window of 1,280 x 800
_LEFT, _WIDE, _BESIDE, _GAP = 0.075, 0.67, 0.012, 0.09  # of its width; between grades of the row's
_TONNES, _GRADES, _MONEY = (3.75, 2.12), (2.55, 0.68), (0.55, 1.6)  # foot and height, in inches
_LETTERS, _WORDS = (9.0, 8.0, 7.0, 6.0, 5.0), 27  # of a legend: points, letters in a line
_POINTS, _OUTLINE, _CASING = 72, 0.9, 3.6  # of an inch; of a period's outline, at most
_MARGIN = 0.08  # inches beside and below a legend


def by_year(schedule: Schedule, years: pd.DataFrame) -> Figure:
    """Ore and waste of each period beside the rates; below them the grades of its ore, its cash
    flow, and what all so far are worth beside the bound. What stays in the ground is said above.

    Parameters
    ----------
    schedule : Schedule
    years : DataFrame
        As `Tables.years` gives it.
    """
    figure = Figure(figsize=_SHEET)
    tonnes, money = (_axes(figure, row) for row in (_TONNES, _MONEY))
    _add_tonnes(tonnes, schedule, years)
    _add_money(money, schedule, years)
    grades = _add_grades(figure, schedule, years)
    at = years["period"].to_numpy()
    for axes in (tonnes, money, *grades):
        step = -(-len(at) * len(grades if axes in grades else [axes]) // 24)
        axes.set_xticks(at[::step])
        axes.set_xlim(0.4, len(at) + 0.6)
    for axes in (tonnes, money):
        axes.yaxis.set_major_formatter(SEPARATED)
    money.set_xlabel("Period" if schedule.production.terms.per_year > 1 else "Year")
    _add_title(tonnes, schedule, years)
    _add_legends(figure, [(tonnes, tonnes.containers[::-1]), (money, money.containers)])
    return figure


def _axes(figure: Figure, row: tuple[float, float], share: float = 1.0, at: float = 0.0) -> Any:
    """Axes in a row of the sheet, by its foot and its height: all of its width, or a share of it
    from some place on."""
    foot, high = (length / _SHEET[1] for length in row)
    return figure.add_axes((_LEFT + at * _WIDE, foot, share * _WIDE, high))


def _add_title(axes: Any, schedule: Schedule, years: pd.DataFrame) -> None:
    """Whose schedule it is and how good; below it what of the pit stays in the ground, if anything
    does."""
    study, left = schedule.shells.study, schedule.left()
    name = f"{name_of(study)}: schedule, at most {schedule.gap_text} below the best"
    axes.set_title(name, fontsize=12, pad=22 if left.blocks else 6)
    if left.blocks:
        rock = printed_scale(years["rock_t"], study.model.units.weight)
        axes.annotate(
            left.words(rock, study.currency),
            (0.5, 1),
            (0, 7),
            xycoords="axes fraction",
            textcoords="offset points",
            ha="center",
            fontsize=10,
        )


def _add_legends(figure: Figure, rows: Iterable[tuple[Any, Iterable[Any]]]) -> None:
    """Beside each axes what is drawn there, their bars first, in the order in which they are given.
    A legend stands below one that is higher than its own axes, and all are in smaller letters where
    there is no room."""
    margin = _MARGIN * figure.dpi
    for size in _LETTERS:
        free, is_enough = 1.0, True
        for axes, bars in rows:
            named = dict(zip(*reversed(axes.get_legend_handles_labels())))
            labels = list(dict.fromkeys([*(bar.get_label() for bar in bars), *named]))
            legend = axes.legend(
                [named[label] for label in labels],
                ["\n".join(textwrap.wrap(label, _WORDS)) for label in labels],
                loc="upper left",
                bbox_to_anchor=(_LEFT + _WIDE + _BESIDE, min(free, axes.get_position().y1)),
                bbox_transform=figure.transFigure,
                borderaxespad=0,
                borderpad=0,
                frameon=False,
                fontsize=size,
            )
            box = legend.get_window_extent()
            free = (box.y0 - margin) / figure.bbox.height
            is_enough = is_enough and free >= 0 and box.x1 + margin <= figure.bbox.width
        if is_enough:
            return


def _add_grades(figure: Figure, schedule: Schedule, years: pd.DataFrame) -> list[Any]:
    """The grade of each metal in the ore of each period, each metal at a scale of its own."""
    metals = schedule.shells.study.manifest["metals"]
    each = (1 - _GAP * (len(metals) - 1)) / len(metals)
    made = []
    for i, (name, units) in enumerate(metals.items()):
        axes = _axes(figure, _GRADES, each, i * (each + _GAP))
        axes.plot(
            years["period"],
            years[f"grade_{name}"],
            color="black",
            marker="o",
            markersize=4,
            linewidth=1.2,
        )
        axes.margins(y=0.15)
        axes.set_ylim(bottom=0)
        axes.locator_params(axis="y", nbins=3)
        axes.set_title(f"{name} ({units['grade_unit']})", fontsize=10, loc="left")
        made.append(axes)
    made[0].set_ylabel("Grade\nof ore")
    return made


def _add_tonnes(axes: Any, schedule: Schedule, years: pd.DataFrame) -> None:
    """Bars of ore and waste, the mill's feed by dots, and the two rates by steps."""
    at, unit = years["period"].to_numpy(), schedule.shells.study.model.units.weight
    rock = printed_scale(years["rock_t"], unit)  # as the table beside it, which is printed
    ore, waste = (years[name] / rock.divisor for name in ("ore_t", "waste_t"))
    add_ore(axes, at, years, rock.divisor)
    axes.bar(
        at,
        waste,
        bottom=ore,
        color=_WASTE,
        edgecolor="#777777",
        hatch="///",
        linewidth=0.4,
        label="Waste",
    )
    names = processes_in(years)
    feeds = [(f"process_{name}_feed_t", f"Feed of {name}") for name in names]
    for (column, label), colour in zip(feeds or [("feed_t", "Feed of the mill")], _MILLS):
        axes.plot(
            at,
            years[column] / rock.divisor,
            linestyle="none",
            marker="o",
            markersize=4,
            color=colour,
            path_effects=CASING,
            label=label,
        )
    may_be = [f"Feed that {name} may get" for name in names] or ["Feed that may be milled"]
    for capacity, stroke, colour, label in zip(
        schedule.production.terms.capacities,
        ("--", *(":" for _ in may_be)),
        (_MINING, *_MILLS),
        ("Rock that may be dug", *may_be),
    ):
        if capacity:
            room = np.array(capacity[: len(at)]) / THOUSAND / rock.divisor
            axes.step(
                np.append(at - 0.5, at[-1] + 0.5),
                np.append(room, room[-1]),
                where="post",
                linestyle=stroke,
                color=colour,
                linewidth=1.8,
                path_effects=CASING,
                label=label,
            )
    period = "period" if schedule.production.terms.per_year > 1 else "year"
    axes.set_ylabel(f"In a {period} ({rock.unit})")


def _add_money(axes: Any, schedule: Schedule, years: pd.DataFrame) -> None:
    """Bars of the cash flow and of what it is worth today, and the line of the worth so far."""
    at = years["period"].to_numpy()
    bound = float(schedule.bound)
    unit: Scale = scale_of(pd.Series([bound, *years["npv"]]), schedule.shells.study.currency)
    for column, colour, aside, label in (
        ("cash_flow", _FLOW, -0.2, "Cash flow"),
        ("discounted", _DISCOUNTED, 0.2, "Discounted"),
    ):
        axes.bar(
            at + aside,
            years[column] / unit.divisor,
            width=0.4,
            color=colour,
            edgecolor="black",
            linewidth=0.4,
            label=label,
        )
    axes.plot(
        at,
        years["npv"] / unit.divisor,
        color=_WORTH,
        marker="s",
        markersize=4,
        linewidth=1.6,
        path_effects=CASING,
        label="Net present value so far",
    )
    axes.axhline(
        bound / unit.divisor,
        color=_MINING,
        linestyle="--",
        linewidth=1.4,
        label="No schedule brings more",
    )
    axes.axhline(0, color="black", linewidth=0.6)
    axes.set_ylabel(f"Worth at factor 1\n({unit.unit})")


def middle_of(schedule: Schedule) -> tuple[float, int]:
    """The toe of the bench on which most periods dig, and the row with most dug blocks."""
    model, period = schedule.shells.study.model, schedule.years
    blocks = model.blocks[period > 0]
    count = blocks.assign(year=period[period > 0]).groupby("iz")["year"].nunique()
    level = int(count.idxmax())
    row = fullest_row(np.bincount(blocks["iy"], minlength=model.grid.shape[1]))
    return model.grid.origin[2] + (level - 0.5) * model.grid.size[2], row


def plan(schedule: Schedule, elevation: float) -> Figure:
    """The plan of the bench at an elevation, each block in the colour of its period."""
    model = schedule.shells.study.model
    figure, axes = _draw(schedule, planes.bench(model, planes.bench_at(model, elevation)), 1.0)
    add_north_and_scale(axes, model.units.length)
    return figure


def section(schedule: Schedule, row: int) -> Figure:
    """The section along a row of the model, each block in the colour of its period."""
    cut = planes.section(schedule.shells.study.model, "y", row)
    figure, axes = _draw(schedule, cut, exaggeration_of(cut))
    add_benches(figure, axes, cut)
    return figure


def _paint(schedule: Schedule) -> Paint:
    """A colour for each period, the darker the earlier."""
    count = int(schedule.period.max()) + 1
    dug = (schedule.period >= 0) & schedule.shells.study.model.is_rock
    table = ListedColormap(shades(LIGHTEST * np.linspace(0, 1, count)))
    label = "Period" if schedule.production.terms.per_year > 1 else "Year"
    return Paint(
        np.where(dug, schedule.period, np.nan),
        table,
        BoundaryNorm(np.arange(count + 1) - 0.5, count),
        label,
        [(float(t), str(t + 1)) for t in range(count)],
    )


def _strokes(figure: Figure, axes: Any, cut: Plane, exaggeration: float) -> tuple[float, Any]:
    """The width of a period's outline in points, and its casing: thin where blocks are drawn small,
    since a period may be one block wide, and its colour has to be seen."""
    across, up = cut.across - cut.across[0, 0], (cut.up - cut.up[0, 0]) * exaggeration
    side = min(np.hypot(across[at], up[at]) for at in ((0, 1), (1, 0)))
    wide = figure.get_figwidth() * axes.get_position().width
    room = side * wide * _POINTS / float(np.ptp(cut.across))
    white = patheffects.withStroke(linewidth=min(_CASING, room / 4), foreground="white")
    return min(_OUTLINE, room / 10), [white]


def _draw(schedule: Schedule, cut: Plane, exaggeration: float) -> tuple[Figure, Any]:
    """The blocks of a plane by their period, and rock that stays."""
    model, colours = schedule.shells.study.model, _paint(schedule)
    figure, axes, beside = sheet(float(np.ptp(cut.across)), float(np.ptp(cut.up)) * exaggeration)
    there = cut.number >= 0
    shown = np.where(there, colours.values[cut.number], np.nan)
    image = axes.pcolormesh(cut.across, cut.up, shown, cmap=colours.colours, norm=colours.norm)
    hatch(axes, there & np.isnan(shown), cut)
    axes.plot(*planes.borders(there, cut), color="#555555", linewidth=0.6)
    width, casing = _strokes(figure, axes, cut, exaggeration)
    for t in np.unique(shown[~np.isnan(shown)]).tolist():
        line = planes.borders(shown <= t, cut)
        axes.plot(*line, color="black", linewidth=width, path_effects=casing)
    add_colour_bar(figure, beside, image, colours)
    rock = {"facecolor": "white", "edgecolor": ROCK_EDGE, "hatch": ROCK_HATCH}
    figure.legend(
        handles=[Patch(label="Rock that stays", **rock)], loc="lower center", frameon=False
    )
    axes.set_aspect(exaggeration)
    axes.set(xlabel=cut.labels[0], ylabel=cut.labels[1])
    for each in (axes.xaxis, axes.yaxis):
        each.set_major_formatter(SEPARATED)
    axes.locator_params(axis="x", nbins=7)
    title = f"{name_of(schedule.shells.study)}: {cut.title}, by {colours.label.lower()}"
    axes.set_title(title + second_line(cut, exaggeration), fontsize=12)
    return figure, axes
