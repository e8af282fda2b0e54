"""What a page shows: pits by factor, pushbacks, a design beside the best pit, pits by likelihood.

Each is the same thing to the page: surfaces one after the other, how blocks are coloured by them,
and a row of facts for each.
"""
from __future__ import annotations

from collections.abc import Iterable, Mapping
from dataclasses import dataclass, field
from typing import TYPE_CHECKING, Any

import numpy as np
import pandas as pd

from ..base.amounts import THOUSAND
from ..base.arrays import Bools, Levels
from ..base.units_shown import (
    Scale,
    alike,
    amount_text,
    factor_text,
    grade_places,
    lengths,
    scale_of,
    separated,
)
from ..study.pit_by_pit import amounts_of
from .pit_surfaces import NO_COLUMN, surfaces

if TYPE_CHECKING:
    from ..model.grid import Grid
    from ..plans.compare import Comparison
    from ..plans.phases import Phases
    from ..plans.risk import Risk
    from ..study.shells import Shells
    from ..study.study import Study

Columns = list[tuple[str, list[str]]]  # a heading with its unit, and the texts below it
_Sides = list[tuple[list[str], list[str]]]  # of a column, the texts of each row alone and up to it
PATTERNS = 5  # that blocks are told apart by, unless there are more kinds of them
CERTIFIED = (
    "Each pit has a certificate that pit check has accepted: no pit that keeps the slopes is worth"
    " more at its factor. "
)
STATED = (
    "Each pit is as pit shells states it, which is proved to state none but the best: no pit that"
    " keeps the slopes is worth more at its factor. "
)
_PITS = (
    "Discounted by the rates of [shells]: dug pit after pit (best case) or bench after bench (worst"
    " case)."
)
_PHASES = "Pushbacks {set}. Amounts are those of the pushback alone, worths at the full price."
_DESIGN = (
    "The best pit has a certificate that pit check has accepted: no pit that keeps the slopes is"
    " worth more at its factor."
)
_LIKELY = (
    "Each realisation has a pit that pit check has accepted. A block's likelihood is the share of"
    " the realisations whose pit has it; for every likelihood the blocks of at least that keep the"
    " slopes. Worths of a fixed set of blocks over all realisations."
)


@dataclass(frozen=True)
class ViewTable:
    """A table as texts.

    Attributes
    ----------
    caption : str
    first : str
        The heading of `names`.
    names : list of str
        Of the rows.
    columns : Columns
    """

    caption: str
    first: str
    names: list[str]
    columns: Columns


@dataclass(frozen=True)
class View:
    """One way to look at the mine.

    Attributes
    ----------
    name : str
        In the list of views.
    slider : str
        What the slider chooses; the name of a row of `table` follows it.
    table : ViewTable
        A row for each surface.
    levels : uint16 array of shape (rows + 1, columns along x, columns along y)
        As `pit_surfaces.surfaces`: the ground as it is, then a surface for each row.
    paint : str
        What the colour of a block says.
    note : str
        What the numbers rest on.
    labels : list of str
        A short name for each kind of block. Where `is_beside`, the kinds are: in both, in the first
        alone, in the second alone.
    start : int
        The row that is shown first, from 1.
    weights : list of float
        Tonnes of each kind of block, by which its colours are spaced; none where two surfaces are
        compared.
    is_beside : bool
        Whether two surfaces are compared; else each lies within the next.
    lines : list of str
        What is told above the facts.
    more : list of ViewTable
        Below the first one.
    sides : _Sides
        Where a row is what was dug since the row before it: of each column the texts of each row
        alone, and with all rows before it. Empty where a row has all that its surface has.
    """

    name: str
    slider: str
    table: ViewTable
    levels: Levels
    paint: str
    note: str
    labels: list[str]
    start: int
    weights: list[float] = field(default_factory=list)
    is_beside: bool = False
    lines: list[str] = field(default_factory=list)
    more: list[ViewTable] = field(default_factory=list)
    sides: _Sides = field(default_factory=list)

    @property
    def middle(self) -> list[int]:
        """The row, the column and the bench of the model at which it is cut first: where most is
        dug, or most differs; of benches the one halfway down."""
        ground, shown = self.levels[0], self.levels[self.start]
        low, high = (
            (np.minimum(*self.levels[1:3]), np.maximum(*self.levels[1:3]))
            if self.is_beside
            else (shown, ground)
        )
        if (low == high).all():
            low, high = shown, ground
        depth = np.where(ground == NO_COLUMN, 0, high.astype(np.int64) - low)
        found = [
            ((low <= k) & (k < high)).sum() if depth.any() else 0
            for k in range(int(np.where(ground == NO_COLUMN, 0, ground).max()))
        ]
        there = np.flatnonzero(found)
        level = int(np.argmax(found)) if self.is_beside or not len(there) else int(np.median(there))
        return [int(depth.sum(axis=0).argmax()), int(depth.sum(axis=1).argmax()), level]


def scaled(name: str, values: Any, scale: Scale) -> tuple[str, list[str]]:
    return f"{name} ({scale.unit})", [amount_text(v, scale) for v in values]


def ratio(values: Any, places: str = ".2f") -> list[str]:
    return [format(v, places) if np.isfinite(v) else "-" for v in values]


def grade_texts(values: Any, like: Any = None) -> list[str]:
    """Grades of one column: with as many decimals as the greatest, or that of `like`, needs for four
    digits, so that they stand digit below digit."""
    return ratio(values, f",.{grade_places(values if like is None else like)}f")


def rock_and_metal(
    table: pd.DataFrame,
    metals: Mapping[str, Mapping[str, str]],
    weight: str,
    like: pd.DataFrame | None = None,
) -> Columns:
    """Ore, waste and strip ratio, and of each metal its grade and what is recovered: of a table
    with columns as `Shells.table`, in a unit of weight; at the scales of `like`, if that is given.
    """
    like = table if like is None else like
    rock = scale_of(like["ore_t"] + like["waste_t"], weight)
    found = [
        scaled("Ore", table["ore_t"], rock),
        scaled("Waste", table["waste_t"], rock),
        (f"Strip ratio ({weight}/{weight})", ratio(table["strip"])),
    ]
    for metal, units in metals.items():
        grade, amount = f"grade_{metal}", f"metal_{metal}"
        texts = grade_texts(table[grade], like[grade])
        found.append((f"Grade of ore, {metal} ({units['grade_unit']})", texts))
        scale = scale_of(like[amount], units["price_unit"])
        found.append(scaled(f"Recovered {metal}", table[amount], scale))
    return found


_SUMMED = ("blocks", "rock_t", "waste_t", "cash_flow", "discounted", "worth")


def so_far(
    table: pd.DataFrame, metals: Iterable[str], processes: Iterable[str] = ()
) -> pd.DataFrame:
    """A table of years or pushbacks with what each row and all before it come to: sums, the grade
    of all their ore, and their lowest bench."""
    found, names = table.copy(), [name for name in _SUMMED if name in table]
    found[names] = table[names].cumsum()
    for before in ("", *(f"process_{name}_" for name in processes)):
        ore, tonnes = f"{before}ore_t", table[f"{before}ore_t"]
        found[ore], found[f"{before}feed_t"] = tonnes.cumsum(), table[f"{before}feed_t"].cumsum()
        for metal in metals:
            grade, amount = f"{before}grade_{metal}", f"{before}metal_{metal}"
            graded = (table[grade] * tonnes).fillna(0.0).cumsum()
            found[grade] = graded / found[ore].where(found[ore] > 0)
            found[amount] = table[amount].cumsum()
    found["strip"] = found["waste_t"] / found["ore_t"].where(found["ore_t"] > 0)
    found["bottom"] = table["bottom"].cummin().ffill()
    return found


def beside(alone: Columns, sums: Columns, running: Iterable[tuple[str, list[str]]] = ()) -> _Sides:
    """The texts of some columns beside those of their sums. A column without a sum has none, and
    one that is `running` has all rows up to each itself."""
    whole, nothing = dict(running), [""] * len(alone[0][1])
    upto = dict(sums) | whole
    return [(nothing if name in whole else texts, upto.get(name, nothing)) for name, texts in alone]


def _bottoms(grid: Grid, levels: Levels) -> list[str]:
    """The toe of each surface's lowest bench; a dash where nothing is dug."""
    lowest = [
        surface[dug].min() if (dug := surface < levels[0]).any() else np.nan
        for surface in levels[1:]
    ]
    return lengths(grid.origin[2] + (level - 0.5) * grid.size[2] for level in map(float, lowest))


def pits(shells: Shells, table: pd.DataFrame) -> View:
    """The pits of a series of factors; `table` as `Shells.table` gives it.

    Raises PlanError where a pit's surface isn't one height for each column.
    """
    names = [factor_text(k) for k in shells.factors]
    levels = surfaces(
        shells.study,
        ((f"the pit at factor {name}", shells.holds(i)) for i, name in enumerate(names)),
    )
    currency = shells.study.currency
    money = scale_of(table["worth_at_base"], currency)
    columns = [
        ("Blocks", [f"{v:,}" for v in table["blocks"]]),
        (
            f"Toe of the lowest bench ({shells.study.model.units.length})",
            _bottoms(shells.study.model.grid, levels),
        ),
        (
            f"Worth at its own factor, proved ({currency})",
            alike([separated(str(v["worth"])) for v in shells.verdicts]),
        ),
        *rock_and_metal(table, shells.study.manifest["metals"], shells.study.model.units.weight),
    ]
    columns += [
        scaled(name, table[column], money)
        for name, column in (
            ("Worth at factor 1", "worth_at_base"),
            ("Discounted, best case", "npv_best"),
            ("Discounted, worst case", "npv_worst"),
        )
    ]
    columns.append(("Years", [f"{v:.1f}" for v in table["years"]]))
    start = 1 + (shells.factors.index(THOUSAND) if THOUSAND in shells.factors else len(names) - 1)
    return View(
        "Pits by factor",
        "Pit at factor",
        ViewTable("Pit by pit", "Factor", names, columns),
        levels,
        "First pit with the block, by factor",
        (CERTIFIED if shells.certified == len(shells) else STATED) + _PITS,
        names,
        start,
        _added(table["rock_t"]),
        more=by_kinds(
            shells.study, "Factor", {name: shells.holds(i) for i, name in enumerate(names)}
        ),
    )


def by_kinds(
    study: Study, of: str, sets: Mapping[str, Bools], factor: int = THOUSAND
) -> list[ViewTable]:
    """Tables of what each set of blocks has of each process, where there are several, and of each
    resource class, where the table has some; `of` is what the names of the sets are. Ore is what is
    treated at a factor (in thousandths)."""
    found = []
    if study.priced.process_names:
        found.append(
            _by_kind(study, sets, factor, ("By process", f"{of}, to", study.priced.goes(factor)))
        )
    if study.classes is not None:
        classes = ("By resource class", f"{of}, class", study.classes.masks())
        found.append(_by_kind(study, sets, factor, classes))
    return found


def _by_kind(
    study: Study,
    sets: Mapping[str, Bools],
    factor: int,
    kinds: tuple[str, str, Mapping[str, Bools]],
) -> ViewTable:
    """A table of what each set has of each kind: its title, its first heading, and their blocks."""
    title, heading, masks = kinds
    rows = pd.concat(
        amounts_of(study, [held & kind for held in sets.values()], factor).assign(
            of=list(sets), kind=name
        )
        for name, kind in masks.items()
    ).sort_values("of", key=lambda names: names.map(list(sets).index), kind="stable")
    rows = rows[rows["blocks"] > 0]
    columns = [("Blocks", [f"{v:,}" for v in rows["blocks"]])]
    return ViewTable(
        title,
        heading,
        [f"{row.of}, {row.kind}" for row in rows.itertuples()],
        columns + rock_and_metal(rows, study.manifest["metals"], study.model.units.weight),
    )


def _added(rock: Any) -> list[float]:
    """What each pit adds to the one before it, of the tonnes of pits within one another."""
    found: list[float] = np.diff(np.asarray(rock, float), prepend=0.0).tolist()
    return found


def _dug(study: Study, rows: pd.DataFrame, pushbacks: pd.DataFrame) -> Columns:
    """What each row of a table as `Phases.table` digs, at the scales of the pushbacks."""
    unit, money = study.model.units.length, scale_of(pushbacks["worth"], study.currency)
    metals, weight = study.manifest["metals"], study.model.units.weight
    return [
        (f"From ({unit})", lengths(rows["top"])),
        (f"Down to ({unit})", lengths(rows["bottom"])),
        ("Blocks", [f"{v:,}" for v in rows["blocks"]]),
        *rock_and_metal(rows, metals, weight, pushbacks),
        scaled("Worth at factor 1", rows["worth"], money),
    ]


def phases(phases: Phases, table: pd.DataFrame | None = None) -> View:
    """Pushbacks; `table` as `Phases.table` gives it.

    Raises PlanError where a pit's surface isn't one height for each column.
    """
    study, count = phases.shells.study, len(phases)
    table = phases.table() if table is None else table
    unit = study.model.units.length
    pushed = [
        (f"the mine after pushback {k}", (phases.pushback > 0) & (phases.pushback <= k))
        for k in range(1, count + 1)
    ]
    own = _dug(study, table, table)
    columns = [
        ("Factor of its pit", [factor_text(k) for k in phases.shells.factors]),
        *own[:2],
        ("Benches", [f"{v:,}" for v in table["benches"]]),
        *own[2:],
        (f"Thinnest ({unit})", lengths(table["width"])),
        (f"on the bench at ({unit})", lengths(table["width_bench"])),
    ]
    sums = so_far(table, study.manifest["metals"]).assign(top=table["top"].cummax())
    names = [str(k) for k in range(1, count + 1)]
    return View(
        "Pushbacks",
        "After pushback",
        ViewTable(f"Pushbacks, {phases.set_name}", "Pushback", names, columns),
        surfaces(study, pushed),
        "Pushback",
        _PHASES.format(set=phases.set_text),
        names,
        count,
        table["rock_t"].tolist(),
        more=by_kinds(study, "Pushback", {name: phases.pushback == int(name) for name in names}),
        sides=beside(columns, _dug(study, sums, table)),
    )


def design(study: Study, comparison: Comparison) -> View:
    """A design beside the best pit.

    Raises PlanError where a surface isn't one height for each column.
    """
    from ..plans.compare_words import forbidden_lines, verdict_lines

    held, best = comparison.design.held, comparison.optimum
    levels = surfaces(
        study, ((f"the design {comparison.design.name}", held), ("the best pit", best))
    )
    table, currency = amounts_of(study, (held, best), comparison.factor), study.currency
    gap = (
        (separated(comparison.gap), f"{comparison.share(comparison.gap):.2%}")
        if comparison.gap is not None
        else ("-", "-")
    )
    columns = [
        ("Blocks", [f"{v:,}" for v in table["blocks"]]),
        (
            f"Toe of the lowest bench ({study.model.units.length})",
            _bottoms(study.model.grid, levels),
        ),
        (
            f"Worth at factor {factor_text(comparison.factor)}, exact ({currency})",
            alike([separated(comparison.worth), separated(comparison.bound)]),
        ),
        (f"Below the proved bound ({currency})", [gap[0], "0"]),
        ("as a share of it", [gap[1], "0.00%"]),
        *rock_and_metal(table, study.manifest["metals"], study.model.units.weight),
    ]
    said = [
        *comparison.design.notes,
        *forbidden_lines(study, held),
        *verdict_lines(comparison, currency, study.model.units),
    ]
    return View(
        f"Design {comparison.design.name} beside the best pit",
        "Surface of",
        ViewTable("Design and best pit", "Pit", [comparison.design.name, "best pit"], columns),
        levels,
        "Design and best pit",
        _DESIGN,
        ["in both", "beyond the best pit", "left by the design"],
        1,
        is_beside=True,
        lines=said,
        more=[
            _bench_by_bench(study, comparison),
            *by_kinds(
                study,
                "Pit",
                {comparison.design.name: held, "best pit": best},
                comparison.factor,
            ),
        ],
    )


def _bench_by_bench(study: Study, comparison: Comparison) -> ViewTable:
    """The rock of a design and of the best pit on each bench."""
    b = comparison.benches
    rock = scale_of(b[["design_t", "best_t"]], study.model.units.weight)
    return ViewTable(
        "Bench by bench",
        f"Bench at ({study.model.units.length})",
        lengths(b["bench"]),
        [
            scaled(name, b[column], rock)
            for name, column in (
                ("Design", "design_t"),
                ("Best pit", "best_t"),
                ("Left by the design", "left_t"),
                ("of it ore", "left_ore_t"),
                ("Beyond the best pit", "over_t"),
                ("of that ore", "over_ore_t"),
            )
        ],
    )


def likelihood(risk: Risk, factor: int, table: pd.DataFrame) -> View:
    """The pits of likelihood 10 to 90 % at a factor (in thousandths), the likeliest blocks first;
    `table` as `Risk.pits` gives it.

    Raises PlanError where a surface isn't one height for each column.
    """
    study, currency = risk.study, risk.study.currency
    table = table.sort_values("likelihood", ascending=False)
    shares = table["likelihood"].tolist()
    names = [f"{share:.0%}" for share in shares]
    levels = surfaces(
        study,
        (
            (f"the pit of likelihood {name}", risk.pit(share, factor))
            for name, share in zip(names, shares)
        ),
    )
    money = scale_of(table[["worth_least", "worth_mean", "worth_most", "best_mean"]], currency)
    columns = [
        ("Blocks", [f"{v:,}" for v in table["blocks"]]),
        (
            f"Toe of the lowest bench ({study.model.units.length})",
            _bottoms(study.model.grid, levels),
        ),
        scaled("Rock", table["rock_t"], scale_of(table["rock_t"], study.model.units.weight)),
    ]
    columns += [
        scaled(name, table[column], money)
        for name, column in (
            ("Worth, least", "worth_least"),
            ("Worth, mean", "worth_mean"),
            ("Worth, most", "worth_most"),
        )
    ]
    most = int(np.argmax(table["worth_mean"]))
    said = [
        f"{risk.count:,} realisations at factor {factor_text(factor)}.",
        (
            f"Of these {len(names)} pits that of at least {names[most]} is worth most on the mean,"
            f" {amount_text(table['worth_mean'].iloc[most], money)} {money.unit}; each"
            " realisation's own best pit is worth"
            f" {amount_text(table['best_mean'].iloc[0], money)} on the mean."
        ),
    ]
    return View(
        f"Likelihood at factor {factor_text(factor)}",
        "Blocks of a likelihood of at least",
        ViewTable("Pits by likelihood", "At least", names, columns),
        levels,
        "Likelihood, at least",
        _LIKELY,
        names,
        1 + names.index("50%"),
        _added(table["rock_t"]),
        lines=said,
        more=[_spread(risk, currency)],
    )


def _spread(risk: Risk, currency: str) -> ViewTable:
    """Tonnes and worth of the realisations' own best pits, factor by factor."""
    table = risk.table()
    columns: Columns = []
    weight = risk.study.model.units.weight
    for name, column, unit in (("Rock", "rock_t", weight), ("Worth", "worth", currency)):
        ends = [
            (word, f"{column}_{key}")
            for word, key in (
                ("least", "least"),
                ("p10", "p10"),
                ("median", "p50"),
                ("mean", "mean"),
                ("p90", "p90"),
                ("most", "most"),
            )
        ]
        scale = scale_of(table[[key for _, key in ends]], unit)
        columns += [scaled(f"{name}, {word}", table[key], scale) for word, key in ends]
    return ViewTable(
        (
            "Each realisation's own best pit, its worth at the factor's own price: a tenth lies"
            " below p10, a tenth above p90"
        ),
        "Factor",
        [factor_text(round(f * THOUSAND)) for f in table["factor"]],
        columns,
    )
