"""The planner's tables of the shells: pit by pit, and bench by bench."""
from __future__ import annotations

from collections.abc import Mapping, Sequence
from dataclasses import dataclass, field, replace
from decimal import Decimal
from typing import TYPE_CHECKING, Any

import numpy as np
import pandas as pd

from ..base.amounts import THOUSAND, exact_sum
from ..base.arrays import Array, Bools, Floats, Shorts
from ..base.errors import PlanError
from ..base.near_words import meant
from ..table.study_keys import PROCESSES
from ..table.wrong_values import refuse_wrong

if TYPE_CHECKING:
    from .shells import Shells
    from .study import Study

YEARS = 15  # that the largest pit takes, where no rate is given
_MOST_YEARS = 1000  # that it may take: what needs longer has a rate in another unit


@dataclass(frozen=True)
class Rates:
    """How quickly a mine works, and what later money is worth.

    Parameters
    ----------
    mining : float, optional
        Tonnes of rock a year. Default: the largest pit in `YEARS` years.
    mill : float, optional
        Tonnes of the mill's feed a year; likewise.
    discount : float
        A year, as a share: 0.08 is 8 %.
    processes : mapping of str to float or None
        In place of `mill` tonnes of the feed of each process a year, by its name; likewise.
    """

    mining: float | None = None
    mill: float | None = None
    discount: float = 0.10
    processes: Mapping[str, float | None] = field(default_factory=dict)

    def __post_init__(self) -> None:
        refuse_wrong(
            "shells",
            {"mining_rate": self.mining, "mill_rate": self.mill, "discount": self.discount},
        )

        for name, rate in self.processes.items():
            at = ("economics", PROCESSES, name)
            refuse_wrong(PROCESSES, {"rate": rate}, f"[economics] process {name}", at)

    def of(self, names: Sequence[str]) -> Rates:
        """With a rate of each of several processes, in their order; None where it isn't told.

        Parameters
        ----------
        names : sequence of str
            Those of the processes; none where there is one.

        Raises
        ------
        PlanError
            Where a rate is that of another process, or of a mill.
        """
        strange = [name for name in self.processes if names and name not in names]
        if strange:
            said = f"there is a rate of {strange[0]!r}, and no process is called so"
            raise PlanError(said + meant(strange[0], names), try_this=", ".join(names))
        if names and self.mill is not None:
            raise PlanError(
                f"there is a rate of a mill, and there are processes: {', '.join(names)}",
                try_this="process_rates in place of mill_rate",
            )
        if not names:
            return self
        return replace(self, processes={name: self.processes.get(name) for name in names})

    @property
    def named(self) -> list[tuple[str, float | None]]:
        """The rate of each process by its name, or that of the mill."""
        return list(self.processes.items()) if self.processes else [("mill", self.mill)]

    def over(self, rock: float, feeds: Sequence[float]) -> Rates:
        """The rates, with those that weren't told for this much rock, and feed of each process.
        Raises PlanError where that takes more than `_MOST_YEARS`."""
        said = [
            (f"[economics] process {name}: rate", "rate", rate)
            if self.processes
            else ("[shells] mill_rate", "mill_rate", rate)
            for name, rate in self.named
        ]
        for (what, key, rate), tonnes in zip(
            [("[shells] mining_rate", "mining_rate", self.mining), *said], [rock, *feeds]
        ):
            if rate and tonnes > _MOST_YEARS * rate:
                raise PlanError(
                    (
                        f"{what} = {rate:g}: the largest pit's {tonnes:,.0f} tonnes would take"
                        f" {min(tonnes / rate, 1e9):,.0f} years"
                    ),
                    try_this=(
                        f"{key} in tonnes a year, as {max(tonnes / YEARS, 1):.2g}; the pits"
                        " stand, and aren't found again"
                    ),
                )
        found = [
            (name, rate or max(feed / YEARS, 1.0)) for (name, rate), feed in zip(self.named, feeds)
        ]
        return Rates(
            self.mining or max(rock / YEARS, 1.0),
            None if self.processes else found[0][1],
            self.discount,
            dict(found) if self.processes else {},
        )


@dataclass(frozen=True)
class Cells:
    """What lies in each shell on each bench from the top: arrays of shape (factors, benches)."""

    rock: Floats
    ore: Floats
    worth: Floats
    metal: dict[str, Floats]
    graded: dict[str, Floats]  # ore tonnes times their grade
    blocks: Floats
    classes: dict[str, Cells]  # of each resource class alone, where the table has classes
    processes: dict[str, Cells]  # of what goes to each process alone, where there are several
    feed_by_ore: list[float]  # of each process, or of the mill

    @classmethod
    def of(
        cls, shells: Shells, base: int, only: Bools | None = None, shell: Shorts | None = None
    ) -> Cells:
        """Adds up the blocks of each shell on each bench; ore is what is treated at the factor
        `base` (in thousandths).

        Parameters
        ----------
        shells, base
        only : bool array of shape (blocks,), optional
            The blocks that count, of one class or process; default: all.
        shell : int array of shape (blocks,), optional
            The shell of each block, where it isn't that of the pits.
        """
        shell = shells.shell if shell is None else shell
        m, p, s = shells.study.model, shells.study.priced, len(shells.factors)
        nz = m.grid.shape[2]
        cell = shell.astype(np.int64) * nz + (nz - 1 - m.blocks.iz.to_numpy())
        tonnes = m.blocks.tonnes.to_numpy(float)
        ore = p.ore_of(tonnes, base)

        def summed(values: Array) -> Floats:
            counted = values if only is None else values * only
            found: Floats = (
                np.bincount(cell, counted, (s + 1) * nz).astype(float).reshape(s + 1, nz)[:s]
            )
            return found

        kinds = shells.study.classes if only is None else None

        return cls(
            summed(tonnes),
            summed(ore),
            summed(p.worth(base)),
            {k: summed(v) for k, v in p.metal_of(base).items()},
            {k: summed(v * ore) for k, v in p.grade.items()},
            summed(np.ones(len(m))),
            {k: cls.of(shells, base, held, shell) for k, held in kinds.masks().items()}
            if kinds
            else {},
            {way.name: cls.of(shells, base, here, shell) for way, here in p.by_way(base)}
            if only is None and p.process_names
            else {},
            [way.feed for way in p.ways],
        )

    @property
    def ores(self) -> list[Floats]:
        """The ore in place that each process gets, or the mill."""
        return [part.ore for part in self.processes.values()] or [self.ore]

    @property
    def feeds(self) -> list[Floats]:
        """The feed that each process gets, or the mill."""
        return [ore * feed for ore, feed in zip(self.ores, self.feed_by_ore)]

    def fed(self, place: tuple[Any, ...]) -> list[float]:
        """The feed that each process gets of some cells, or the mill; `place` as of `by_class`."""
        return [float(ore[place].sum()) * feed for ore, feed in zip(self.ores, self.feed_by_ore)]

    def at(self, i: int, down: int) -> dict[str, Any]:
        """What lies in shell i (from 0) on the bench so far down from the top, in the columns of
        `benches`."""
        rock, ore = float(self.rock[i, down]), float(self.ore[i, down])
        found: dict[str, Any] = {
            "blocks": int(self.blocks[i, down]),
            "rock_t": rock,
            "ore_t": ore,
            "waste_t": rock - ore,
            "worth": float(self.worth[i, down]),
        }
        for name in self.metal:
            found[f"grade_{name}"] = float(self.graded[name][i, down]) / ore if ore else np.nan
            found[f"metal_{name}"] = float(self.metal[name][i, down])
        return found | self.by_process((i, down)) | self.by_class((i, down))

    def by_process(self, place: tuple[Any, ...]) -> dict[str, Any]:
        """Of each process what it gets of some cells: ``process_<name>_`` and ``ore_t`` (in place),
        ``feed_t``, ``grade_<metal>``, ``metal_<metal>``. Nothing where there is one.

        Parameters
        ----------
        place
            As of `by_class`.
        """
        found: dict[str, Any] = {}
        for (name, part), feed in zip(self.processes.items(), self.fed(place)):
            ore, before = float(part.ore[place].sum()), f"process_{name}_"
            found |= {f"{before}ore_t": ore, f"{before}feed_t": feed}
            for metal, graded in part.graded.items():
                found[f"{before}grade_{metal}"] = (
                    float(graded[place].sum()) / ore if ore else np.nan
                )
                found[f"{before}metal_{metal}"] = float(part.metal[metal][place].sum())
        return found

    def by_class(self, place: tuple[Any, ...]) -> dict[str, Any]:
        """Of each class what lies in some cells: ``class_<name>_`` and ``rock_t``, ``ore_t``,
        ``grade_<metal>``, ``metal_<metal>``.

        Parameters
        ----------
        place
            Indices into the arrays: of one cell, or slices.
        """
        found: dict[str, Any] = {}
        for name, part in self.classes.items():
            ore, before = float(part.ore[place].sum()), f"class_{name}_"
            found |= {f"{before}rock_t": float(part.rock[place].sum()), f"{before}ore_t": ore}
            for metal, graded in part.graded.items():
                found[f"{before}grade_{metal}"] = (
                    float(graded[place].sum()) / ore if ore else np.nan
                )
                found[f"{before}metal_{metal}"] = float(part.metal[metal][place].sum())
        return found


def table(shells: Shells, base: int, rates: Rates) -> pd.DataFrame:
    """A row for each pit, with everything that lies in it.

    Parameters
    ----------
    shells : Shells
    base : int
        The factor, in thousandths, at which ore, worths and discounted worths count.
    rates : Rates

    Returns
    -------
    DataFrame
        ``factor`` (share of the price), ``blocks``; ``rock_t``, ``ore_t``, ``waste_t`` (tonnes in
        place; ore is what is treated at the base factor), ``strip`` (waste by ore), ``feed_t``
        (what the mill gets, or all processes), ``worth_at_factor`` (text: what `pit` proved),
        ``worth_at_base`` (exact, rounded to a float at the end), ``npv_best`` (dug shell by shell),
        ``npv_worst`` (the pit bench by bench), ``years``; and for each metal ``grade_<metal>`` (of
        the ore in place, in its own unit) and ``metal_<metal>`` (recovered, in the unit of its
        price); where there are several processes, the columns of `Cells.by_process`, and where the
        table has resource classes, those of `Cells.by_class`.
    """
    p, c = shells.study.priced, Cells.of(shells, base)
    rates = rates.of(p.process_names).over(float(c.rock.sum()), c.fed(()))
    rows, worths = [], _worths_of(shells, base)
    for i, factor in enumerate(shells.factors):
        rock, ore = float(c.rock[: i + 1].sum()), float(c.ore[: i + 1].sum())
        best, worst = (
            discounted(
                order(c.rock[: i + 1]),
                [order(ore[: i + 1]) * feed for ore, feed in zip(c.ores, c.feed_by_ore)],
                order(c.worth[: i + 1]),
                rates,
            )
            for order in (_by_shell, by_bench)
        )
        row: dict[str, Any] = {
            "factor": factor / THOUSAND,
            "blocks": int(c.blocks[: i + 1].sum()),
            "rock_t": rock,
            "ore_t": ore,
            "waste_t": rock - ore,
            "strip": (rock - ore) / ore if ore else np.nan,
            "feed_t": sum(c.fed((slice(i + 1),))),
            "worth_at_factor": shells.verdicts[i]["worth"],
            "worth_at_base": float(Decimal(worths[i])),
            "npv_best": best[0],
            "npv_worst": worst[0],
            "years": best[1],
        }
        for name in c.metal:
            row[f"grade_{name}"] = float(c.graded[name][: i + 1].sum()) / ore if ore else np.nan
            row[f"metal_{name}"] = float(c.metal[name][: i + 1].sum())
        rows.append(row | c.by_process((slice(i + 1),)) | c.by_class((slice(i + 1),)))
    return pd.DataFrame(rows)


def _worths_of(shells: Shells, base: int) -> list[str]:
    """What each pit is worth at the factor `base`, exactly: its shells are added up, each once,
    since a pit has all of the one before it."""
    p, total, found = shells.study.priced, 0, []
    worth = p.thousandths(base)
    for i in range(len(shells.factors)):
        total += exact_sum(worth[shells.shell == i])
        found.append(p.spelled(total))
    return found


def _by_shell(values: Floats) -> Floats:
    """Pieces in the order of the best case: shell after shell, each from the top."""
    return values.ravel()


def by_bench(values: Floats) -> Floats:
    """Pieces in the order of the worst case: the whole pit bench after bench."""
    summed: Floats = values.sum(axis=0)
    return summed


def discounted(
    rock: Floats, feeds: Sequence[Floats], worth: Floats, rates: Rates
) -> tuple[float, float]:
    """The worth of pieces that are dug one after the other, each as quickly as digging and each
    process allow, discounted to the middle of its time; and how many years all of them take.

    Parameters
    ----------
    rock, worth : arrays of one shape
        Tonnes, and units of currency, of each piece.
    feeds : sequence of arrays of that shape
        Tonnes that each process gets.
    """
    assert rates.mining
    takes = rock / rates.mining
    for feed, (_, rate) in zip(feeds, rates.named):
        assert rate
        takes = np.maximum(takes, feed / rate)
    ends = np.cumsum(takes)
    with np.errstate(over="ignore"):  # after some ten thousand years nothing is worth anything
        return (
            float(np.sum(worth / (1 + rates.discount) ** (ends - takes / 2))),
            float(ends[-1]) if len(ends) else 0.0,
        )


def benches(shells: Shells, base: int) -> pd.DataFrame:
    """A row for each bench and shell that has blocks there, from the top.

    Returns
    -------
    DataFrame
        ``bench`` (elevation of its blocks' centres), ``shell`` (share of the price), ``blocks``,
        ``rock_t``, ``ore_t``, ``waste_t``, ``worth`` (at the base factor), and for each metal
        ``grade_<metal>`` and ``metal_<metal>``, and the columns of processes and classes, as in
        `table`.
    """
    g, c = shells.study.model.grid, Cells.of(shells, base)
    return pd.DataFrame(
        [
            {
                "bench": g.origin[2] + (g.shape[2] - 1 - down) * g.size[2],
                "shell": shells.factors[i] / THOUSAND,
            }
            | c.at(i, down)
            for down, i in np.argwhere(c.blocks.T > 0).tolist()
        ]
    )


def amounts_of(study: Study, masks: Sequence[Bools], factor: int) -> pd.DataFrame:
    """What lies in sets of blocks, in columns as `Shells.table`; ore is what goes to the mill at a
    factor (in thousandths)."""
    priced, tonnes = study.priced, study.model.blocks["tonnes"].to_numpy(float)
    metal, weight, rows = priced.metal_of(factor), priced.ore_of(tonnes, factor), []
    for mask in masks:
        ore = weight[mask].sum()
        row = {
            "blocks": int(mask.sum()),
            "ore_t": ore,
            "waste_t": tonnes[mask].sum() - ore,
            "strip": (tonnes[mask].sum() - ore) / ore if ore else np.nan,
        }
        for name, grade in priced.grade.items():
            row |= {
                f"grade_{name}": (grade * weight)[mask].sum() / ore if ore else np.nan,
                f"metal_{name}": metal[name][mask].sum(),
            }
        rows.append(row)
    return pd.DataFrame(rows)
