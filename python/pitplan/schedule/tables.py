"""The tables of a schedule: a row for each period, and for each bench of each period."""
from __future__ import annotations

from collections.abc import Mapping, Sequence
from dataclasses import dataclass
from functools import cached_property
from typing import TYPE_CHECKING, Any

import numpy as np
import pandas as pd

from ..base.amounts import THOUSAND
from ..base.arrays import Bools, Floats, Indices, Ints
from ..model import outlines
from ..model.economics import NAME_SEPARATOR
from ..plans import widths
from .full_rates import full_rates
from .terms import MILLION

if TYPE_CHECKING:
    from ..study.study import Study
    from .plan import Schedule

_FULL = 0.995  # of a capacity, from which on it is said to bind


def binds_text(row: Mapping[Any, Any], is_short: bool = False) -> str:
    """What binds in a period, by its row of `Tables.years`: of the sink rate a column of blocks, its
    place to a tenth, and the bench that has to wait there; the bench alone where it `is_short`."""
    found, bench = str(row["binds"]), float(row.get("sink_bench", np.nan))
    if np.isnan(bench):
        return found
    rates = found.removesuffix("sink")  # it comes last
    if is_short:
        return f"{rates}sink: bench {bench:,.10g}"
    x, y = (f"{row[f'sink_{name}']:,.1f}" for name in ("x", "y"))
    return f"{rates}sink (x {x}, y {y}: bench {bench:,.10g} waits)"


def _tonnes_of(study: Study) -> Floats:
    """The tonnes of each block."""
    found: Floats = study.model.blocks.tonnes.to_numpy(float)
    return found


@dataclass(frozen=True)
class Tables:
    """The tables of a schedule.

    Parameters
    ----------
    schedule : Schedule
    mining_width : float, optional
        The least width that machines need, in the unit of the coordinates.
    """

    schedule: Schedule
    mining_width: float | None = None

    @cached_property
    def amounts(self) -> dict[str, Floats]:
        """What is added up, by block: tonnes, what is dug for and what is worth."""
        study = self.schedule.shells.study
        priced, tonnes = study.priced.sent_by(self.schedule.goes), _tonnes_of(study)
        ore, feeds = priced.ore_of(tonnes, THOUSAND), priced.feeds_of(tonnes, THOUSAND)
        found = {
            "rock_t": tonnes,
            "ore_t": ore,
            "waste_t": tonnes - ore,
            "feed_t": sum(feeds[1:], feeds[0]),
            "cash_flow": priced.worth(THOUSAND),
        }
        for name, metal in priced.metal_of(THOUSAND).items():
            found[f"grade_{name}"] = priced.grade[name] * ore
            found[f"metal_{name}"] = metal
        for (way, here), feed in zip(
            priced.by_way(THOUSAND) if priced.process_names else (), feeds
        ):
            before = f"process_{way.name}_"
            found |= {f"{before}ore_t": ore * here, f"{before}feed_t": feed}
            for name, metal in way.metal.items():
                found[f"{before}grade_{name}"] = priced.grade[name] * ore * here
                found[f"{before}metal_{name}"] = metal * here
        return found

    def summed(self, here: Bools) -> dict[str, Any]:
        """The amounts of some blocks: grades by tonnes of ore."""
        row: dict[str, Any] = {"blocks": int(here.sum())}
        row |= {name: float(each[here].sum()) for name, each in self.amounts.items()}
        ore = row["ore_t"]
        strip = {"strip": row["waste_t"] / ore if ore else np.nan}
        priced = self.schedule.shells.study.priced
        for before in ("", *(f"process_{name}_" for name in priced.process_names)):
            of_kind = row[f"{before}ore_t"]
            for name in priced.grade:
                graded = row[f"{before}grade_{name}"]
                row[f"{before}grade_{name}"] = graded / of_kind if of_kind else np.nan
        return row | strip

    def years(self) -> pd.DataFrame:
        """A row for each period up to the last in which something is dug.

        Returns
        -------
        DataFrame
            ``period`` and ``year`` (from 1), ``blocks``; ``rock_t``, ``ore_t``, ``waste_t``,
            ``strip``, ``feed_t``; for each metal ``grade_<metal>`` (of the ore in place) and
            ``metal_<metal>`` (recovered), and where there are several processes the columns of
            `pit_by_pit.Cells.by_process`; ``fixed_cost`` where there is one, ``cash_flow``
            (undiscounted, less the fixed cost), ``weight`` (what money of the period is worth
            today), ``discounted``, ``npv`` (so far); ``mining_used`` and ``mill_used`` (shares of
            the capacities; of several processes ``process_<name>_used``), ``binds`` (which of
            ``mining``, ``mill`` or each process by its name, and ``sink`` do, joined by
            `NAME_SEPARATOR`: a rate of which 0.995 or more is used, or that is full as `full_rates`
            says), with a sink rate
            ``sink_columns`` (of blocks in which it binds), ``sink_x``, ``sink_y`` and
            ``sink_bench`` (centre of the lowest block that it keeps out of the period), ``bottom``
            (the toe of its lowest bench), and with a mining width ``narrow_share`` of its rock.
        """
        made, period = self.schedule.production, self.schedule.period
        rows, npv = list[dict[str, Any]](), 0.0
        for t in range(int(period.max()) + 1):
            here = period == t
            found = self.summed(here & self.schedule.shells.study.model.is_rock)
            fixed = made.terms.fixed_cost if found["rock_t"] else 0
            flow, weight = found.pop("cash_flow") - fixed, made.terms.weights[t] / MILLION
            npv += flow * weight
            rows.append(
                {"period": t + 1, "year": t // made.terms.per_year + 1}
                | found
                | ({"fixed_cost": fixed} if made.terms.fixed_cost else {})
                | {"cash_flow": flow, "weight": weight, "discounted": flow * weight, "npv": npv}
                | self.binding(t, here)
                | self.shape(t, here)
            )
        return pd.DataFrame(rows)

    def binding(self, t: int, here: Bools) -> dict[str, Any]:
        """What share of each capacity a period uses, which of them binds, and where the sink rate
        does."""
        terms, amounts = self.schedule.production.terms, self.amounts
        names = self.schedule.shells.study.priced.process_names
        columns = ["rock_t", *([f"process_{name}_feed_t" for name in names] or ["feed_t"])]
        shares = {}
        for name, room, column in zip(terms.resources, terms.capacities, columns):
            used = float(amounts[column][here].sum()) * THOUSAND
            shares[name] = used / room[t] if room and room[t] else np.nan
        tight = [
            name
            for r, (name, share) in enumerate(shares.items())
            if share >= _FULL or self.full_rates[r, t]
        ]
        sunk = self.sunk(t) if terms.sink is not None else {}
        tight += ["sink"] if sunk.get("sink_columns") else []
        return (
            {
                f"{'process_' if name in names else ''}{name}_used": share
                for name, share in shares.items()
            }
            | {"binds": NAME_SEPARATOR.join(tight)}
            | sunk
        )

    def sunk(self, t: int) -> dict[str, Any]:
        """In how many columns the sink rate keeps blocks out of a period, and the lowest of these
        blocks."""
        model, made = self.schedule.shells.study.model, self.schedule.production
        units = self.kept_by_sink[self.unit_period[self.kept_by_sink] == t + 1]
        kept = made.blocks[np.isin(made.unit, units)]
        rock = model.blocks.iloc[kept[model.is_rock[kept]]]
        row: dict[str, Any] = {"sink_columns": len(rock[["ix", "iy"]].drop_duplicates())}
        place: Sequence[Any] = (np.nan,) * 3
        if len(rock):
            lowest = rock.iloc[int(rock.iz.to_numpy().argmin())]
            place = model.grid.world(*(int(lowest[name]) for name in ("ix", "iy", "iz")))
        return row | {f"sink_{name}": float(v) for name, v in zip(("x", "y", "bench"), place)}

    @cached_property
    def unit_period(self) -> Ints:
        """The period of each unit, the number of periods where it stays; gates come as early as
        they may."""
        made = self.schedule.production
        of_blocks = self.schedule.period[made.blocks].astype(np.int64)
        found = np.zeros(made.units, np.int64)
        found[made.unit] = np.where(of_blocks < 0, made.periods, of_blocks)
        for gate in made.order[made.order >= made.units - made.gates].tolist():
            above = made.above.other[made.above.first[gate] : made.above.first[gate + 1]]
            found[gate] = found[above].max(initial=0)
        return found

    @cached_property
    def full_rates(self) -> Bools:
        """As `full_rates` says of the schedule."""
        return full_rates(self.schedule.production, self.unit_period, self.schedule.goes)

    @cached_property
    def kept_by_sink(self) -> Ints:
        """As `Production.kept_by_sink`."""
        return self.schedule.production.kept_by_sink(self.unit_period)

    def shape(self, t: int, here: Bools) -> dict[str, Any]:
        """How deep a period comes, and how much of its rock lies where it is narrow."""
        model = self.schedule.shells.study.model
        rock = here & model.is_rock
        levels = model.blocks.iz.to_numpy()[rock]
        row: dict[str, Any] = {
            "bottom": float(model.grid.world(0, 0, levels.min() - 0.5)[2])
            if len(levels)
            else np.nan
        }
        if self.mining_width is not None:
            total = float(self.amounts["rock_t"][rock].sum())
            row["narrow_share"] = self.narrow(t, rock) / total if total else np.nan
        return row

    def narrow(self, t: int, rock: Bools) -> float:
        """The tonnes of a period that lie where it is less wide on its bench than the mining width,
        with the floor beside it."""
        model, width = self.schedule.shells.study.model, self.mining_width or 0.0
        sx, sy, _ = model.grid.size
        found = 0.0
        for level in np.unique(model.blocks.iz.to_numpy()[rock]).tolist():
            here, floor = self.cube[:, :, level] == t, self.floor(t, level)
            wide = widths.widths(here | floor, (sx, sy), width)
            found += float(self.tonnes_cube[:, :, level][here & (wide < width)].sum())
        return found

    def floor(self, t: int, level: int) -> Bools:
        """Which cells of a bench were dug before a period, and what is below them wasn't."""
        found: Bools = (self.cube[:, :, level] >= 0) & (self.cube[:, :, level] < t)
        if level:
            below = self.cube[:, :, level - 1]
            found &= (below < 0) | (below >= t)
        return found

    @cached_property
    def cube(self) -> Indices:
        """The period of each place, -1 where nothing is dug."""
        model = self.schedule.shells.study.model
        dug = np.where(model.is_rock, self.schedule.period, -1).astype(np.int16)
        return outlines.cube_of(model, dug, -1)

    @cached_property
    def tonnes_cube(self) -> Floats:
        """The tonnes of each place."""
        model = self.schedule.shells.study.model
        return outlines.cube_of(model, _tonnes_of(self.schedule.shells.study), 0.0)

    def benches(self) -> pd.DataFrame:
        """A row for each period and bench that it digs rock on, from the top: ``period``, ``year``,
        ``bench`` (elevation of its blocks' centres), ``pushback`` (from 1) where [schedule] has
        pushbacks, and the columns of `years` up to ``cash_flow``, before fixed costs."""
        schedule, model = self.schedule, self.schedule.shells.study.model
        rock, terms = model.is_rock, schedule.production.terms
        pushback = schedule.pushbacks
        keys = np.column_stack([schedule.period, -model.blocks.iz.to_numpy(), pushback])
        dug, rows = (schedule.period >= 0) & rock, []
        for t, level, number in np.unique(keys[dug], axis=0).tolist():
            here = dug & (keys == (t, level, number)).all(axis=1)
            rows.append(
                {
                    "period": t + 1,
                    "year": t // terms.per_year + 1,
                    "bench": float(model.grid.world(0, 0, -level)[2]),
                }
                | ({"pushback": number} if terms.pushbacks else {})
                | self.summed(here)
            )
        return pd.DataFrame(rows)
