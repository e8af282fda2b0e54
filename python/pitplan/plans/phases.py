"""Pushbacks: what each of some chosen pits adds to the one before it, bench by bench, as a
scheduler takes it in."""
from __future__ import annotations

from collections.abc import Sequence
from typing import Any

import numpy as np
import pandas as pd

from ..base.amounts import THOUSAND
from ..base.arrays import Array, Bools, Floats, Shorts
from ..base.errors import PlanError
from ..base.units_shown import length_text, share_text
from ..model import outlines
from ..study.pit_by_pit import Cells
from ..study.reserves import reserves
from ..study.shells import Shells
from . import widths

_CLASSED = ("rock_t", "ore_t")  # of each resource class
_TREATED = ("ore_t", "feed_t")  # of each process
_SUMMED = ("blocks", "rock_t", "ore_t", "waste_t", "feed_t", "worth")


class Phases:
    """The pushbacks of a series of pits: the first pit, and what each further one adds.

    Parameters
    ----------
    shells : Shells
        Of the chosen factors alone. Each pushback is the difference of two best pits as `pit`
        states them, so after each the mine is a proved pit.
    mining_width : float, optional
        The least width that machines need, in the unit of the coordinates.
    mines : sequence of bool arrays of shape (blocks,), optional
        The mine after each pushback, each within the next, where it isn't a proved pit: as
        `widening.Widening` makes them. A bench's width counts the floor then that was dug before,
        too.

    Attributes
    ----------
    pushback : int16 array of shape (blocks,)
        The pushback that digs a block, counted from 1; 0 where none does, and of air.

    Raises
    ------
    PlanError
        Where two of the pits are the same, or the first is empty: there is no such pushback then;
        or where the mining width isn't above 0.
    """

    def __init__(
        self,
        shells: Shells,
        mining_width: float | None = None,
        mines: Sequence[Bools] | None = None,
    ) -> None:
        if mining_width is not None and not mining_width > 0:
            raise PlanError(f"the mining width is {mining_width:g}, and has to be above 0")
        self.shells, self.mining_width, self.mines = shells, mining_width, mines
        count = len(shells.factors)
        self.shell = (
            shells.shell if mines is None else (count - np.sum(mines, axis=0)).astype(np.int16)
        )
        is_dug = shells.study.model.is_rock & (self.shell < count)
        self.pushback: Shorts = np.where(is_dug, self.shell + 1, 0).astype(np.int16)
        there = np.bincount(self.pushback, minlength=count + 1)[1:]
        if (there == 0).any():
            i = int(np.argmin(there))
            before = (
                f"the pit at {share_text(shells.factors[i])} is that at {share_text(shells.factors[i - 1])}"
                if i
                else f"the pit at {share_text(shells.factors[0])} is empty"
            )
            raise PlanError(
                f"{before}: there is no pushback {i + 1}",
                try_this="leave that factor out, or take factors that lie further apart",
            )

    def __len__(self) -> int:
        return len(self.shells.factors)

    @property
    def set_name(self) -> str:
        """Which set of pushbacks this is, after that word: as cut, or widened to what."""
        if self.mines is None:
            return "as cut between proved pits"
        unit = self.shells.study.model.units.length
        return f"widened to {length_text(self.mining_width or 0.0)} {unit}"

    @property
    def set_text(self) -> str:
        """The same, with what the mine is after each."""
        if self.mines is None:
            return f"{self.set_name}: after each the mine is a pit that pit has proved"
        return f"{self.set_name}: after each {self.after}"

    @property
    def moved(self) -> list[int]:
        """The pushbacks, from 1, after which the mine isn't the proved pit, since blocks were
        taken in or left."""
        return [
            i + 1 for i, mine in enumerate(self.mines or ()) if (mine != self.shells.holds(i)).any()
        ]

    @property
    def after(self) -> str:
        """What the mine is after each pushback."""
        if not self.moved:
            return "the mine is a proved pit"
        slopes = "the mine keeps the slopes; after"
        if len(self.moved) == len(self) - 1:
            return f"{slopes} the last it is a proved pit, and none of the others is a best one"
        named = ", ".join(map(str, self.moved))
        return f"{slopes} {named} it is no best pit, and after the others it is a proved one"

    def benches(self, base: int = THOUSAND) -> pd.DataFrame:
        """A row for each pushback and bench that it has blocks on, in the order of digging:
        pushback by pushback, from the top.

        Parameters
        ----------
        base : int
            The factor, in thousandths, at which ore and worths count.

        Returns
        -------
        DataFrame
            ``pushback`` (from 1), ``factor`` (of its pit, as a share of the price), ``bench``
            (elevation of its blocks' centres), ``toe``, ``crest``; ``blocks``, ``rock_t``,
            ``ore_t``, ``waste_t`` (tonnes in place; ore is what goes to the mill), ``strip`` (waste
            by ore), ``feed_t`` (what the mill gets), ``worth``; for each metal ``grade_<metal>``
            and ``metal_<metal>``; ``width`` (the thinnest, see `widths.widths`), and with a mining
            width ``narrow_blocks`` and ``narrow_t``: what lies where it is less. Where the table
            has resource classes, the columns of `Cells.by_class`, and where there are several
            processes, those of `Cells.by_process`.
        """
        shells = self.shells
        grid, cells = shells.study.model.grid, Cells.of(shells, base, None, self.shell)
        cube = outlines.cube_of(shells.study.model, self.pushback, 0)
        tonnes = outlines.cube_of(
            shells.study.model, shells.study.model.blocks.tonnes.to_numpy(float), 0.0
        )
        rows = []
        for i, down in np.argwhere(cells.blocks > 0).tolist():
            level = grid.shape[2] - 1 - down
            here = cube[:, :, level] == i + 1
            if not here.any():
                continue  # air alone
            toe, centre, crest = grid.world(0, 0, [level - 0.5, level, level + 0.5])[2].tolist()
            found = cells.at(i, down) | {"blocks": int(here.sum())}
            rock = {name: found.pop(name) for name in ("blocks", "rock_t", "ore_t", "waste_t")}
            mill = {
                "strip": rock["waste_t"] / rock["ore_t"] if rock["ore_t"] else np.nan,
                "feed_t": sum(cells.fed((i, down))),
            }
            row = {
                "pushback": i + 1,
                "factor": shells.factors[i] / THOUSAND,
                "bench": centre,
                "toe": toe,
                "crest": crest,
            }
            floor = self.floor(cube, i + 1, level)
            rows.append(row | rock | mill | found | self.room(here, floor, tonnes[:, :, level]))
        return pd.DataFrame(rows)

    def floor(self, cube: Shorts, pushback: int, level: int) -> Bools:
        """Which cells of a bench earlier pushbacks dug, without those below: room beside a widened
        pushback; else none counts."""
        found: Bools = (cube[:, :, level] > 0) & (cube[:, :, level] < pushback)
        if self.mines is None:
            return np.zeros_like(found)
        if level:
            found &= (cube[:, :, level - 1] == 0) | (cube[:, :, level - 1] >= pushback)
        return found

    def room(self, plane: Bools, floor: Bools, tonnes: Floats) -> dict[str, Any]:
        """How wide a pushback is on a bench, with floor beside it."""
        sx, sy, _ = self.shells.study.model.grid.size
        found = np.where(
            plane, widths.widths(plane | floor, (sx, sy), self.mining_width or 0.0), 0.0
        )
        row: dict[str, Any] = {"width": widths.thinnest(found, (sx, sy))}
        if self.mining_width is not None:
            narrow = plane & (found < self.mining_width)
            row |= {"narrow_blocks": int(narrow.sum()), "narrow_t": float(tonnes[narrow].sum())}
        return row

    def table(self, base: int = THOUSAND, benches: pd.DataFrame | None = None) -> pd.DataFrame:
        """A row for each pushback: the sums of `benches`, grades by tonnes of ore, and the thinnest
        width with its bench.

        Parameters
        ----------
        base : int
        benches : DataFrame, optional
            As `benches` gives it, where it is there already.

        Returns
        -------
        DataFrame
            ``pushback``, ``factor``, ``top`` and ``bottom`` (the crest of its highest bench, the
            toe of its lowest), ``benches`` (how many), the columns of `benches` from ``blocks`` on,
            and ``width_bench``, where it is thinnest.
        """
        found = self.benches(base) if benches is None else benches
        names = [
            str(name)[len("metal_") :] for name in found.columns if str(name).startswith("metal_")
        ]
        rows, classes = [], self.shells.study.classes
        for (pushback, factor), part in found.groupby(["pushback", "factor"], sort=True):
            ore = float(part.ore_t.sum())
            row: dict[str, Any] = {
                "pushback": pushback,
                "factor": factor,
                "top": part.crest.max(),
                "bottom": part.toe.min(),
                "benches": len(part),
            }
            row |= {name: part[name].sum() for name in _SUMMED}
            row["strip"] = float(row["waste_t"]) / ore if ore else np.nan
            for name in names:
                row[f"grade_{name}"] = (
                    float((part[f"grade_{name}"].fillna(0) * part.ore_t).sum()) / ore
                    if ore
                    else np.nan
                )
                row[f"metal_{name}"] = part[f"metal_{name}"].sum()
            at = part.width.idxmin()
            row |= {"width": part.width[at], "width_bench": part.bench[at]}
            row |= {
                name: part[name].sum() for name in ("narrow_blocks", "narrow_t") if name in part
            }
            processes = [f"process_{name}_" for name in self.shells.study.priced.process_names]
            row |= _of_kinds(part, processes, _TREATED, names)
            kinds = [f"class_{name}_" for name in (classes.names if classes else ())]
            rows.append(row | _of_kinds(part, kinds, _CLASSED, names))
        return pd.DataFrame(rows)

    def reserves(self, base: int = THOUSAND) -> pd.DataFrame:
        """A row for each pushback, bench, rock, resource class and way. See `reserves.reserves`."""
        return reserves(self.shells.study, {"pushback": self.pushback}, base)

    def of_blocks(self) -> pd.DataFrame:
        """The pushback of each block: ``id``, ``row`` (as a spreadsheet counts it; 0 for blocks
        that were added), ``pushback``."""
        model = self.shells.study.model
        return pd.DataFrame(
            {"id": model.blocks["id"].to_numpy(), "row": model.table_row, "pushback": self.pushback}
        )


class Mines(Shells):
    """The mine after each pushback in the place of pits, for files that are made of either.

    Attributes
    ----------
    factors : list of int
        Of the pits that the pushbacks end at.
    shell : int array of shape (blocks,)
        As of `Shells`, by pushbacks.
    """

    called = "pushback"

    def __init__(self, phases: Phases) -> None:
        self.study, self.factors = phases.shells.study, list(phases.shells.factors)
        self.shell, self.verdicts = phases.shell, []

    @property
    def first(self) -> Array:
        """The number of each block's pushback; 0 where none digs it, and of air."""
        return np.where(self.dug < len(self), self.dug + 1, 0).astype(np.int16)


def _of_kinds(
    part: pd.DataFrame, kinds: Sequence[str], summed: Sequence[str], metals: Sequence[str]
) -> dict[str, float]:
    """The columns of processes or classes of some benches added up, by what these columns begin
    with: grades by tonnes of ore of the kind."""
    found: dict[str, float] = {}
    for before in kinds:
        ore = part[f"{before}ore_t"]
        found |= {f"{before}{name}": float(part[f"{before}{name}"].sum()) for name in summed}
        for metal in metals:
            graded = float((part[f"{before}grade_{metal}"].fillna(0) * ore).sum())
            found[f"{before}grade_{metal}"] = graded / float(ore.sum()) if ore.sum() else np.nan
            found[f"{before}metal_{metal}"] = float(part[f"{before}metal_{metal}"].sum())
    return found
