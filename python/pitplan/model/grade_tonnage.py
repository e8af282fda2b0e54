"""Grade and tonnage by rock, resource class and process."""
from __future__ import annotations

from collections.abc import Mapping
from dataclasses import dataclass
from typing import Any

import numpy as np
import pandas as pd

from ..base.amounts import THOUSAND, Priced
from ..base.arrays import Bools, Floats
from .classes import Classes
from .model import Model

TITLE = "in place, at the full price; metals as recovered"


def by_rock(model: Model, priced: Priced, metals: Mapping[str, Mapping[str, str]]) -> pd.DataFrame:
    """A row for each rock, the heaviest first, and one for all.

    Parameters
    ----------
    metals : mapping
        ``grade_unit`` and ``price_unit`` of each metal.

    Returns
    -------
    DataFrame
        ``rock``, ``blocks``, ``Mt`` (million tonnes in place; ``Mst`` of short tons), ``ore Mt``
        (in place; what would pay for its treatment at the full price, once it is dug), and for each
        metal its mean grade in that ore and what would be recovered of it.
    """
    tonnes = model.blocks.tonnes.to_numpy(float)
    code, rocks = pd.factorize(model.blocks.rock)
    weighed = np.bincount(code, tonnes, len(rocks))
    order = np.argsort(-weighed, kind="stable")
    kinds = [(str(rocks[i]), code == i) for i in order] + [("all", np.ones(len(model), bool))]
    treated = _Treated.of(model, priced, THOUSAND)
    return _in_units(model, [{"rock": rock} | treated.row(here, metals) for rock, here in kinds])


def by_class(
    model: Model,
    priced: Priced,
    metals: Mapping[str, Mapping[str, str]],
    classes: Classes,
    sets: Mapping[str, Bools],
    base: int = THOUSAND,
) -> pd.DataFrame:
    """A row for each of some sets of blocks and each resource class that it has.

    Parameters
    ----------
    sets : mapping of str to bool array of shape (len(model),)
        By the name of each.
    base : int
        The factor, in thousandths, at which ore counts.

    Returns
    -------
    DataFrame
        ``of`` (the name of the set), ``class``, and the columns of `by_rock` from ``blocks`` on.
    """
    return _by_kind(
        model, _Treated.of(model, priced, base), metals, sets, ("class", classes.masks())
    )


def by_process(
    model: Model,
    priced: Priced,
    metals: Mapping[str, Mapping[str, str]],
    sets: Mapping[str, Bools],
    base: int = THOUSAND,
) -> pd.DataFrame:
    """A row for each of some sets of blocks and each process that gets something of it, and what of
    it is waste. There have to be several processes.

    Parameters
    ----------
    sets, base
        As of `by_class`.

    Returns
    -------
    DataFrame
        ``of`` (the name of the set), ``to`` (a process or "waste"), and the columns of `by_rock`
        from ``blocks`` on. A block counts whole where its ore goes.
    """
    return _by_kind(
        model, _Treated.of(model, priced, base), metals, sets, ("to", priced.goes(base))
    )


def _by_kind(
    model: Model,
    treated: _Treated,
    metals: Mapping[str, Mapping[str, str]],
    sets: Mapping[str, Bools],
    kinds: tuple[str, Mapping[str, Bools]],
) -> pd.DataFrame:
    """A row for each set of blocks and each kind that it has, by the name of the column of kinds
    and their blocks."""
    column, masks = kinds
    rows = [
        {"of": name, column: kind} | treated.row(held & here, metals)
        for name, held in sets.items()
        for kind, here in masks.items()
        if (held & here).any()
    ]
    none = {"of": "", column: ""} | treated.row(np.zeros(len(model), bool), metals)
    return _in_units(model, rows or [none])


def _in_units(model: Model, rows: list[dict[str, Any]]) -> pd.DataFrame:
    """Rows as a table, whose columns of tonnes are named in the model's unit of weight."""
    mega = f"M{model.units.weight}"
    return pd.DataFrame(rows).rename(columns={"Mt": mega, "ore Mt": f"ore {mega}"})


@dataclass(frozen=True)
class _Treated:
    """What becomes of each block, in arrays of shape (blocks,): its tonnes, those of its ore, its
    grades, and the metal that is recovered of it."""

    tonnes: Floats
    ore: Floats
    grade: dict[str, Floats]
    metal: dict[str, Floats]

    @classmethod
    def of(cls, model: Model, priced: Priced, base: int) -> _Treated:
        """At a factor, in thousandths."""
        tonnes = model.blocks.tonnes.to_numpy(float)
        return cls(tonnes, priced.ore_of(tonnes, base), priced.grade, priced.metal_of(base))

    def row(self, here: Any, metals: Mapping[str, Mapping[str, str]]) -> dict[str, Any]:
        """The line of some blocks, which `here` says: their tonnes, and of their ore the grades and
        the metal."""
        treated = here & (self.ore > 0)
        weight = float(self.ore[treated].sum())
        row: dict[str, Any] = {
            "blocks": int(np.count_nonzero(here)),
            "Mt": float(self.tonnes[here].sum()) / 1e6,
            "ore Mt": weight / 1e6,
        }
        for name, units in metals.items():
            row[f"{name} {units['grade_unit']}"] = (
                float((self.grade[name][treated] * self.ore[treated]).sum()) / weight
                if weight
                else float("nan")
            )
            row[f"{name} {units['price_unit']}"] = float(self.metal[name][treated].sum())
        return row
