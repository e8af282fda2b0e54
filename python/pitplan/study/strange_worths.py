"""What is strange about a model's tonnes and worths, as a unit that is another than the planner
thinks makes them.

Nothing here is refused: an odd mine is a mine. `pitplan build` says it.
"""
from __future__ import annotations

import numpy as np

from ..base.amounts import THOUSAND, Priced
from ..base.strange import Strange, rounded
from ..base.units import Units
from ..table.study_keys import METALS
from ..model.economics import Economics, holds
from ..model.model import Model

# tonnes a cubic metre; or a cubic foot, where nothing says that coordinates are in feet
_LIGHTEST, _HEAVIEST = (
    0.05,
    10.0,
)
_RICHEST = 50  # how many times its costs ore may bring
_LEAST = 0.002  # the share that a metal has of what all bring


def of_tonnes(model: Model) -> list[Strange]:
    """Where rock is lighter or heavier than any is."""
    tonnes = model.blocks.tonnes.to_numpy(float)
    tonnes = tonnes[tonnes > 0]
    if not len(tonnes):
        return [
            Strange(
                "no block has any tonnes",
                "",
                "another column of tonnes or density in [model] columns",
                ("model", "columns"),
            )
        ]
    weight, size = float(tonnes.mean()), " x ".join(f"{side:g}" for side in model.grid.size)
    density = weight / (model.grid.volume * model.units.weight_of_cube)
    names_units = model.units != Units()
    if _LIGHTEST <= density <= _HEAVIEST:
        return []
    return [
        Strange(
            (
                f"a block of {size} weighs {rounded(weight, 4)} {model.units.words} on average,"
                f" {rounded(density)} {'tonnes a cubic metre' if names_units else 'for each cubic unit'}"
            ),
            "rock has 1.5 to 5 in a cubic metre",
            (
                f"is that the column of tonnes or density, in {model.units.words}, and is the size in the unit of"
                " the coordinates?"
            ),
            ("model", "size"),
        )
    ]


def of_worths(priced: Priced, economics: Economics) -> list[Strange]:
    """Where no ore pays, where it pays far too well, and where a metal brings next to nothing."""
    units, key = "price, price_unit, grade_unit and recovery in [economics]", ("economics", METALS)
    ore = priced.treated(THOUSAND)
    if not ore.any():
        return [
            Strange(
                (
                    "no block pays for its treatment at the full price, so each pit up to factor 1"
                    " is empty"
                ),
                "",
                units,
                key,
            )
        ]
    ways = priced.by_way(THOUSAND)
    costs = float(
        sum(way.processing[here].sum(dtype=float) for way, here in ways)
        + priced.mining[ore & ~priced.forbidden].sum(dtype=float)
    )
    times = sum(float(way.revenue[here].sum(dtype=float)) for way, here in ways) / max(costs, 1.0)
    found = (
        [
            Strange(
                f"the ore brings {times:,.0f} times what digging and treating it costs",
                "",
                units,
                key,
            )
        ]
        if times > _RICHEST
        else []
    )
    brings = {
        metal.name: max(
            float(way.metal[metal.name].sum())
            * metal.price
            * economics.rate_of(metal)
            * said.payable[metal.name]
            for way, said in zip(priced.ways, economics.treatments)
        )
        for metal in economics.metals
    }
    return found + [
        Strange(
            (
                f"{metal.name} brings {_percent(brings[metal.name] / sum(brings.values()))} of what"
                " all metals bring"
            ),
            "",
            f"price, price_unit, grade_unit and recovery of {metal.name}",
            (*key, metal.name),
        )
        for metal in economics.metals
        if metal.price > 0 and brings[metal.name] < _LEAST * sum(brings.values())
    ]


def of_forbid(model: Model, economics: Economics) -> list[Strange]:
    """The formulas of `forbid` that hold for no block."""
    return [
        Strange(
            (
                f"[economics] forbid = {formula!r} holds for no block, so it keeps nothing from"
                " being dug"
            ),
            "",
            "the numbers in it, by the table's own coordinates and units",
            ("economics", "forbid"),
        )
        for formula in economics.forbid
        if not np.any(holds(str(formula), model)[0])
    ]


def _percent(share: float) -> str:
    """A share in percent, with two digits that count.

    >>> _percent(0.0019), _percent(0.0), _percent(0.25)
    ('0.19 %', '0 %', '25 %')
    """
    return f"{100 * share:.2g} %"
