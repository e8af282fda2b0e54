"""What is strange about costs: work that costs nothing, and a tonne that costs far more or less than
in other open pits, as a misplaced point makes it."""
from __future__ import annotations

from collections.abc import Iterator, Mapping
from typing import NamedTuple, Optional

import numpy as np

from ..base.amounts import THOUSAND, Priced, Way
from ..base.arrays import Bools, Floats
from ..base.errors import KeyPath, toml_spelled
from ..base.strange import Strange, rounded
from ..base.usual_metals import units_a_dollar
from ..model.economics import Amount, Economics
from ..model.model import Model


_ROOM = 2.0  # how far below the least a cost in another currency is taken for one in dollars


class _Usual(NamedTuple):
    """What a tonne costs in dollars, or in a currency like them: mostly from `low` to `high`, and
    hardly anywhere below `least` or above `most`."""

    least: float
    low: float
    high: float
    most: float

    def is_off(self, cost: float) -> bool:
        """Whether such a cost is told."""
        return not self.least <= cost <= self.most

    def is_in_dollars(self, cost: float, rate: float) -> bool:
        """Whether a cost in a currency of which a dollar is worth so many units is one in dollars: far
        below what is told there."""
        return not self.is_off(cost) and cost < self.least * rate / _ROOM

    def meant(self, cost: float) -> Optional[float]:
        """The cost with its point elsewhere, where that is a usual one; else None.

        >>> [_DIGGING.meant(cost) for cost in (24, 250, 0.24, 5000, 1e9)]
        [2.4, 2.5, 2.4, 5.0, None]
        """
        for times in (10.0, 100.0, 1000.0):
            moved = float(f"{cost / times if cost > self.most else cost * times:.6g}")
            if self.low <= moved <= self.high:
                return moved
        return None


# Of bulk mines with large trucks to small ones in hard rock; of a heap leach to a plant that roasts.
# Both leave room for what mines report beyond them, and less than a point that is a place off takes.
_DIGGING, _TREATING = _Usual(0.5, 1, 10, 15), _Usual(1, 2, 60, 80)


class _Work(NamedTuple):
    """What is paid by the tonne.

    Attributes
    ----------
    what : str
        Digging a tonne, or treating one and by which process.
    usual : _Usual
    cost : Amount
        As study.toml says it.
    a_tonne : float array
        What a tonne of each block costs by that.
    key : KeyPath
    place : str
        Where the key stands.
    """

    what: str
    usual: _Usual
    cost: Amount
    a_tonne: Floats
    key: KeyPath
    place: str


def of_costs(model: Model, priced: Priced, economics: Economics) -> Iterator[Strange]:
    """Work that costs nothing, or far more or less than is usual; in a currency that is worth far
    less than a dollar what seems to be in dollars."""
    tonnes = model.blocks.tonnes.to_numpy(float)
    dug = (tonnes > 0) & ~priced.forbidden
    unit = model.units.words.removesuffix("s")
    yield from _of_nothing(priced, dug, economics, unit)
    rate = units_a_dollar(economics.currency)
    if rate is None:
        return
    digging = priced.mining[dug] * float(priced.rounding) / tonnes[dug]
    key: KeyPath = ("economics", "mining")
    work = [_Work(f"digging a {unit}", _DIGGING, economics.mining, digging, key, "[economics]")]
    ore = tonnes if priced.part is None else tonnes * priced.part
    for way, said in zip(priced.ways, economics.treatments):
        what = f"treating a {unit}{f' by {way.name}' if said.label else ''}"
        a_tonne, key = _treating(way, ore, priced, economics), said.key("processing")
        place = said.label or "[economics]"
        work.append(_Work(what, _TREATING, said.cost, a_tonne, key, place))
    for each in work:
        if rate > 1:
            yield from _of_dollars(each, economics.currency, rate)
        else:
            yield from _of_level(each, economics.currency, unit)


def _of_dollars(work: _Work, currency: str, rate: float) -> Iterator[Strange]:
    """A tonne that costs in half of the blocks what is usual in dollars, in another currency."""
    cost, usual = float(np.median(work.a_tonne)) if len(work.a_tonne) else 0.0, work.usual
    if usual.is_in_dollars(cost, rate):
        low, high = (rounded(each * rate, 2) for each in (usual.low, usual.high))
        yield Strange(
            f"{work.what} costs {rounded(cost)} {currency}",
            f"{low} to {high} is usual, and in dollars {usual.low:g} to {usual.high:g}",
            f'{work.key[-1]} in {work.place} in {currency}, or currency = "$"',
            work.key,
        )


def _of_nothing(priced: Priced, dug: Bools, economics: Economics, unit: str) -> Iterator[Strange]:
    """Work that costs nothing."""
    if dug.any() and (priced.mining[dug] == 0).mean() > 0.5:
        yield Strange(
            (
                f"digging costs nothing for {int((priced.mining[dug] == 0).sum()):,} of"
                f" {int(dug.sum()):,} blocks"
            ),
            f"a {unit} costs something, waste too",
            "mining in [economics]",
            ("economics", "mining"),
        )
    for (way, ore), said in zip(priced.by_way(THOUSAND), economics.treatments):
        if ore.any() and (way.processing[ore] == 0).mean() > 0.5:
            yield Strange(
                f"treating the ore {f'by {way.name} ' if said.label else ''}costs nothing",
                f"a {unit} costs something",
                f"cost of {said.label}" if said.label else "processing in [economics]",
                said.key("processing"),
            )


def _treating(way: Way, ore: Floats, priced: Priced, economics: Economics) -> Floats:
    """What treating a tonne of feed costs, of each block for which it costs something: without what
    selling its metals does, which `Way.processing` has too."""
    here = (way.processing > 0) & (ore > 0)
    costs: Floats = way.processing[here] * float(priced.rounding)
    for metal in economics.metals:
        costs -= way.metal[metal.name][here] * (metal.selling * economics.rate_of(metal))
    return costs / (ore[here] * way.feed)


def _of_level(work: _Work, currency: str, unit: str) -> Iterator[Strange]:
    """A tonne that costs far more or less than usual: of a table by rock each of its numbers is
    looked at, and of a formula or a column what half of the blocks cost."""
    usual, name, better = work.usual, work.key[-1], ""
    if isinstance(work.cost, Mapping):
        off = {rock: cost for rock, cost in work.cost.items() if cost > 0 and usual.is_off(cost)}
        said = ", ".join(f"{rounded(cost)} {currency} of {rock}" for rock, cost in off.items())
        meant = {rock: usual.meant(cost) for rock, cost in off.items()}
        if all(meant.values()):
            better = toml_spelled({**work.cost, **meant})
    elif isinstance(work.cost, str):
        cost = float(np.median(work.a_tonne)) if len(work.a_tonne) else 0.0
        off = {"": cost} if cost > 0 and usual.is_off(cost) else {}
        side = "more" if cost > usual.most else "less"
        said = f"{rounded(cost)} {currency} or {side} in half of the blocks"
    else:
        off = {"": work.cost} if work.cost > 0 and usual.is_off(work.cost) else {}
        said = f"{rounded(work.cost)} {currency}"
        one = usual.meant(work.cost)
        better = f"{one:g}" if one else ""
    if off:
        yield Strange(
            f"{work.what} costs {said}",
            f"{usual.low:g} to {usual.high:g} is usual",
            f"{name} = {better} in {work.place}, if that is what is meant"
            if better
            else f"{name} in {work.place}, which is for a {unit}",
            work.key,
        )
