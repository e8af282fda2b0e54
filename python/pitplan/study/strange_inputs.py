"""What looks wrong and isn't refused: what was seen, what was expected, and what to try.

An odd mine is a mine, so each of these is told and nothing is changed. None may come for the mines
of this repository as they are.
"""
from __future__ import annotations

import math
import re
from collections.abc import Iterable, Iterator, Mapping, Sequence
from typing import Any, Optional, Protocol

import numpy as np

from ..base.amounts import THOUSAND, Priced
from ..base.arrays import Bools, Ints
from ..base.errors import KeyPath, Remedy
from ..base.kept_json import words_in
from ..base.strange import Strange, rounded
from ..base.units import PRICES
from ..base.units_shown import amount_text, length_text, printed_scale
from ..base.usual_metals import unit_of, units_a_dollar, usual_price
from ..model.economics import Economics, Metal
from ..model.grid import Grid
from ..model.model import Model, TableKeys
from .pit_by_pit import YEARS, Rates
from .strange_costs import of_costs
from .strange_worths import of_forbid, of_tonnes, of_worths
from ..table.column_names import AIR, columns_with, misnamed, said_of_misnamed
from ..table.share_columns import is_part, remedy_of_part
from ..table.study_keys import METALS, PROCESSES
from ..table.value_kinds import has_ramp
from ..slopes.offsets import MEAN, WORST, Outline, Pattern
from ..slopes.ramps import ramp_of
from ..slopes.slopes import Slopes

_FLAT = 0.2  # the share of columns that end above the lowest level, where z runs the other way
_FAR_OFF = (
    20  # how many times the next largest cell a cell may be, or a block's weight the usual one
)
_DENSEST = 8  # tonnes for a cubic unit; ores of iron have up to 5
_TIMES_DENSER = 5  # how many times the usual density a block's may be
_FEW = 10  # cells that are looked at so
_ONE_IN_A_MILLION = ("g/t", "ppm")
_RICH = 0.1  # the share of a rock that has grades as ore has
_EVERYWHERE = 0.95  # the share of the rock from which on a formula keeps nearly all
_TIMES_USUAL = 8  # how many times a metal's usual price a price may be, or its share
_LEAST_SELLING, _MOST_SELLING = 5e-4, 0.6  # of the price
_LONGEST, _SHORTEST = 200, 0.01  # years that a mine takes
_CHEAPEST, _DEAREST = 0.02, 0.3  # a year, that a mine's money is discounted by
_DEPTHS = ("depth", "prof", "profundidad", "profundidade", "profondeur", "tiefe", "teufe")
# A region of such a name lies that way of the middle: as (east, north).
_WAYS = {
    "N": (0, 1),
    "NORTH": (0, 1),
    "NORTE": (0, 1),
    "NORD": (0, 1),
    "S": (0, -1),
    "SOUTH": (0, -1),
    "SUR": (0, -1),
    "SUL": (0, -1),
    "SUD": (0, -1),
    "E": (1, 0),
    "EAST": (1, 0),
    "ESTE": (1, 0),
    "LESTE": (1, 0),
    "W": (-1, 0),
    "WEST": (-1, 0),
    "OESTE": (-1, 0),
    "OUEST": (-1, 0),
}


class _Says(Protocol):
    """What of a study's study.toml is looked at."""

    @property
    def keys(self) -> TableKeys:
        ...

    @property
    def economics(self) -> Economics:
        ...

    @property
    def slopes(self) -> Slopes:
        ...

    @property
    def rates(self) -> Mapping[str, float]:
        ...

    @property
    def values(self) -> Mapping[str, Mapping[str, Any]]:
        ...


def looks(model: Model, priced: Priced, plan: _Says) -> list[Strange]:
    """All that looks wrong of a model and of what its blocks bring: causes before what comes of them,
    so that the first one is the one to begin with."""
    rock, economics = model.blocks.tonnes.to_numpy(float) > 0, plan.economics
    if not rock.any():
        return [
            *of_tonnes(model),
            *of_forbid(model, economics),
            *of_worths(priced, economics),
        ]
    return [
        # where blocks are, and what they weigh: first by single rows and columns, then by all
        *_of_axes(model),
        *_of_ground(model, rock),
        *_of_weightless(model, plan),
        *_of_density(model),
        *_of_weights(model, rock),
        *of_unread(model, plan),
        *of_tonnes(model),
        # grades, prices and costs
        *_of_cells(model, economics),
        *_of_grade_units(model, economics),
        *_of_prices(economics),
        *_of_dollars(economics),
        *_of_selling(economics),
        *of_costs(model, priced, economics),
        # what may be dug, and be treated
        *of_forbid(model, economics),
        *_of_forbid(priced, rock),
        *_of_untaken(model, priced, economics),
        # what comes of all these
        *of_worths(priced, economics),
        *_of_idle_ways(model, priced, economics),
        *of_rates(model, priced, plan.rates),
        *_of_schedule_rates(model, priced, plan.values["schedule"], plan.rates),
        *_of_two_rates(plan.values["schedule"], plan.rates),
        # walls, on which none of these hangs
        *_of_regions(model, plan.slopes),
        *_of_bearings(plan.slopes),
        *of_ramps(plan.slopes, model.units.length),
    ]


def _of_axes(model: Model) -> Iterator[Strange]:
    """Coordinates whose columns are called as another axis is."""
    wrong = misnamed(model.columns)
    if wrong:
        better = {axis: model.columns[key] for key, axis in wrong.items()}
        yield Strange(
            *said_of_misnamed(model.columns, wrong),
            columns_with(model.columns, **better),
            ("model", "columns", next(iter(wrong))),
        )


def _of_ground(model: Model, rock: Bools) -> Iterator[Strange]:
    """Heights that run the other way: ground that is even above and uneven below."""
    b, way = model.blocks, "depth" if not model.depth else "elevation"
    name = model.columns["z"]
    if not model.depth and any(word in name.lower() for word in _DEPTHS):
        yield Strange(
            f"z is read from {name} as an elevation",
            "a depth counts downward",
            'z = "depth" in [model]',
            ("model", "z"),
            Remedy(("model", "z"), "depth"),
        )
        return
    cube = np.zeros(model.grid.shape, bool)
    cube[b.ix[rock], b.iy[rock], b.iz[rock]] = True
    columns = cube.any(axis=2)
    above, below = cube[:, :, ::-1].argmax(axis=2)[columns], cube.argmax(axis=2)[columns]
    if not above.any() and (below > 0).mean() > _FLAT and len(np.unique(below)) > 1:
        yield Strange(
            (
                "rock reaches the highest level in each column, and ends above the lowest in"
                f" {int((below > 0).sum()):,} of {len(below):,}"
            ),
            "ground is uneven above, not below",
            f'z = "{way}" in [model], if {name} counts the other way',
            ("model", "z"),
            Remedy(("model", "z"), way),
        )


def _of_weights(model: Model, rock: Bools) -> Iterator[Strange]:
    """Blocks whose weight isn't known, and so are air; and a block that weighs many times what the
    others do."""
    if model.unweighed:
        count, kinds = sum(model.unweighed.values()), ", ".join(
            f"{kind or 'without a rock'} {rows:,}"
            for kind, rows in list(model.unweighed.items())[:3]
        )
        column = model.columns.get("tonnes", model.columns.get("density", ""))
        yield Strange(
            f"{count:,} rows have no {column}, as absent says, and weigh nothing ({kinds})",
            "they are air then, and are dug at no cost",
            f"{column} of these rows, if they are rock",
            ("model", "absent"),
        )
    tonnes = model.blocks.tonnes.to_numpy(float)
    usual = float(np.median(tonnes[rock]))
    heavy = np.setdiff1d(np.flatnonzero(tonnes > _FAR_OFF * usual), _too_dense(model)[0])
    if 0 < len(heavy) <= _FEW:
        at = int(heavy[0])
        yield Strange(
            f"row {_row_of(model, at)} weighs {tonnes[at]:,.0f} tonnes",
            f"half of all blocks weigh {usual:,.0f} or less",
            f"that cell{_others(len(heavy))}",
            ("model", "columns"),
        )


def _of_weightless(model: Model, plan: _Says) -> Iterator[Strange]:
    """Rocks that weigh nothing by the formula of tonnes, and that have grades or are the mill's."""
    if not isinstance(plan.keys.tonnes, str) or "rock" not in model.columns:
        return
    kinds, tonnes = model.blocks["rock"].astype(str), model.blocks["tonnes"].to_numpy(float)
    graded = np.zeros(len(model), bool)
    for metal in plan.economics.metals:
        graded |= model.numbers(metal.grade, f"metal {metal.name}") > 0
    for kind in sorted(set(kinds) - set(kinds[tonnes > 0]) - {AIR}):
        here = (kinds == kind).to_numpy()
        is_milled = any(kind in (way.rocks or ()) for way in plan.economics.treatments)
        if is_milled or graded[here].any():
            count = int(here.sum())
            where = "the rocks of a process" if plan.economics.processes else "mill"
            why = f"is in {where}" if is_milled else f"has grades in {int(graded[here].sum()):,}"
            yield Strange(
                f"{kind} weighs nothing in any of its {count:,} blocks by the formula of tonnes,"
                f" and {why}",
                "a rock that weighs nothing is air: no metal of it counts",
                f"what tonnes in [model] gives for {kind}",
                ("model", "tonnes"),
            )


def _of_untaken(model: Model, priced: Priced, economics: Economics) -> Iterator[Strange]:
    """Rocks that none of several processes takes, and that have grades as ore has: by what a tonne
    brings before any recovery, beside the poorest tonne that is treated."""
    ore, listed = priced.treated(THOUSAND), [way.rocks for way in economics.treatments]
    if not economics.processes or not ore.any() or any(rocks is None for rocks in listed):
        return
    brings = np.zeros(len(model))
    for metal in economics.metals:
        a_unit = metal.content() * metal.price * economics.rate_of(metal)
        brings += priced.grade[metal.name] * a_unit
    taken = {AIR, *(rock for rocks in listed for rock in rocks or ())}
    kinds, tonnes = model.blocks["rock"].astype(str), model.blocks["tonnes"].to_numpy(float)
    for kind in sorted(set(kinds) - taken):
        here = (kinds == kind).to_numpy()
        waste, rich = (
            float(tonnes[at].sum()) for at in (here, here & (brings >= brings[ore].min()))
        )
        if rich > _RICH * waste:
            scale = printed_scale([waste], model.units.weight)
            yield Strange(
                f"no process takes {kind}: {amount_text(waste, scale)} {scale.unit} are waste",
                f"{amount_text(rich, scale)} {scale.unit} of it have grades as ore has",
                f'"{kind}" in rocks of a process',
                ("economics", PROCESSES),
            )


def _of_density(model: Model) -> Iterator[Strange]:
    """Blocks that are denser than any rock, or than most others, as a slip of the decimal makes
    them. Where most are, the unit is another, of which the tonnes tell."""
    dense, usual = _too_dense(model)
    if len(dense):
        cube = model.grid.volume * model.units.weight_of_cube
        densities = model.blocks.tonnes.to_numpy(float)[dense] / cube
        at, most = int(dense[np.argmax(densities)]), float(densities.max())
        better = most / 10.0 ** round(math.log10(most / usual))
        is_slip = 0.5 <= better / usual <= 2
        cell = f"{better:.6g} in that cell" if is_slip else "that cell"
        yield Strange(
            f"row {_row_of(model, at)} has a density of {most:.6g} by {model.columns['density']}",
            f"half of all blocks have {rounded(usual)} or less",
            f"{cell}{_others(len(dense))}" + ("" if is_slip else ": a decimal"),
            ("model", "columns"),
        )


def _too_dense(model: Model) -> tuple[Ints, float]:
    """The blocks whose density is a slip by the others, and the usual density; none where most have
    that of another unit."""
    none: Ints = np.zeros(0, np.int64)
    if "tonnes" in model.columns or "density" not in model.columns:
        return none, 0.0
    density = model.blocks.tonnes.to_numpy(float) / (model.grid.volume * model.units.weight_of_cube)
    usual = float(np.median(density[density > 0]))
    dense = np.flatnonzero(density > min(_DENSEST, _TIMES_DENSER * usual))
    return (dense if usual <= _DENSEST else none), usual


def _of_cells(model: Model, economics: Economics) -> Iterator[Strange]:
    """A few cells of a grade that are far above the next one."""
    rows = model.blocks["row"].to_numpy() >= 0
    for metal in economics.metals:
        grades = np.where(rows, model.numbers(metal.grade, f"metal {metal.name}"), 0.0)
        top = np.sort(np.partition(grades, -min(_FEW + 1, len(grades)))[-(_FEW + 1) :])[::-1]
        far = next(
            (i for i in range(len(top) - 1) if top[i + 1] > 0 and top[i] > _FAR_OFF * top[i + 1]),
            None,
        )
        if far is not None:
            at = int(np.argmax(grades))
            yield Strange(
                f"row {_row_of(model, at)} has {rounded(top[0], 6)} {metal.grade_unit} in {metal.grade}",
                f"the next largest cell is {rounded(top[far + 1], 6)}",
                f"that cell{_others(far + 1)}: a decimal, or a top cut",
                ("economics", METALS, metal.name, "grade"),
            )


def _of_grade_units(model: Model, economics: Economics) -> Iterator[Strange]:
    """Grades in another unit than the name of their column says; of formulas nothing is said."""
    for metal in economics.metals:
        named = unit_of(metal.grade) if metal.grade in model.blocks else None
        units = {named, metal.grade_unit}
        if named and len(units) > 1 and not units <= set(_ONE_IN_A_MILLION):
            better = Remedy(("economics", METALS, metal.name, "grade_unit"), named)
            yield Strange(
                f"the column {metal.grade} is in {named} by its name, and {metal.name} in"
                f" {metal.grade_unit}",
                "",
                str(better),
                better.key,
                better,
            )


def _others(count: int) -> str:
    return f", and {count - 1} like it" if count > 1 else ""


def _row_of(model: Model, block: int) -> str:
    """The row of a block as a spreadsheet counts it."""
    return f"{int(model.table_row[block]):,}"


def of_unread(model: Model, plan: _Says) -> Iterator[Strange]:
    """Columns that say how much of a block is there, and that nothing reads."""
    read = {
        *model.columns.values(),
        *(metal.grade for metal in plan.economics.metals),
        *plan.slopes.codes(),
    }
    formulas = " ".join(words_in([vars(plan.economics), *map(vars, plan.economics.metals)]))
    for name in map(str, model.blocks.columns):
        if name in read or name in formulas or not is_part(name, model.blocks[name]):
            continue
        values = model.blocks[name]
        yield Strange(
            f"nothing reads the column {name}, which is from {values.min():g} to {values.max():g}",
            "a share of a block that is there makes it weigh less, or less of it ore",
            remedy_of_part(name, float(values.max()), model.columns),
            ("model", "columns"),
        )


def _of_idle_ways(model: Model, priced: Priced, economics: Economics) -> Iterator[Strange]:
    """Processes that get no block where others get some."""
    for (way, ore), said in zip(priced.by_way(THOUSAND), economics.treatments):
        if not ore.any() and priced.treated(THOUSAND).any():
            unit = model.units.words.removesuffix("s")
            cost = (
                f"; it costs {said.cost:,.6g} {economics.currency} a {unit}"
                if isinstance(said.cost, (int, float))
                else ""
            )
            yield Strange(
                f"no block goes to {way.name} at the full price{cost}",
                "",
                f"cost, recovery and rocks of {said.label}",
                said.key("processing"),
            )


def _of_prices(economics: Economics) -> Iterator[Strange]:
    """Prices that are far from what such a metal costs, where its currency is about a dollar."""
    for metal in economics.metals:
        currency = metal.currency or economics.currency
        times = _times_usual(metal, currency)
        if _is_off(times.get(metal.price_unit)):
            usual = metal.price / times[metal.price_unit]
            key: KeyPath = ("economics", METALS, metal.name, "price")
            advice, remedy = _better_price(metal, times)
            yield Strange(
                f"{metal.name} costs {rounded(metal.price, 6)} {currency} a {metal.price_unit}",
                f"about {rounded(usual)} is usual",
                advice,
                key,
                remedy,
            )


def _of_dollars(economics: Economics) -> Iterator[Strange]:
    """Prices in a currency that is worth less than a dollar, and nearer to the usual one in dollars
    than to that in the currency."""
    for metal in economics.metals:
        currency, usual = metal.currency or economics.currency, usual_price(metal.name)
        rate = units_a_dollar(currency)
        if usual is None or rate is None or rate == 1:
            continue
        usual *= PRICES[metal.price_unit]
        if usual / _TIMES_USUAL <= metal.price < usual * math.sqrt(rate):
            at = f"metal {metal.name}" if metal.currency else "[economics]"
            yield Strange(
                f"{metal.name} costs {rounded(metal.price, 6)} {currency} a {metal.price_unit}",
                f"about {rounded(usual * rate, 2)} is usual, and in dollars {rounded(usual)}",
                f'price of {metal.name} in {currency}, or currency = "$" in {at}',
                ("economics", METALS, metal.name, "price"),
            )


def _times_usual(metal: Metal, currency: str) -> dict[str, float]:
    """How many times the usual one a metal's price is, were it for each of the units; none where no
    usual price is known."""
    usual = usual_price(metal.name)  # of a gram
    if usual is None or not metal.price or units_a_dollar(currency) != 1:
        return {}
    return {unit: metal.price / (usual * grams) for unit, grams in PRICES.items()}


def _is_off(times: float | None) -> bool:
    """Whether a price is so many times the usual one that it is for another unit, or a slip."""
    return times is not None and not 1 / _TIMES_USUAL <= times <= _TIMES_USUAL


def _better_price(metal: Metal, times: Mapping[str, float]) -> tuple[str, Remedy | None]:
    """What to try where a price is off: the unit by which it is a usual one, or the same price for
    the unit that is told. What selling costs tells which of them, where it fits one alone; then it
    is a remedy, too."""
    nearest = min(times, key=lambda unit: abs(math.log(times[unit])))
    if _is_off(times[nearest]):
        return f"price and price_unit of {metal.name}", None
    price = metal.price * PRICES[metal.price_unit] / PRICES[nearest]
    at: KeyPath = ("economics", METALS, metal.name)
    by_price = Remedy((*at, "price"), float(f"{price:.5g}"))
    by_unit = Remedy((*at, "price_unit"), nearest)
    said = f"price = {by_price.value:.15g}", f'price_unit = "{nearest}"'
    fits = [_is_sold_for(metal, each) for each in (price, metal.price)]
    if fits[0] == fits[1]:
        return f"{said[0]} of {metal.name}, or {said[1]}", None
    at_first = fits[0]
    return f"{said[not at_first]} of {metal.name}", by_price if at_first else by_unit


def _is_sold_for(metal: Metal, price: float) -> bool:
    """Whether a metal's selling costs are such as a price has."""
    return _LEAST_SELLING <= metal.selling / price <= _MOST_SELLING * metal.payable


def _of_selling(economics: Economics) -> Iterator[Strange]:
    """Costs of selling that are next to nothing beside the price, or nearly all of it."""
    for metal in economics.metals:
        if _is_off(_times_usual(metal, metal.currency or economics.currency).get(metal.price_unit)):
            continue  # the price is told, and selling is looked at beside the right one
        if metal.price and metal.selling > 0 and not _is_sold_for(metal, metal.price):
            yield Strange(
                (
                    f"selling a {metal.price_unit} of {metal.name} costs {metal.selling:g}, and its"
                    f" price is {rounded(metal.price, 6)}"
                ),
                "it is some hundredths of the price",
                f"selling of {metal.name}, for each {metal.price_unit} as the price is",
                ("economics", METALS, metal.name, "selling"),
            )


def of_rates(model: Model, priced: Priced, rates: Mapping[str, Any]) -> Iterator[Strange]:
    """Rates that are swapped, or by which the mine takes centuries or days; and a discount of which
    the point may be a place off."""
    discount = rates.get("discount")
    if discount and discount > _DEAREST:
        yield Strange(
            f"discount = {discount:g} is {100 * discount:g} % a year",
            "it is a share, and few mines count with more than 20 %",
            f"discount = {discount / 10:g} in [shells], if {10 * discount:g} % is meant",
            ("shells", "discount"),
        )
    if discount and discount < _CHEAPEST:
        yield Strange(
            f"discount = {discount:g} is {100 * discount:g} % a year",
            "it is a share, and few mines count with less than 3 %",
            f"discount = {10 * discount:g} in [shells], if {1000 * discount:g} % is meant",
            ("shells", "discount"),
        )
    tonnes = model.blocks.tonnes.to_numpy(float)
    dug, treated = rates.get("mining_rate"), rates.get("mill_rate")
    feeds = [float(each.sum()) for each in priced.feeds_of(tonnes, THOUSAND)]
    of_processes = list((rates.get("process_rates") or {}).items())
    each: list[_Way] = [("the mill", treated, "mill_rate in [shells]", ("shells", "mill_rate"))]
    if of_processes:
        each = [
            (name, rate, f"rate of process {name}", ("economics", PROCESSES, name, "rate"))
            for name, rate in of_processes
        ]
    asked: list[_Rate] = [
        ("rock", dug, float(tonnes.sum()), "mining_rate in [shells]", ("shells", "mining_rate"))
    ]
    if not of_processes:
        ore = float(priced.ore_of(tonnes, THOUSAND).sum()) * priced.ways[0].feed
        asked.append(("ore", treated, ore, "mill_rate in [shells]", ("shells", "mill_rate")))
    for (name, rate), feed in zip(of_processes, feeds):
        key: KeyPath = ("economics", PROCESSES, name, "rate")
        if rate is None and any(other for _, other in of_processes):
            yield Strange(
                f"{name} has no rate: the discounted cases take its feed of the largest pit in"
                f" {YEARS} years, and the plan by years has no limit for it",
                "",
                f"rate = .. in process {name}",
                key,
            )
        asked.append((f"feed of {name}", rate, feed, f"rate of process {name}", key))
    yield from (off := list(_of_long_or_short(asked)))
    if not off:  # beside a rate that is far off another only looks too large
        yield from _of_more_than_is_dug(priced, dug, "mining_rate in [shells]", each)


# a way, its rate or those of the years, what stands for that in words, and its key
_Way = tuple[str, Any, str, KeyPath]


def _of_more_than_is_dug(
    priced: Priced, dug: Any, of_mining: str, each: Iterable[_Way]
) -> Iterator[Strange]:
    """Ways that get more in their best year than is dug in the best one."""
    for way, (name, rate, said, key) in zip(priced.ways, each):
        if dug and rate and np.max(rate) > np.max(dug) * max(way.feed, 1.0):
            yield Strange(
                f"{name} takes {rounded(float(np.max(rate)), 6)} tonnes a year, and"
                f" {rounded(float(np.max(dug)), 6)} are dug",
                "no more is treated than is dug",
                f"{of_mining} and {said}, the other way round",
                key,
            )


def _of_schedule_rates(
    model: Model, priced: Priced, terms: Mapping[str, Any], rates: Mapping[str, Any]
) -> Iterator[Strange]:
    """Rates of [schedule] by which the mine takes centuries or days, as of one typed in millions of
    tonnes: of rates by year the largest is looked at."""
    tonnes = model.blocks.tonnes.to_numpy(float)
    feeds = [float(each.sum()) for each in priced.feeds_of(tonnes, THOUSAND)]
    names, told = priced.process_names, terms.get("process_rates") or {}
    asked = [("rock", terms.get("mining_rate"), float(tonnes.sum()), "mining_rate")]
    if names:
        of_feeds = zip(names, feeds)
        asked += [(f"feed of {n}", told.get(n), feed, "process_rates") for n, feed in of_feeds]
    else:
        asked.append(("ore", terms.get("mill_rate"), feeds[0], "mill_rate"))
    dug = terms.get("mining_rate") or rates.get("mining_rate")
    if any(rate for _, rate, _, _ in asked):
        of_ways = (
            {**(rates.get("process_rates") or {}), **told}
            if names
            else {"the mill": terms.get("mill_rate") or rates.get("mill_rate")}
        )
        at = "process_rates" if names else "mill_rate"
        each: list[_Way] = [
            (n, rate, f"{at} in [schedule]", ("schedule", at)) for n, rate in of_ways.items()
        ]
        yield from _of_more_than_is_dug(priced, dug, "mining_rate in [schedule]", each)
    yield from _of_long_or_short(
        (what, rate and float(np.max(rate)), amount, f"{name} in [schedule]", ("schedule", name))
        for what, rate, amount, name in asked
    )
    for what, rate, _, name in asked:
        if isinstance(rate, (list, tuple)):
            said = f"{name}, {what}," if name == "process_rates" else name
            yield from _of_years(rate, said, ("schedule", name))


def _of_two_rates(terms: Mapping[str, Any], rates: Mapping[str, Any]) -> Iterator[Strange]:
    """Rates and a discount of [schedule] that the discounted cases of the pits don't have; of rates
    by year none of which is theirs."""
    told, other = terms.get("process_rates") or {}, rates.get("process_rates") or {}
    asked: list[tuple[str, Any, Any]] = [
        (name, terms.get(name), rates.get(name)) for name in ("mining_rate", "mill_rate")
    ]
    asked.append(("discount", terms.get("discount"), rates.get("discount", Rates().discount)))
    asked += [(f"the rate of {name}", told[name], other.get(name)) for name in told]
    found = [
        f"{name} is {_texts(own)} in [schedule], and {_texts(of_pits)} for the pits"
        for name, own, of_pits in asked
        if own is not None and (of_pits is None or not np.isin(of_pits, own))
    ]
    if found:
        yield Strange(
            "; ".join(found),
            "the best and the worst case of the pits can't be held against the plan by years then",
            "the same rates and discount for both, or none in [schedule]",
            ("schedule",),
        )


def _texts(rates: Any) -> str:
    """A rate, or those of the years."""
    if rates is None:
        return "none"
    return ", ".join(rounded(rate, 6) for rate in np.atleast_1d(rates).tolist())


def _of_years(rates: Sequence[float], name: str, key: KeyPath) -> Iterator[Strange]:
    """A year's rate that is a small part of another's, as of a comma that was meant for a point; and
    a last one of 0, which is that of all years after it."""
    most = max(rates)
    for year, rate in enumerate(rates, 1):
        if 0 < rate < most / _USUAL_SPREAD:
            yield Strange(
                f"year {year} of {name} in [schedule] has {rounded(rate, 6)} tonnes,"
                f" and another {rounded(most, 6)}",
                "rates of years are rarely a hundred times apart",
                "each year's in tonnes, with a point and not a comma in a number, as 1.5e6",
                key,
            )
            return
    if most > 0 and len(rates) > 1 and rates[-1] == 0:
        yield Strange(
            f"{name} in [schedule] ends in 0, which is the rate of year {len(rates)} and of all years"
            " after it",
            "what isn't dug before stays in the ground",
            f"a last rate above 0 in {name}, if the mine goes on",
            key,
        )


_USUAL_SPREAD = 100  # of rates of years, at most
_Rate = tuple[str, Optional[float], float, str, KeyPath]  # of what, its tonnes, words, key


def _of_long_or_short(rates: Iterable[_Rate]) -> Iterator[Strange]:
    """Rates by which tonnes of the whole model take centuries or days."""
    for what, rate, amount, said, key in rates:
        if rate and amount and not _SHORTEST <= amount / rate <= _LONGEST:
            yield Strange(
                (
                    f"at {rounded(rate, 6)} tonnes a year the {what} of the whole model takes"
                    f" {rounded(amount / rate)} years"
                ),
                "a mine takes some tens of years",
                f"{said} in tonnes a year, as 4e6",
                key,
            )


def _of_forbid(priced: Priced, rock: Bools) -> Iterator[Strange]:
    """Formulas of `forbid` that keep nearly all from being dug."""
    share = float(priced.forbidden[rock].mean())
    if share >= _EVERYWHERE:
        yield Strange(
            (
                f"forbid keeps {int(priced.forbidden[rock].sum()):,} of {int(rock.sum()):,} blocks"
                " of rock from being dug"
            ),
            "it keeps a corridor or a lake",
            "the numbers and the sign in [economics] forbid",
            ("economics", "forbid"),
        )


def _of_regions(model: Model, slopes: Slopes) -> Iterator[Strange]:
    """Regions that are called by a side of the model, and lie at the other side."""
    if not slopes.regions:
        return
    east, north, _ = model.xyz()
    region, names = slopes.region_of(model), slopes.names
    spread = max(float(np.ptp(east)), float(np.ptp(north)), 1.0)
    for at, name in enumerate(names):
        way = _WAYS.get(re.sub(r"[^A-Z].*", "", name.upper()))
        here = region == at
        if way and here.any():
            off = (
                float(east[here].mean() - east.mean()) * way[0]
                + float(north[here].mean() - north.mean()) * way[1]
            ) / spread
            if off < -0.1:
                yield Strange(
                    f"the region {name} lies on the other side of the model's middle",
                    "it is where its name says",
                    f"the coordinates, and {slopes.by} of these blocks",
                    ("slopes", "regions", name),
                )


def _of_bearings(slopes: Slopes) -> Iterator[Strange]:
    """Bearings that are listed against the clock."""
    for name in slopes.names:
        angles = slopes.angles if name == slopes.names[0] else (slopes.regions or {})[name]
        bearings = [] if isinstance(angles, (int, float)) else [pair[0] for pair in angles]
        if len(bearings) > 2 and all(b < a for a, b in zip(bearings, bearings[1:])):
            yield Strange(
                f"bearings of {name} go from {bearings[0]:g} down to {bearings[-1]:g}",
                "a bearing counts clockwise from north, 90 is east",
                "bearings upward, and the rose of slopes",
                ("slopes", "angles") if name == slopes.names[0] else ("slopes", "regions", name),
            )


def of_ramps(slopes: Slopes, unit: str) -> Iterator[Strange]:
    """Ramps that pass more often than they can over the height of their wall, or that take more
    room than the rock between them."""
    own = slopes.ramp is not None and not has_ramp(slopes.ramp)
    for name in slopes.names:
        ramp = ramp_of(slopes.ramp, name)
        if ramp is None or name != slopes.names[0] and not own:
            continue
        key = ("slopes", "ramp", name) if own else ("slopes", "ramp")
        called = f"the ramp of {name}" if own else "the ramp"
        turn, least = ramp.height / ramp.grade / ramp.passes, 2 * math.pi * ramp.width
        most = ramp.height / ramp.grade / least
        if ramp.passes > 1 and turn < least:
            yield Strange(
                (
                    f"{called} passes {ramp.passes:.3g} times over {length_text(ramp.height)}"
                    f" {unit}, so a turn of it is {length_text(round(turn, 1))} {unit} long"
                ),
                (
                    f"a ramp {ramp.width:g} {unit} wide turns round in no less than"
                    f" {least:,.0f} {unit}, which makes at most {max(most, 1):.2g} passes"
                ),
                "turns and height of the wall in [slopes] ramp",
                key,
            )
            continue
        angles = slopes.angles_of(name)
        flat = {angles} if isinstance(angles, (int, float)) else {angle for _, angle in angles}
        for angle in sorted(flat)[-1:]:
            wide = ramp.height / math.tan(math.radians(angle))
            if ramp.passes * ramp.width > wide:
                yield Strange(
                    (
                        f"{called} takes {ramp.passes * ramp.width:,.0f} {unit} of a wall that"
                        f" is {wide:,.0f} {unit} wide without it, and makes"
                        f" {ramp.overall(angle):.1f} degrees of {angle:g}"
                    ),
                    "a ramp takes less room than the rock between its passes",
                    "width, turns and height in [slopes] ramp",
                    key,
                )


def of_walls(slopes: Slopes, grid: Grid, unit: str) -> tuple[list[str], list[str]]:
    """What the walls of all regions are built of, lengths in a unit; and where angles can't be held
    what is said of it."""
    patterns = slopes.patterns(grid).items()
    lines = [line for name, _ in patterns for line in slopes.lines(name, grid, unit)]
    loose = [(name, pattern) for name, pattern in patterns if not pattern.is_held]
    return lines, [_not_held(name, pattern, slopes.levels) for name, pattern in loose]


def _not_held(name: str, pattern: Pattern, levels: int | None) -> str:
    """What is said where offsets don't hold the slopes of a region: what was asked for, what is
    built, what to try."""
    outline = Outline(pattern.wall, pattern.offsets)
    bearing = max(range(360), key=lambda b: abs(outline.slope(b) - pattern.wall.slope(b)))
    most, steepest = (
        f"at bearing {b:.0f}: {pattern.wall.slope(b):.1f} degrees are asked for there, {outline.slope(b):.1f} are built"
        for b in (bearing, pattern.steepest_at())
    )
    is_steep = pattern.error.steepest > WORST and outline.slope(bearing) < pattern.wall.slope(
        bearing
    )
    blocks = " x ".join(f"{side:g}" for side in pattern.wall.size)
    text = (
        f"{name}: {MEAN:g} degrees on average and {WORST:g} at the worst bearing can't be held with blocks of {blocks}"
        + (f" and levels = {levels}" if levels else "")
        + f"; the offsets that err least are taken, and err most {most}"
        + (f"; they are too steep by most {steepest}" if is_steep else "")
    )
    hint = (
        "more levels in [slopes], or leave levels out"
        if levels
        else "angles that change less from bearing to bearing, or lower blocks"
    )
    return f"{text}\n  try: {hint}"
