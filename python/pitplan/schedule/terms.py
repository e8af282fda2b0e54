"""What [schedule] of study.toml says, in whole numbers: what money of each period weighs, and how
much rock and feed each has."""
from __future__ import annotations

import math
from collections.abc import Collection, Mapping, Sequence
from contextlib import suppress
from dataclasses import dataclass
from decimal import Decimal, localcontext
from typing import Any

from ..base.amounts import THOUSAND, rounding_of
from ..base.errors import Gathered, PlanError, about, toml_spelled
from ..base.near_words import meant
from ..base.units_shown import counted, share_text
from ..study.shells import thousandths
from ..study.study_file import StudyFile
from ..table.study_keys import with_defaults

MILLION = 10**6  # weights are in millionths
GRAIN = 1000  # parts of a tonne in which rock and feed are counted
_MOST_PERIODS = 200
_MOST_YEARS = 100  # that study.toml takes
_MOST_CAPACITY = 10**12  # of a period, that `pit` reads
_WHEN = {"start": Decimal(0), "mid": Decimal("0.5"), "end": Decimal(1)}
_CUTOFFS = ("fixed", "by year")
_RATES = ("mining_rate", "mill_rate")
_OF_PROCESS = "rate of process "  # before its name, in errors
_RESOURCES = ("mining", "mill")  # in the order of the rows of capacities, where there is one mill
_MOST_RESOURCES = 8  # that `pit` reads


@dataclass(frozen=True)
class Terms:
    """The periods of a schedule.

    Attributes
    ----------
    weights : tuple of int
        What money of each period is worth today, in millionths.
    capacities : tuple of tuples of int
        Rock that may be dug in each period, and the feed that the mill or each process may get, in
        thousandths of a tonne; an empty one where nothing limits it.
    per_year : int
        Periods in a year.
    sink : int, optional
        Benches that may be dug in a column of blocks within a year.
    panel : int
        Blocks by blocks on a bench that are dug together.
    is_by_year : bool
        Whether a block that the mill, or its process, may take goes there or to waste, whichever the
        schedule says.
    pushbacks : tuple of int
        Factors in thousandths of the pits after which a pushback ends; the last pushback is the
        rest. Empty where there is one.
    lead : int
        Benches that a pushback is ahead of those after it.
    fixed_cost : int
        Whole units of currency that each period costs in which rock is dug.
    resources : tuple of str
        What capacities are of: digging, and the mill or each process by its name.
    """

    weights: tuple[int, ...]
    capacities: tuple[tuple[int, ...], ...]
    per_year: int = 1
    sink: int | None = None
    panel: int = 1
    is_by_year: bool = False
    pushbacks: tuple[int, ...] = ()
    lead: int = 0
    fixed_cost: int = 0
    resources: tuple[str, ...] = _RESOURCES

    @property
    def periods(self) -> int:
        """How many there are."""
        return len(self.weights)


def terms_of(
    values: Mapping[str, Any], rates: Mapping[str, Any], rock: float, feed: float | Sequence[float]
) -> Terms:
    """The terms of a schedule.

    Parameters
    ----------
    values : mapping
        The values of [schedule], None where it says nothing.
    rates : mapping
        Those that [shells] gives of ``mining_rate``, ``mill_rate`` and ``discount``, and
        ``process_rates``, of each process by its name and in their order, where there are some.
    rock, feed : float
        Tonnes of the pit, which say how many years there are where nothing else does; of several
        processes the feed of each.

    Raises
    ------
    PlanError
        What `_wrong_values` finds, all of it; or where the tonnes ask for too many periods.
    """
    wrong = _wrong_values(values, rates)
    wrong.tell()
    processes = process_rates_of(values, rates)
    by_name = _yearly_of(values, rates, processes)
    yearly, per_year, years = list(by_name.values()), _per_year_of(values), values.get("years")
    feeds = [feed] if isinstance(feed, (int, float)) else list(feed)
    with wrong.part("schedule"):
        needed = _years_for(by_name, [rock, *feeds], values, per_year) if years is None else years
        _refuse_periods(int(needed), per_year)
    wrong.tell()
    years = int(needed)
    discount = values.get("discount")
    return Terms(
        _weights(
            years * per_year,
            Decimal(str(rates.get("discount", 0.1) if discount is None else discount)),
            _WHEN[str(values.get("when") or "mid")],
            per_year,
        ),
        tuple(_capacities(rate, years, per_year) for rate in yearly),
        per_year,
        values.get("sink"),
        int(values.get("panel") or 1),
        values.get("cutoff") == _CUTOFFS[1],
        pushbacks_of(values.get("pushbacks") or ()),
        int(values.get("lead") or 0),
        _fixed_cost_of(values.get("fixed_cost") or 0, per_year),
        ("mining", *processes) if processes else _RESOURCES,
    )


def _wrong_values(values: Mapping[str, Any], rates: Mapping[str, Any]) -> Gathered:
    """Each error of [schedule] that can be told without a pit.

    Parameters
    ----------
    values, rates : mapping
        As of `terms_of`.
    """
    found, per_year, years = Gathered(), _per_year_of(values), values.get("years")
    with found.part("schedule", "process_rates"):
        processes = process_rates_of(values, rates)
        with found.part():
            _refuse_processes(processes)
        yearly = _yearly_of(values, rates, processes)
        if not any(yearly.values()):
            found.add([_without_rates(bool(processes))])
        for name, of_years in yearly.items():
            with found.part(*_place_of(name, values)):
                _refuse_amounts(_called(name, values), of_years, per_year)
                _refuse_longer(_called(name, values), of_years, years)
    with found.part("schedule", "pushbacks"):
        pushbacks_of(values.get("pushbacks") or ())
    with found.part("schedule", "lead"):
        _refuse_lead(values)
    with found.part("schedule", "fixed_cost"):
        _fixed_cost_of(values.get("fixed_cost") or 0, per_year)
    with found.part("schedule"):
        _refuse_periods(int(years or 1), per_year)
    return found


def _per_year_of(values: Mapping[str, Any]) -> int:
    """Periods in a year."""
    return int(values.get("per_year") or 1)


def _yearly_of(
    values: Mapping[str, Any], rates: Mapping[str, Any], processes: Mapping[str, Rate]
) -> dict[str, list[float]]:
    """The rates of the years, by what errors call them; empty where there is none."""
    mills = list(processes.values()) or [values.get("mill_rate") or rates.get("mill_rate")]
    names = ["mining_rate", *_keys_of(processes)]
    told = [values.get("mining_rate") or rates.get("mining_rate"), *mills]
    return {name: _by_year(rate) for name, rate in zip(names, told)}


def _without_rates(has_processes: bool) -> PlanError:
    """The error of a plan that nothing limits."""
    of_mill = "a process that has a rate" if has_processes else "mill_rate"
    return PlanError(
        f"[schedule] has neither mining_rate nor {of_mill}, and [shells] hasn't either",
        try_this="mining_rate = 20e6 in [schedule]: tonnes of rock a year",
        key=("schedule",),
    )


def _refuse_periods(years: int, per_year: int) -> None:
    """Refuses more periods than may be."""
    if years * per_year > _MOST_PERIODS:
        raise PlanError(
            f"[schedule] {counted(years, 'year')} of {counted(per_year, 'period')} each"
            f" {'comes' if years == 1 else 'come'} to more than {_MOST_PERIODS} periods",
            try_this=f"years = {_years_that_go(per_year)}, or fewer periods in a year (per_year)",
            key=("schedule",),
        )


def _refuse_lead(values: Mapping[str, Any]) -> None:
    """Refuses a lead of no pushbacks."""
    if values.get("lead") and not values.get("pushbacks"):
        raise PlanError(
            "[schedule] lead says how far pushbacks are ahead, and there are none",
            try_this="pushbacks = [0.5, 0.75], of the factors in [shells]; or take lead out",
            key=("schedule", "lead"),
        )


Rate = float | Sequence[float] | None  # of a process: of each year, or by year


def process_rates_of(values: Mapping[str, Any], rates: Mapping[str, Any]) -> dict[str, Rate]:
    """The rate of each process by its name, in their order: that of [schedule], and else its own;
    nothing where there are none.

    Parameters
    ----------
    values, rates : mapping
        As of `terms_of`.

    Raises
    ------
    PlanError
        Where [schedule] names a process that isn't there.
    """
    own: Mapping[str, Rate] = rates.get("process_rates") or {}
    told: Mapping[str, Rate] = values.get("process_rates") or {}
    for name in told:
        if name not in own:
            at = ("schedule", "process_rates")
            said = f"[schedule] process_rates names {name!r}, and no process is called so"
            names = (each if each.isidentifier() else toml_spelled(each) for each in own)
            better = ", ".join(names) or "mill_rate, of a study without [[economics.processes]]"
            raise PlanError(said + meant(name, own), try_this=better, key=at)
    return {**own, **told}


def _keys_of(processes: Mapping[str, Rate]) -> list[str]:
    """How errors call the rate of the mill, or of each process."""
    return [f"{_OF_PROCESS}{name}" for name in processes] or ["mill_rate"]


def wrong_terms(plan: StudyFile, then: str) -> list[PlanError]:
    """What `pitplan schedule` would refuse of a study.toml that is right by itself, each with its key:
    nothing where [schedule] asks for nothing.

    Parameters
    ----------
    plan : StudyFile
    then : str
        The command that finds further pits.
    """
    values = plan.values["schedule"]
    if values == with_defaults("schedule", {}):
        return []
    found = _wrong_values(values, plan.rates)
    with found.part("economics", "rounding"):
        refuse_parts(rounding_of(plan.economics.rounding))
    with found.part("shells", "factors"):
        refuse_no_full_price(plan.factors, then)
    with suppress(PlanError):  # which is told already
        pushbacks = pushbacks_of(values.get("pushbacks") or ())
        with found.part("schedule", "pushbacks"):
            refuse_missing(pushbacks, plan.factors, then)
    told = Gathered(plan.path.name)
    told.add(found.errors)
    return told.errors


def refuse_parts(rounding: Decimal) -> None:
    """Refuses amounts that aren't whole units of currency."""
    if rounding != int(rounding):
        raise PlanError(
            f"[economics] rounding = {rounding:f}, and a schedule counts in whole units of currency",
            try_this="rounding = 1",
            key=("economics", "rounding"),
        )


def refuse_no_full_price(factors: Collection[int], then: str) -> None:
    """Refuses a series without the pit at the full price; `then` is the command that finds further
    pits."""
    if THOUSAND not in factors:
        raise PlanError(
            "a schedule digs the best pit at the full price, and [shells] factors has no 1.0",
            try_this=f"1.0 among the factors, and {then}",
            key=("shells", "factors"),
        )


def _refuse_processes(processes: Mapping[str, Rate]) -> None:
    """Refuses more processes than `pit` reads the uses of."""
    if len(processes) >= _MOST_RESOURCES:
        raise PlanError(
            f"a plan by years counts rock and the feed of {_MOST_RESOURCES - 1} processes at most,"
            f" and there are {len(processes)}",
            try_this="fewer [[economics.processes]]",
            key=("economics", "processes"),
        )


def _fixed_cost_of(a_year: float, per_year: int) -> int:
    """What a period costs in which rock is dug, rounded to whole units of currency.

    Raises
    ------
    PlanError
        Where it is too large to count with.
    """
    found = int((Decimal(str(a_year)) / per_year).to_integral_value())
    if found > _MOST_CAPACITY:
        raise PlanError(
            f"[schedule] fixed_cost = {a_year:g} is more than {_MOST_CAPACITY:,} units of currency in a period",
            try_this="fixed_cost in units of currency a year",
            key=("schedule", "fixed_cost"),
        )
    return found


def pushbacks_of(shares: Sequence[float]) -> tuple[int, ...]:
    """The factors of pushbacks, in thousandths.

    Raises
    ------
    PlanError
        Where they don't ascend, or go beyond the full price.
    """
    with about("schedule", "pushbacks"):
        found = tuple(thousandths(share) for share in shares)
        if any(b <= a for a, b in zip(found, found[1:])) or found and found[-1] >= THOUSAND:
            raise PlanError(
                f"[schedule] pushbacks = {list(shares)} don't ascend to below 1: the rest of the pit"
                " at the full price is the last",
                try_this=f"pushbacks = {sorted({s for s in shares if 0 < s < 1}) or [0.5, 0.75]}",
            )
    return found


def refuse_missing(pushbacks: Sequence[int], factors: Collection[int], then: str) -> None:
    """Refuses pushbacks, in thousandths, that end at no pit of the series.

    Parameters
    ----------
    pushbacks : sequence of int
    factors : collection of int
        Of the series.
    then : str
        The command that finds further pits.

    Raises
    ------
    PlanError
        With the first that no factor is.
    """
    for factor in pushbacks:
        if factor not in factors:
            share = share_text(factor)
            near = sorted(sorted(factors, key=lambda each: abs(each - factor))[:2])
            there = " and ".join(share_text(each) for each in near)
            raise PlanError(
                f"[schedule] pushbacks has {share}, and [shells] factors has no {share}"
                + (f": nearest are {there}" if there else ""),
                try_this=f"one of these, or {share} among the factors, and {then}",
                key=("schedule", "pushbacks"),
            )


def _weights(periods: int, discount: Decimal, when: Decimal, per_year: int) -> tuple[int, ...]:
    """What money of each period is worth today, rounded to millionths: that of period t, from 0,
    counts as at (t + when) / per_year years.

    >>> _weights(3, Decimal("0.1"), Decimal(0), 1)
    (1000000, 909091, 826446)
    """
    with localcontext() as exact:
        exact.prec = 50
        return tuple(
            int((MILLION / (1 + discount) ** ((Decimal(t) + when) / per_year)).to_integral_value())
            for t in range(periods)
        )


def _by_year(rate: Any) -> list[float]:
    """A rate, or those of the years; empty where there is none."""
    if rate is None:
        return []
    return [float(rate)] if isinstance(rate, (int, float)) else [float(each) for each in rate]


def _years_for(
    by_name: Mapping[str, list[float]],
    tonnes: Sequence[float],
    values: Mapping[str, Any],
    per_year: int,
) -> int:
    """As many years as the rates need for these tonnes, and one more: what binds alternates.

    Raises
    ------
    PlanError
        Where these are more periods than may be, with the rate that asks for them.
    """
    total_of = dict(zip(by_name, tonnes))
    needs = {name: _years_of(each, total_of[name]) for name, each in by_name.items() if each}
    name = max(needs, key=lambda each: needs[each])
    if (1 + needs[name]) * per_year > _MOST_PERIODS:
        told, what = by_name[name], "rock" if name == "mining_rate" else "feed"
        rates = f"{told[0]:g}" if len(told) == 1 else f"[{', '.join(f'{rate:g}' for rate in told)}]"
        raise PlanError(
            f"{_called(name, values)} = {rates} tonnes a year: the {total_of[name]:,.0f} tonnes of {what} of the pit"
            f" take {needs[name]:,} years, and a schedule has at most {_MOST_PERIODS} periods",
            try_this=f"{name} in tonnes a year, as 4e6; or years = {_years_that_go(per_year)} in [schedule]",
            key=_place_of(name, values),
        )
    return 1 + needs[name]


def _years_that_go(per_year: int) -> int:
    """The most years that there may be."""
    return min(_MOST_PERIODS // per_year, _MOST_YEARS)


def _place_of(name: str, values: Mapping[str, Any]) -> tuple[str, ...]:
    """Where study.toml has a rate, by what errors call it."""
    if name in _RATES:
        return ("schedule" if values.get(name) else "shells", name)
    process = name.removeprefix(_OF_PROCESS)
    if process in (values.get("process_rates") or {}):
        return ("schedule", "process_rates")
    return ("economics", "processes", process, "rate")


def _called(name: str, values: Mapping[str, Any]) -> str:
    """A rate as errors call it, after the section in which it stands."""
    section, process = _place_of(name, values)[0], name.removeprefix(_OF_PROCESS)
    return f"[{section}] " + (
        f"process_rates of {process}" if section == "schedule" and name not in _RATES else name
    )


def _years_of(rates: list[float], total: float) -> int:
    """The years that some tonnes take, of which the last rate stays; where that is 0, those in which
    anything is taken of what they never take whole."""
    for year, rate in enumerate(rates):
        total -= rate
        if total <= 0:
            return year + 1
    return len(rates) + (math.ceil(min(total / rates[-1], 1e9)) if rates[-1] else 0)


def _refuse_longer(called: str, yearly: Sequence[float], years: int | None) -> None:
    """Refuses a rate by year that goes beyond the last year, where study.toml says which that is: else
    there are as many as the pit needs, and what is beyond isn't asked for."""
    if years is not None and len(yearly) > years:
        raise PlanError(
            f"{called} has {counted(len(yearly), 'year')}, and the schedule {years:,}",
            try_this=f"years = {len(yearly)}, or a shorter list: its last rate stays",
        )


def _refuse_amounts(called: str, yearly: Sequence[float], per_year: int) -> None:
    """Refuses a rate that is too large to count with."""
    if any(amount > _MOST_CAPACITY for amount in _by_period(yearly, per_year)):
        raise PlanError(
            f"{called} = {max(yearly):g} is more than {_MOST_CAPACITY / GRAIN:,.0f}"
            " tonnes in a period",
            try_this=f"{called.partition('] ')[2]} in tonnes a year",
        )


def _by_period(yearly: Sequence[float], per_year: int) -> list[int]:
    """What a period of each year has, in thousandths of a tonne, rounded down."""
    return [int(Decimal(str(rate)) * GRAIN / per_year) for rate in yearly]


def _capacities(yearly: Sequence[float], years: int, per_year: int) -> tuple[int, ...]:
    """What each period has, in thousandths of a tonne; the last rate stays."""
    if not yearly:
        return ()
    found = _by_period(yearly, per_year)[:years]
    found += [found[-1]] * (years - len(found))
    return tuple(each for each in found for _ in range(per_year))
