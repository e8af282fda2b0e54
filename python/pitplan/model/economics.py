"""From grades, prices, recoveries and costs to what each block brings and costs."""
from __future__ import annotations

import json
import math
import re
from collections.abc import Mapping, Sequence
from dataclasses import dataclass, field
from decimal import Decimal
from typing import Union

import numpy as np
import pandas as pd

from ..base.arrays import Bools, Floats, Ints
from ..base.amounts import LARGEST_FACTOR, MOST_WORTH, THOUSAND, Priced, Way, exact_sum, rounding_of
from ..base.errors import (
    MOST_CELLS,
    Cell,
    Gathered,
    KeyPath,
    PlanError,
    Remedy,
    about,
    in_table,
    toml_spelled,
)
from ..base.near_words import meant, near_to, swap_of
from ..base.units import metal_in_a_tonne
from ..table.column_names import AIR
from ..table.csv_text import not_estimated
from ..table.formula import names_in, worked_out
from ..table.study_keys import METALS, PROCESSES
from ..table.value_kinds import MOST_PROCESSES
from ..table.wrong_values import missing_in, of_percent, refuse_wrong
from .classes import of_waste
from .model import Model
from .subblocks import coded
from .weights import ore_part

_BARE = re.compile(r"[A-Za-z0-9_-]+")  # a key of TOML that needs no quotes
_WASTE = ("", "waste", "forbidden")  # where a block goes that no process gets
_LIMITS = ("mining", "sink")  # what else limits a period, in the column ``binds`` of a schedule
NAME_SEPARATOR = "; "  # between names in one cell of a table
_MILL = "mill"  # the name of the way of a study without processes
# A number, a column of the table, a formula over columns, or a number by rock with "other" for the rest.
Amount = Union[float, str, Mapping[str, float]]


@dataclass(frozen=True)
class Metal:
    """A metal that is sold.

    Parameters
    ----------
    name : str
    grade : str
        The column of its grade.
    price : float
        Of a unit of metal, at factor 1.
    grade_unit, price_unit : str
        As in `units.GRADES` and `units.PRICES`.
    recovery : number, column, formula, or mapping by rock
        The share of the metal in the mill's feed that is recovered, from 0 to 1.
    payable : float
        The share of the price that is paid, from 0 to 1: what the smelter keeps and what is owed as
        a share of the price (a royalty) taken off.
    selling : float
        What selling a unit of metal costs, whatever its price: counted as a cost of processing, so
        no factor scales it. A penalty element has a price of 0 and its charge here.
    currency : str, optional
        Of price and selling, where it isn't that of the study: one that `Economics.exchange` has.
    """

    name: str
    grade: str
    price: float
    grade_unit: str = "%"
    price_unit: str = "t"
    recovery: Amount = 1.0
    payable: float = 1.0
    selling: float = 0.0
    currency: str | None = None

    def __post_init__(self) -> None:
        refuse_wrong(
            METALS, vars(self), f"[economics] metal {self.name}", ("economics", METALS, self.name)
        )

    def content(self) -> float:
        """Units of metal, as the price counts them, in a metric tonne at a grade of 1."""
        return metal_in_a_tonne(self.name, self.grade_unit, self.price_unit)


@dataclass(frozen=True)
class Process:
    """A way to treat blocks.

    Parameters
    ----------
    name : str
        None of `_WASTE`, which say where other blocks go, and none of `_LIMITS`; without a
        semicolon, which stands between names in a cell.
    cost : number, column, formula, or mapping by rock
        What treating a tonne of its feed costs.
    rocks : sequence of str, optional
        The rocks that it takes. Default: all but air.
    recovery : mapping of str to the same
        Of metals, by name, the share that is recovered. Default: that of the metal.
    payable : mapping of str to float
        Of metals, by name, the share of the price that is paid. Default: that of the metal.
    dilution, mining_recovery : float, optional
        As of `Economics`. Default: those that it has.
    rate : float, optional
        Tonnes of its feed a year.
    """

    name: str
    cost: Amount
    rocks: Sequence[str] | None = None
    recovery: Mapping[str, Amount] = field(default_factory=dict)
    payable: Mapping[str, float] = field(default_factory=dict)
    dilution: float | None = None
    mining_recovery: float | None = None
    rate: float | None = None

    def __post_init__(self) -> None:
        at = ("economics", PROCESSES, self.name)
        refuse_wrong(PROCESSES, vars(self), f"[economics] process {self.name}", at)
        is_taken = self.name in (*_WASTE, *_LIMITS)
        if is_taken or ";" in self.name or not self.name.isprintable():
            raise PlanError(
                f"[economics] a process is called {self.name!r}, and tables need another name for it",
                try_this='name = "leach"',
                key=(*at, "name"),
            )


# keys of one mill, and what a process calls them
_OF_PROCESS = {"processing": "cost", "mill": "rocks"}


@dataclass(frozen=True)
class _Treatment:
    """A way to treat blocks as it is worked out: a process, or the one mill of a study without any.

    Attributes
    ----------
    name : str
    rocks : sequence of str or None
    cost : Amount
    recovery : dict
        Of each metal, by name.
    payable : dict
        Likewise.
    mining_recovery, feed : float
        The share of the ore that gets there, and tonnes of feed for each tonne of ore in place.
    label : str
        What an error calls it: "" of the mill.
    """

    name: str
    rocks: Sequence[str] | None
    cost: Amount
    recovery: dict[str, Amount]
    payable: dict[str, float]
    mining_recovery: float
    feed: float
    label: str = ""

    def key(self, name: str) -> KeyPath:
        """Where one of its keys stands in study.toml, as the mill calls it."""
        if not self.label:
            return ("economics", name)
        return ("economics", PROCESSES, self.name, _OF_PROCESS[name])

    def what(self, name: str) -> str:
        """How an error begins that concerns such a key."""
        return f"[economics] {self.label and f'{self.label} '}{self.key(name)[-1]}"


@dataclass(frozen=True)
class _Treated:
    """What the keys say of each block by one way: whether it may go there, what is recovered, and
    what a tonne of feed costs."""

    takes: Bools
    recovery: dict[str, Floats]
    cost: Floats


@dataclass(frozen=True)
class _Read:
    """What the keys of [economics] say of each block, in arrays of shape (blocks,): grades by
    metal, what is said of each way to treat it, and what a tonne of rock costs."""

    grade: dict[str, Floats]
    ways: tuple[_Treated, ...]
    mining: Floats
    forbidden: Bools


@dataclass(frozen=True)
class Economics:
    """What blocks bring and cost: the section [economics] of ``study.toml``.

    Parameters
    ----------
    metals : sequence of Metal
    mining : number, column, formula, or mapping by rock
        What digging a tonne costs, be it ore or waste.
    processing : the same, optional
        What treating a tonne of the mill's feed costs. Needed where there are no `processes`.
    mill : sequence of str, optional
        The rocks that the mill takes. Default: all but air.
    dilution : float
        Tonnes of waste, at no grade, that come to the mill with each tonne of ore, from 0 to 1.
    mining_recovery : float
        The share of the ore that reaches the mill, above 0 and at most 1.
    rounding : float
        What amounts are rounded to: 1 is whole units of currency. At most six decimals.
    currency : str
        For tables and pictures.
    forbid : sequence of str
        Formulas: blocks for which one of them holds may not be dug, be it for one of their
        sub-blocks alone. Blocks without tonnes are air, which none of them keeps.
    waste_classes : sequence of str
        Resource classes whose blocks are never ore, by the column `class` of [model].
    exchange : mapping
        What a unit of another currency is worth in `currency`, for metals that are sold in it.
    processes : sequence of Process
        Several ways to treat blocks, in place of `processing` and `mill`: at most 8.
    """

    metals: Sequence[Metal]
    mining: Amount
    processing: Amount | None = None
    mill: Sequence[str] | None = None
    dilution: float = 0.0
    mining_recovery: float = 1.0
    rounding: float = 1.0
    currency: str = "$"
    forbid: Sequence[str] = field(default_factory=tuple)
    waste_classes: Sequence[str] = field(default_factory=tuple)
    exchange: Mapping[str, float] = field(default_factory=dict)
    processes: Sequence[Process] = field(default_factory=tuple)

    def __post_init__(self) -> None:
        if not self.metals:
            raise PlanError(
                "[economics] has no metals",
                try_this='metals = [ { name = "copper", grade = "CU", price = 8500 } ]',
                key=("economics", METALS),
            )
        names = [metal.name for metal in self.metals]
        if len(set(names)) < len(names):
            raise PlanError(
                f"[economics] two metals are called {next(n for n in names if names.count(n) > 1)}",
                key=("economics", METALS),
            )
        refuse_wrong(
            "economics",
            {
                name: value
                for name, value in vars(self).items()
                if name not in (METALS, PROCESSES, "rounding")
            },
        )
        self._refuse_processes()
        for metal in self.metals:
            with about("economics", METALS, metal.name, "currency"):
                self.rate_of(metal)
        with about("economics", "rounding"):
            rounding_of(self.rounding)

    def _refuse_processes(self) -> None:
        """Refuses processes beside the keys of one mill, two of a name, too many, and what they say
        of metals that aren't sold; and an [economics] with neither."""
        wrong, names = Gathered(), [process.name for process in self.processes]
        sold = [metal.name for metal in self.metals]
        if not self.processes and self.processing is None:
            wrong.add(missing_in("economics", {**vars(self), PROCESSES: None}))
        for name in ("processing", "mill") if self.processes else ():
            if getattr(self, name) is not None:
                wrong.add([_twice(name)])
        for name in sorted({name for name in names if names.count(name) > 1}):
            said = f"[economics] two processes are called {name}"
            wrong.add([PlanError(said, key=("economics", PROCESSES))])
        if len(names) > MOST_PROCESSES:
            said = (
                f"[economics] there are {len(names)} processes, and at most {MOST_PROCESSES} may be"
            )
            wrong.add([PlanError(said, key=("economics", PROCESSES))])
        for process in self.processes:
            for key, table in (("recovery", process.recovery), ("payable", process.payable)):
                wrong.add(
                    PlanError(
                        (
                            f"[economics] process {process.name}: {key} names {name!r}, and no"
                            f" metal is called so{meant(name, sold)}"
                        ),
                        try_this=", ".join(sold),
                        key=("economics", PROCESSES, process.name, key),
                    )
                    for name in table
                    if name not in sold
                )
        wrong.tell()

    @property
    def rates(self) -> dict[str, dict[str, float | None]]:
        """What each process gets a year at most, as `Shells.table` asks for it; nothing where there
        are no processes."""
        found = {process.name: process.rate for process in self.processes}
        return {"process_rates": found} if found else {}

    @property
    def treatments(self) -> list[_Treatment]:
        """The ways to treat blocks, in the order of study.toml."""
        of_metals = {m.name: m.recovery for m in self.metals}, {
            m.name: m.payable for m in self.metals
        }
        if not self.processes:
            cost = 0.0 if self.processing is None else self.processing
            return [_Treatment(_MILL, self.mill, cost, *of_metals, self.mining_recovery, self.feed)]
        found = []
        for each in self.processes:
            kept = self.mining_recovery if each.mining_recovery is None else each.mining_recovery
            more = self.dilution if each.dilution is None else each.dilution
            found.append(
                _Treatment(
                    each.name,
                    each.rocks,
                    each.cost,
                    of_metals[0] | dict(each.recovery),
                    of_metals[1] | dict(each.payable),
                    kept,
                    kept * (1 + more),
                    f"process {each.name}",
                )
            )
        return found

    def rate_of(self, metal: Metal) -> float:
        """What a unit of the currency that a metal is sold in is worth in that of the study.

        Raises
        ------
        PlanError
            Where nothing says that.
        """
        if metal.currency is None or metal.currency == self.currency:
            return 1.0
        if metal.currency not in self.exchange:
            raise PlanError(
                (
                    f"[economics] metal {metal.name}: currency is {metal.currency!r}, and"
                    " exchange says nothing of"
                    f" it{meant(metal.currency, [self.currency, *self.exchange])}"
                ),
                try_this=(
                    f"exchange = {{ {json.dumps(metal.currency, ensure_ascii=False)} = .. }} in"
                    f" [economics]: what one is worth in {self.currency}"
                ),
            )
        return float(self.exchange[metal.currency])

    @property
    def feed(self) -> float:
        """Tonnes that the mill gets for each tonne of ore in place."""
        return self.mining_recovery * (1 + self.dilution)

    @np.errstate(
        over="ignore", invalid="ignore"
    )  # in_whole refuses what is no number, with its row
    def priced(self, model: Model) -> Priced:
        """What each block brings and costs by each way to treat it, and what digging it costs, in
        whole multiples of `rounding`.

        Raises
        ------
        PlanError
            Where a column, a rock, a unit, a grade, a share or a cost is wrong: with the row where
            there is one.
        """
        model = coded(model, self.codes())
        tonnes, read = model.blocks.tonnes.to_numpy(float), self.read_of(model)
        rounding = rounding_of(self.rounding)
        ways = tuple(
            self._way_of(model, read.grade, *each) for each in zip(self.treatments, read.ways)
        )
        found = Priced(
            ways,
            _in_whole("mining", tonnes * read.mining, rounding, model),
            rounding,
            read.grade,
            read.forbidden,
            part=ore_part(model),
        )
        if found.forbidden.any():
            found.unfenced = found.mining[found.forbidden]
            found.mining[found.forbidden] = fence_price(found, rounding)
        return found

    def _way_of(
        self, model: Model, grade: dict[str, Floats], way: _Treatment, read: _Treated
    ) -> Way:
        """What each block brings and costs by one way to treat it: nothing where it may not go."""
        part, tonnes = ore_part(model), model.blocks.tonnes.to_numpy(float)
        ore = tonnes if part is None else tonnes * part
        revenue, selling = np.zeros(len(model)), np.zeros(len(model))
        metal: dict[str, Floats] = {}
        for m in self.metals:
            units = (
                ore
                * way.mining_recovery
                * grade[m.name]
                * (m.content() * model.units.tonnes)
                * read.recovery[m.name]
                * read.takes
            )
            metal[m.name] = units
            rate = self.rate_of(m)
            revenue += units * (m.price * rate) * way.payable[m.name]
            selling += units * (m.selling * rate)
        processing = ore * way.feed * read.cost * read.takes + selling
        rounding = rounding_of(self.rounding)
        return Way(
            way.name,
            _in_whole("revenue", revenue, rounding, model),
            _in_whole("processing", processing, rounding, model, way.key("processing")),
            metal,
            way.feed,
        )

    def read_of(self, model: Model) -> _Read:
        """What the keys say of each block.

        Raises
        ------
        PlanError
            With each error that hangs on no other one.
        """
        wrong, grade, ways = Gathered(), dict[str, Floats](), list[_Treated]()
        mining, forbidden = np.zeros(len(model)), np.zeros(len(model), bool)
        for m in self.metals:
            with wrong.part("economics", METALS, m.name, "grade"):
                grade[m.name] = _grades_of(m, model)
        known: dict[KeyPath, Floats] = {}
        for way in self.treatments:
            ways.append(self._treated(model, way, known, wrong))
        with wrong.part("economics", "mining"):
            mining = _cost("[economics] mining", self.mining, model)
        with wrong.part("economics", "forbid"):
            forbidden = self.forbidden(model)
        wrong.tell()
        return _Read(grade, tuple(ways), mining, forbidden)

    def _treated(
        self, model: Model, way: _Treatment, known: dict[KeyPath, Floats], wrong: Gathered
    ) -> _Treated:
        """What the keys say of each block by one way to treat it; what is wrong is gathered.
        `known` has the recoveries that were read, by their keys: a metal's are those of several."""
        takes, cost = np.zeros(len(model), bool), np.zeros(len(model))
        with wrong.part(*way.key("mill")):
            takes = self._taken(model, way)
        own: Mapping[str, Amount] = next(
            (each.recovery for each in self.processes if each.name == way.name), {}
        )
        at: dict[str, KeyPath] = {}
        for name, share in way.recovery.items():
            at[name], rocks = ("economics", METALS, name, "recovery"), self._recovered(name)
            what = f"[economics] recovery of {name}"
            if name in own:
                rocks = way.rocks
                at[name] = ("economics", PROCESSES, way.name, "recovery", name)
                what = f"[economics] {way.label} recovery of {name}"
            if at[name] not in known:
                known[at[name]] = np.zeros(len(model))
                with wrong.part(*at[name]):
                    _refuse_shares(what, share, at[name])
                    known[at[name]] = _share(what, amount(what, share, model, rocks), model)
        with wrong.part(*way.key("processing")):
            cost = _cost(way.what("processing"), way.cost, model, way.rocks)
        return _Treated(takes, {name: known[key] for name, key in at.items()}, cost)

    def _recovered(self, metal: str) -> Sequence[str] | None:
        """The rocks that a metal's own recovery is asked for: those of all ways that have no other;
        None of all but air."""
        own = {each.name for each in self.processes if metal in each.recovery}
        listed = [way.rocks for way in self.treatments if way.name not in own]
        if any(rocks is None for rocks in listed):
            return None
        return [rock for rocks in listed for rock in rocks or ()]

    def _taken(self, model: Model, way: _Treatment) -> Bools:
        """Whether a block may go a way: its rock is one that it takes, its class none of waste, and
        it is a block of the table."""
        rock, kinds = model.blocks.rock, [str(kind) for kind in model.blocks.rock.unique()]
        wrong = Gathered()
        wrong.add(
            PlanError(
                f"{way.what('mill')}: no block is of rock {name!r}{meant(name, kinds)}",
                key=way.key("mill"),
            ).with_swap(swap_of(name, kinds))
            for name in way.rocks or ()
            if name not in kinds
        )
        wrong.tell()
        takes = rock.isin(list(way.rocks)) if way.rocks is not None else rock != AIR
        found: Bools = takes.to_numpy() & (model.blocks["row"].to_numpy() >= 0)
        return found & ~of_waste(model, self.waste_classes)

    def forbidden(self, model: Model) -> Bools:
        """Which blocks may not be dug: those for which a formula of `forbid` holds, or for a
        sub-block of which one does. Air is never dug: air above a corridor would else keep the rock
        beside the corridor, whose slopes lead through that air, from being dug too.
        """
        found: Bools = np.zeros(len(model), bool)
        if model.fenced and list(model.fenced[0]) == list(self.forbid):
            found[: len(model.fenced[1])] = model.fenced[1]  # blocks after those are air
            return found
        wrong = Gathered()
        for formula in self.forbid:
            with wrong.part("economics", "forbid"):
                found |= holds(str(formula), model)[0]
        wrong.tell()
        found &= model.blocks.tonnes.to_numpy(float) > 0
        return found

    def codes(self) -> set[str]:
        """The columns that stand for codes: those that a comparison or `forbid` names. A metal's
        grade isn't one, whatever is asked of it: of sub-blocks its mean is what the metal in the
        block comes to."""
        amounts = [self.mining, *(metal.recovery for metal in self.metals)]
        for way in self.treatments:
            amounts += [way.cost, *way.recovery.values()]
        compared = [names_in(text, is_compared=True) for text in amounts if isinstance(text, str)]
        return set().union(*compared, *(names_in(str(text)) for text in self.forbid)) - {
            metal.grade for metal in self.metals
        }

    def partly_forbidden(self, model: Model) -> Bools:
        """Which blocks may not be dug for some of their sub-blocks alone, of shape
        (len(model),)."""
        found = self.forbidden(model)
        if model.parts is None:
            return np.zeros(len(model), bool)
        rows = np.zeros(len(model.parts.frame), bool)
        for formula in self.forbid:
            rows |= holds(str(formula), model)[1][: len(rows)]
        free = (
            np.bincount(
                model.parts.parent,
                ~rows & (model.parts.frame["tonnes"].to_numpy(float) > 0),
                len(model),
            )
            > 0
        )
        return found & free


def _twice(name: str) -> PlanError:
    """The error of a key of one mill beside processes."""
    own = _OF_PROCESS[name]
    return PlanError(
        f"[economics] has {name}, which is of one mill, and processes: each of these has its own {own}",
        try_this=f"take {name} out, or the processes",
        key=("economics", name),
    )


def _number(what: str, value: object, least: float, most: float = math.inf) -> None:
    """Refuses what is no number from `least` to `most`."""
    if (
        isinstance(value, bool)
        or not isinstance(value, (int, float))
        or not least <= value <= most
        or not math.isfinite(value)
    ):
        span = f"from {least:g} to {most:g}" if math.isfinite(most) else f"of at least {least:g}"
        raise PlanError(f"{what} is {value!r}, and has to be a number {span}")


def _grades_of(metal: Metal, model: Model) -> Floats:
    """The grade of each block, 0 for blocks that were added."""
    found = model.numbers(metal.grade, f"metal {metal.name}")
    found[model.blocks["row"].to_numpy() < 0] = 0.0
    too_rich = found * metal.content() > metal_in_a_tonne(
        metal.name, "%", metal.price_unit
    ) * 100 * (1 + 1e-9)
    if (found < 0).any():
        raise _wrong_grade(metal, model, found, found < 0)
    if too_rich.any():
        raise _wrong_grade(metal, model, found, too_rich)
    return found


def _wrong_grade(metal: Metal, model: Model, grades: Floats, wrong: Bools) -> PlanError:
    """The error of grades below 0, or of more than the whole rock."""
    at, row = int(np.argmax(wrong)), model.blocks["row"].to_numpy()
    more = f"; {int(wrong.sum()):,} cells are so" if wrong.sum() > 1 else ""
    cells = [Cell(int(row[i]), f"{grades[i]:g}") for i in np.flatnonzero(wrong)[1:MOST_CELLS]]
    key: KeyPath = ("economics", METALS, metal.name, "grade")
    if grades[at] >= 0:
        what, hint = f"in {metal.grade_unit} is more than the whole rock", "another grade_unit"
        return PlanError(
            f"{grades[at]:g} {what}{more}",
            table=model.table,
            row=int(row[at]),
            column=metal.grade,
            try_this=hint,
            key=(*key[:-1], "grade_unit"),
        ).with_cells(cells)
    mark = not_estimated(f"{grades[at]:g}", model.absent)
    is_mark = len(np.unique(grades[wrong])) == 1  # else it is what kriging leaves
    return PlanError(
        f"{grades[at]:g} is below 0{more}",
        table=model.table,
        row=int(row[at]),
        column=metal.grade,
        try_this=mark if is_mark else "0 in their place, if the estimation left them so",
        key=key,
    ).with_cells(cells)


def amount(what: str, stated: Amount, model: Model, rocks: Sequence[str] | None = None) -> Floats:
    """An amount for each block: a number, a column, a formula, or by rock; `rocks` are those that a
    table by rock is asked for, None of all but air. Blocks of others get 0 by it.

    Raises
    ------
    PlanError
        Where nothing is said of a rock, a cell is no number, or a formula is none.
    """
    b = model.blocks
    if isinstance(stated, bool) or not isinstance(stated, (int, float, str, Mapping)):
        raise PlanError(
            f"{what} is {stated!r}",
            try_this="a number, a column, a formula, or { rock = number, other = number }",
        )
    if isinstance(stated, (int, float)):
        return np.full(len(b), float(stated))
    if isinstance(stated, str):
        return (
            model.numbers(stated, what)
            if stated in b.columns
            else _of_formula(stated, model, what).astype(float)
        )
    kinds = [str(kind) for kind in b.rock.unique()]
    _refuse_rocks(what, stated, model, kinds, rocks)
    found: Floats = b.rock.map(
        {kind: float(stated.get(kind, stated.get("other", 0.0))) for kind in kinds}
    ).to_numpy(float)
    return found


def _refuse_rocks(
    what: str,
    by_rock: Mapping[str, float],
    model: Model,
    kinds: Sequence[str],
    rocks: Sequence[str] | None,
) -> None:
    """Refuses a table by rock that says nothing of a rock that it is asked for, or names one that
    no block is of: with "other" that would count as one of the others. Each of them is told."""
    wrong = Gathered()
    absent = sorted(set(kinds) - set(by_rock) - {AIR}) if "other" not in by_rock else []
    unsaid = [rock for rock in absent if rocks is None or rock in rocks]
    unknown = [name for name in by_rock if name not in (*kinds, "other", AIR)]
    with wrong.part():
        _refuse_misspelt(what, by_rock, kinds, absent)
        if unsaid:
            first = _row_at(model, int(np.argmax(model.blocks.rock == unsaid[0])))
            named = ", ".join(rock or "without a name, an empty cell" for rock in unsaid)
            raise PlanError(
                f"{what}: nothing is said of rock {named}",
                table=model.table,
                row=first,
                try_this=(
                    f"{{"
                    f" {unsaid[0] if _BARE.fullmatch(unsaid[0]) else json.dumps(unsaid[0], ensure_ascii=False)}"
                    f" = .. }}, or {{ other = .. }} for the rest"
                ),
            )
    for rock, value in by_rock.items():
        with wrong.part():
            _number(f"{what} of rock {rock}", value, -math.inf)
    if "other" in by_rock:
        wrong.add(
            PlanError(
                f"{what}: no block is of rock {rock!r}{meant(rock, kinds)}",
            ).with_swap(swap_of(rock, kinds))
            for rock in unknown
        )
    wrong.tell()


def _refuse_misspelt(
    what: str, by_rock: Mapping[str, float], kinds: Sequence[str], unsaid: Sequence[str]
) -> None:
    """Refuses a name of no rock that looks like that of one of which nothing is said."""
    near = {name: near_to(name, unsaid) for name in by_rock if name not in kinds}
    meant = {name: rock for name, rock in near.items() if rock}
    if meant:
        raise PlanError(
            f"{what}: no block is of rock {', '.join(map(repr, meant))}; "
            + ("is" if len(meant) == 1 else "are")
            + f" {', '.join(map(repr, meant.values()))} meant?",
            try_this=toml_spelled(
                {meant.get(rock, rock): value for rock, value in by_rock.items()}
            ),
        ).with_swap(next(iter(meant.items())) if len(meant) == 1 else None)


def _of_formula(text: str, model: Model, what: str) -> Floats | Bools:
    """What a formula gives for each block."""
    with in_table(model.table):
        return _of_rows(text, model.blocks, what)


def _of_rows(text: str, table: pd.DataFrame, what: str) -> Floats | Bools:
    """What a formula gives for each row; 0 or no for air that was added, which weighs nothing, and
    stands where a formula that goes by the ground may give no number."""
    asked = (table["row"].to_numpy() >= 0) | (table["tonnes"].to_numpy(float) > 0)
    if asked.all():
        return worked_out(text, table, what)
    found = worked_out(text, table[asked], what)
    each: Floats | Bools = np.zeros(len(table), found.dtype)
    each[asked] = found
    return each


def holds(formula: str, model: Model) -> tuple[Bools, Bools]:
    """For which blocks a formula of `forbid` holds, and for which rows: of blocks that were added
    up, one of whose sub-blocks it holds for that weighs something.

    Raises
    ------
    PlanError
        Where it says neither yes nor no, or asks for sub-blocks that aren't at hand.
    """
    parts, table = model.parts, model.blocks
    block = np.arange(len(model))
    if parts is not None:
        is_added = table["row"].to_numpy() < 0
        table = pd.concat([parts.frame, table[is_added]], ignore_index=True)
        block = np.concatenate([parts.parent, block[is_added]])
    elif model.has_sub_blocks:
        raise PlanError(
            (
                f"[economics] forbid = {formula!r}: for which sub-blocks does it hold? A model"
                " that was built doesn't have them any more"
            ),
            try_this="read the table again, and build",
        )
    with in_table(model.table):
        found = _of_rows(formula, table, "[economics] forbid")
    if found.dtype != bool:
        raise PlanError(
            f"[economics] forbid = {formula!r} says neither yes nor no", try_this='as "XC > 12000"'
        )
    rows = found.astype(bool) & ((table["tonnes"].to_numpy(float) > 0) | (parts is None))
    each: Bools = np.zeros(len(model), bool)
    each[block[rows]] = True
    return each, rows


def _refuse_shares(what: str, stated: Amount, key: KeyPath) -> None:
    """Refuses shares that stand in study.toml itself and aren't from 0 to 1: no row of the table is
    to blame."""
    if isinstance(stated, str):
        return
    by_rock = stated if isinstance(stated, Mapping) else {"": stated}
    for rock, value in by_rock.items():
        if not 0 <= value <= 1:
            better = {name: of_percent(each) for name, each in by_rock.items()}
            of_rock = f" of rock {rock}" if isinstance(stated, Mapping) else ""
            right = Remedy(key, better if isinstance(stated, Mapping) else better[rock])
            raise PlanError(
                f"{what}{of_rock} is {value:g}, and a share is from 0 to 1",
                try_this=right if 0 <= better[rock] <= 1 else None,
                key=key,
            )


def _share(what: str, values: Floats, model: Model) -> Floats:
    """Refuses shares that aren't from 0 to 1."""
    wrong = (values < 0) | (values > 1)
    if wrong.any():
        at = int(np.argmax(wrong))
        raise PlanError(
            f"{what} is {values[at]:g}, and a share is from 0 to 1",
            table=model.table,
            row=_row_at(model, at),
        )
    return values


def _cost(what: str, stated: Amount, model: Model, rocks: Sequence[str] | None = None) -> Floats:
    """What a tonne costs, at least 0."""
    said = what.removesuffix(" cost")  # a process costs so much, and not its cost
    for value in stated.values() if isinstance(stated, Mapping) else [stated]:
        if isinstance(value, (int, float)) and value < 0:
            raise PlanError(f"{said} costs {value:g}, less than nothing")
    values = amount(what, stated, model, rocks)
    wrong = values < 0
    if wrong.any():
        at = int(np.argmax(wrong))
        raise PlanError(
            f"{said} costs {values[at]:g} here, less than nothing"
            + (f", and so for {int(wrong.sum()):,} blocks" if wrong.sum() > 1 else ""),
            table=model.table,
            row=_row_at(model, at),
            try_this=f"max(0, {stated}), if the formula runs below 0"
            if isinstance(stated, str)
            else None,
        )
    return values


def _row_at(model: Model, block: int) -> int | None:
    row = int(model.blocks["row"].iloc[block])
    return row if row >= 0 else None


def _in_whole(
    name: str, values: Floats, rounding: Decimal, model: Model, key: KeyPath = ()
) -> Ints:
    """Amounts in whole multiples of `rounding`, half to even; `key` is where they are said, unless
    it is the key of that name."""
    most = float(MOST_WORTH)
    if not np.abs(values).max(initial=0.0) <= most:  # so also where a product is no number
        at = int(np.argmax(np.abs(values)))
        raise PlanError(
            f"a {name} of {values[at]:g} for one block: is a unit wrong?",
            table=model.table,
            row=_row_at(model, at),
            key=key or ("economics", METALS if name == "revenue" else name),
        )
    whole: Ints = np.rint(values / float(rounding)).astype(np.int64)
    return whole


def fence_price(priced: Priced, rounding: Decimal) -> int:
    """What digging a forbidden block is made to cost: more than the whole mine brings at the
    largest factor, so that no best pit has one. Where that is more than `pit` reads, the most that
    it reads; `Study.adds_up` looks whether a pit has one then.

    Raises
    ------
    PlanError
        Where the mine brings more than half of that at the full price.
    """
    most = exact_sum(priced.most_revenue)
    price = most * LARGEST_FACTOR // THOUSAND + 1
    if price * rounding > MOST_WORTH:
        price = int(MOST_WORTH / rounding)
        if price <= 2 * most:
            raise PlanError(
                "[economics] forbid: the mine brings too much for an amount that keeps blocks from being dug",
                try_this="prices and costs in thousands",
                key=("economics", "forbid"),
            )
    return price
