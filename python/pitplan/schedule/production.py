"""The mine of a schedule in whole numbers: what each unit is worth and uses, what each period
weighs and has, and which unit rests on which.

A unit is a block of the best pit at the full price, a panel of them, or a gate. Only that pit's
blocks are scheduled: since weights fall, uses aren't negative, and what the sink rate asks for lies
within the slopes, no schedule gains by a block outside it.
"""
from __future__ import annotations

import hashlib
from dataclasses import dataclass, field
from functools import cached_property
from typing import TYPE_CHECKING

import numpy as np

from ..base.amounts import THOUSAND, exact_sum
from ..base.arrays import Array, Floats, Indices, Ints
from ..base.errors import PlanError
from ..base.next_command import command
from ..base.units_shown import counted
from .cones import first_by_cones
from .pairs import Pairs
from .destinations import Millable, Timetable
from .terms import GRAIN, Terms, refuse_missing, refuse_parts
from .units import Units, gated, of_units, pairs_of, rows_of, units_of

if TYPE_CHECKING:
    from ..study.shells import Shells
    from ..study.study import Study

_FORM = 7  # of what is kept: another one is found anew
_MOST_NODES = 1 << 24  # units by periods that `pit` reads


@dataclass(frozen=True)
class Production:
    """What a schedule is made of.

    Attributes
    ----------
    terms : Terms
    blocks : int array of shape (blocks of the pit,)
        Their numbers in the model.
    unit : int array of that shape
        The unit of each.
    size : int
        Of the model, in blocks.
    values : int array of shape (units,)
        What a unit brings at the full price, in whole units of currency.
    uses : int array of shape (resources, units)
        Rock, and the feed of the mill or of each process, in thousandths of a tonne.
    level : int array of shape (units,)
        The bench, from the bottom.
    shell : int array of shape (units,)
        The first pit of the series that has it.
    above : Pairs
        What a unit rests on by the slopes.
    sinking : Pairs
        What has to be dug a year before it, by the sink rate.
    millable : Millable
        The ways that blocks may be sent, to the mill or to a process. What they gain there isn't in
        `values`, nor their feed in `uses`. Default: none.
    pushback : int array of shape (units,)
        That of each unit, from 0. Default: all are of one.
    gates : int
        How many of the units, the last ones, are gates. Default: none.
    """

    terms: Terms
    blocks: Ints
    unit: Ints
    size: int
    values: Ints
    uses: Ints
    level: Ints
    shell: Ints
    above: Pairs
    sinking: Pairs
    millable: Millable = field(default_factory=Millable.none)
    pushback: Ints = field(default_factory=lambda: np.zeros(1, np.int64))
    gates: int = 0

    @property
    def is_of_blocks(self) -> bool:
        """Whether units are the blocks of the pit, in their order, and nothing else."""
        return not self.gates and self.units == len(self.blocks)

    @property
    def counts_cones(self) -> bool:
        """Whether cones say from when on a unit may be dug: where units are panels or have an order of
        pushbacks. Of single blocks that takes next to nothing off a bound."""
        return not self.is_of_blocks

    @property
    def units(self) -> int:
        """How many there are."""
        return len(self.values)

    @property
    def periods(self) -> int:
        """How many there are."""
        return self.terms.periods

    @cached_property
    def weights(self) -> Ints:
        """Of the periods, in millionths."""
        return np.array(self.terms.weights, np.int64)

    @cached_property
    def capacities(self) -> Ints:
        """Of shape (resources, periods); what nothing limits has room for all. Units are dug whole,
        so of each capacity counts what they may fill: a multiple of the greatest amount of which
        all that they use is one.
        """
        found = np.zeros((len(self.uses), self.periods), np.int64)
        for row, limits in enumerate(self.terms.capacities):
            used = np.append(self.uses[row], self.millable.feeds_of(row))
            part = max(int(np.gcd.reduce(used)), 1)
            found[row] = np.array(limits) // part * part if limits else int(used.sum())
        return found

    @cached_property
    def key(self) -> str:
        """The digest of all that a bound rests on."""
        digest = hashlib.sha256(
            f"{_FORM} {self.terms.per_year} {self.terms.fixed_cost} {self.size}".encode()
        )
        arrays: tuple[Array, ...] = (self.blocks, self.unit, self.values, self.uses, self.weights)
        for each in (*arrays, self.capacities, *self.above, *self.sinking, *self.millable):
            digest.update(f"{each.shape}".encode() + np.ascontiguousarray(each).tobytes())
        return digest.hexdigest()

    @cached_property
    def first_by_room(self) -> Ints:
        """The first period that cones, where they count, leave each unit, of shape (units,)."""
        if not self.counts_cones:
            return np.zeros(self.units, np.int64)
        return first_by_cones(self.above, self.order, self.uses, self.capacities)

    @cached_property
    def earliest(self) -> Ints:
        """The first period that the sink rate and cones, where they count, leave each unit, of shape
        (units,)."""
        found, lag = self.first_by_room.copy(), self.terms.per_year
        if not len(self.sinking.other):
            return found
        for here in np.split(self.order, self.steps):
            for pairs, later in ((self.above, 0), (self.sinking, lag)):
                rows, others = rows_of(pairs, here)
                np.maximum.at(found, rows, found[others] + later)
        return np.minimum(found, self.periods)

    @cached_property
    def rank(self) -> Ints:
        """A number for each unit that is lower for all that it rests on: pushback by pushback, the
        gates of one after it, and from the top bench down."""
        is_gate = np.arange(self.units) >= self.units - self.gates
        found: Ints = (self.pushback * 2 + is_gate) * (self.level.max() + 1) - self.level
        return found

    @cached_property
    def order(self) -> Ints:
        """The units in such an order."""
        return np.argsort(self.rank, kind="stable")

    @property
    def steps(self) -> Ints:
        """Where in that order each further rank begins."""
        return np.flatnonzero(np.diff(self.rank[self.order])) + 1

    def npv(self, plan: Timetable) -> int:
        """What a schedule is worth, in millionths of a unit of currency, exactly."""
        return self.worth(plan) - self.fixed(plan)

    def fixed(self, plan: Timetable) -> int:
        """What the fixed costs of the periods in which rock is dug weigh, likewise."""
        if not self.terms.fixed_cost:
            return 0
        return int(self.weights[self.used(plan)[0] > 0].sum()) * self.terms.fixed_cost

    def worth(self, plan: Timetable) -> int:
        """What a schedule is worth before fixed costs, likewise."""
        sent, found = self.period_sent(plan), 0
        for t, weight in enumerate(self.weights):
            worth = exact_sum(self.values[plan.period == t])
            found += int(weight) * (worth + exact_sum(self.millable.gains[sent == t]))
        return found

    def period_sent(self, plan: Timetable) -> Ints:
        """The period in which each row of `millable` is sent; the number of periods where it
        isn't."""
        found: Ints = np.where(plan.sent, plan.period[self.millable.unit], self.periods)
        return found

    def used(self, plan: Timetable) -> Ints:
        """What a schedule uses, of shape (resources, periods)."""
        dug = plan.period < self.periods
        found = np.zeros((len(self.uses), self.periods), np.int64)
        for row in range(len(self.uses)):
            np.add.at(found[row], plan.period[dug], self.uses[row][dug])
        sent = self.period_sent(plan)
        there = sent < self.periods
        of = self.millable.resource[there], sent[there]
        np.add.at(found, of, self.millable.feeds[there])
        return found

    def kept_by_sink(self, period: Ints) -> Ints:
        """The units that the sink rate alone keeps from being dug a period earlier: all else that
        they rest on is dug before, and straight above them a year's benches are dug in the year
        that ends with that period. Ascending.

        Parameters
        ----------
        period : int array of shape (units,)
            When each is dug, from 0; the number of periods where it stays.
        """
        above, sunk = np.full(self.units, -1), np.full(self.units, -1)
        np.maximum.at(above, self.above.blocks, period[self.above.other])
        np.maximum.at(sunk, self.sinking.blocks, period[self.sinking.other] + self.terms.per_year)
        return np.flatnonzero((period < self.periods) & (sunk == period) & (above < period))

    def wrong(self, plan: Timetable) -> list[str]:
        """What keeps a schedule from being feasible, in words."""
        never, found = self.periods, []
        for pairs, lag, what in (
            (self.above, 0, "slopes"),
            (self.sinking, self.terms.per_year, "sink rate"),
        ):
            count = int(pairs.broken(plan.period, lag, never).sum())
            if count:
                found.append(f"{counted(count, 'pair')} break{'s' * (count == 1)} the {what}")
        twice = int((self.millable.so_far(plan.sent) > 1).sum())
        found += [f"{counted(twice, 'block')} more than one way"] if twice else []
        over = self.used(plan) > self.capacities
        names = self.terms.resources
        found += [f"{names[r]} in period {t + 1} is exceeded" for r, t in np.argwhere(over)]
        return found

    def of_blocks(self, plan: Timetable) -> Indices:
        """The period of each block of the model, -1 where it isn't dug."""
        found = np.full(self.size, -1, np.int32)
        of_pit = plan.period[self.unit]
        found[self.blocks] = np.where(of_pit < self.periods, of_pit, -1)
        return found

    def ways_chosen(self, plan: Timetable) -> Ints:
        """Which way each block of the model is sent by choice, of shape (blocks of the model,): the
        number from 1, and 0 where it isn't dug or isn't sent."""
        found = np.zeros(self.size, np.int64)
        here = self.period_sent(plan) < self.periods
        found[self.millable.block[here]] = self.millable.resource[here]
        return found


def production_of(shells: Shells, terms: Terms, at: int) -> Production:
    """The mine of a schedule, of the blocks of pit `at` of a series, that at the full price.

    Raises
    ------
    PlanError
        Where the pit is empty, amounts aren't whole, the sink rate asks for blocks that the slopes
        don't, or there are more units and periods than `pit` reads.
    """
    study = shells.study
    priced, model = study.priced, study.model
    refuse_parts(priced.rounding)
    blocks = np.flatnonzero(shells.holds(at)).astype(np.int64)
    if not len(blocks):
        raise PlanError(
            "the best pit at the full price is empty: there is nothing to schedule",
            try_this="a price at which a pit pays: pit_by_pit.csv has the pits of each factor",
            key=("schedule",),
        )
    parted = units_of(study, blocks, _pushback_of(shells, terms, blocks), terms.panel)
    gates = gated(parted, terms.lead)
    units = gates.units
    if units.size * terms.periods > _MOST_NODES:
        raise PlanError(
            f"[schedule] {counted(units.size, 'block')} and {counted(terms.periods, 'period')} are more than"
            f" {_MOST_NODES:,} together",
            try_this="panel = 2 in [schedule], or fewer years",
            key=("schedule",),
        )
    uses = list(model_uses(study, terms.is_by_year))
    worth = priced.thousandths(THOUSAND) // THOUSAND * int(priced.rounding)
    millable = Millable.none()
    if terms.is_by_year:
        millable = _millable_of(study, blocks, units.of_blocks, np.stack(uses[1:]))
        worth = -priced.mining * int(priced.rounding)
        uses[1:] = [np.zeros(len(model), np.int64) for _ in uses[1:]]
    above, sinking = pairs_of(study, terms.sink, blocks)
    return Production(
        terms,
        blocks,
        units.of_blocks,
        len(model),
        units.summed(worth[blocks]),
        np.stack([units.summed(each[blocks]) for each in uses]),
        units.level,
        _shells_of_units(shells, terms, blocks, units),
        of_units(above, units, True, gates),
        of_units(sinking, units, False),
        millable,
        units.pushback,
        units.size - parted.size,
    )


def _pushback_of(shells: Shells, terms: Terms, blocks: Ints) -> Ints:
    """The pushback of each block of a pit, from 0: those of `terms`, and after them the rest.

    Raises
    ------
    PlanError
        Where the series has no pit at one of their factors.
    """
    refuse_missing(terms.pushbacks, shells.factors, command("shells", shells.study.named))
    ends = [shells.factors.index(factor) for factor in terms.pushbacks]
    found: Ints = np.searchsorted(ends, shells.shell[blocks]).astype(np.int64)
    return found


def _shells_of_units(shells: Shells, terms: Terms, blocks: Ints, units: Units) -> Ints:
    """The first pit of the series that has each unit; of a gate the last pit of its pushback."""
    found = np.zeros(units.size, np.int64)
    np.maximum.at(found, units.of_blocks, shells.shell[blocks].astype(np.int64))
    gates = slice(int(units.of_blocks.max()) + 1, None)
    ends = np.array([shells.factors.index(factor) for factor in terms.pushbacks], np.int64)
    found[gates] = ends[units.pushback[gates]]
    return found


def _model_tonnes(study: Study) -> Floats:
    """The tonnes of each block."""
    found: Floats = study.model.blocks.tonnes.to_numpy(float)
    return found


def feeds_of(study: Study) -> list[Floats]:
    """The tonnes of each block that the mill gets where the block is sent, or each process of the
    blocks that are worth most there."""
    return study.priced.feeds_of(_model_tonnes(study), THOUSAND)


def model_uses(study: Study, is_by_year: bool) -> Ints:
    """Rock of each block of the model, and the feed of the mill or of each process, in thousandths of
    a tonne, of shape (resources, blocks): of the way by which a block is worth most at the full price,
    or of each by which it gains, where a schedule chooses."""
    tonnes = _model_tonnes(study)
    feeds = study.priced.feeds_gained(tonnes, THOUSAND) if is_by_year else feeds_of(study)
    return np.stack([np.rint(each * GRAIN).astype(np.int64) for each in (tonnes, *feeds)])


def _millable_of(study: Study, blocks: Ints, unit: Ints, feeds: Ints) -> Millable:
    """The ways that the blocks of a pit may be sent; `unit` is that of each of `blocks`, and `feeds` has
    the feed of each process and block of the model, in thousandths of a tonne."""
    gains = np.stack([way.gain(blocks, THOUSAND) // THOUSAND for way in study.priced.ways])
    place, way = np.nonzero(gains.T > 0)
    return Millable(
        blocks[place],
        unit[place],
        gains[way, place] * int(study.priced.rounding),
        feeds[way, blocks[place]],
        way + 1,
    )
