"""Schedules by the relaxation's shares: ore in the order in which the relaxation digs it, each unit
right after what is left of all above it (Chicoisne and others, 2012), then single moves and swaps
between neighbouring periods."""
from __future__ import annotations

import math
import threading
import time
from collections.abc import Callable, Iterable, Iterator
from concurrent.futures import ThreadPoolExecutor
from contextlib import contextmanager
from typing import TypeVar

import numpy as np

from ..base.arrays import Bools, Floats, Ints
from ..base.machine import processors
from . import highs, unit_moves, swaps
from .unit_moves import InsertLimits, Mine, Plan, WantedUnits
from .swaps import Heat
from .production import Production
from .destinations import Timetable
from .way_prices import sent_in

_ALPHAS = (1e-6, 0.5, 0.95)  # shares from which on a unit counts as dug
_FLOORS = (None, 1e-6, 0.5)  # shares that are needed before a unit may be dug; None: it may always
_PASSES = 50  # of single moves, at most
_TURNS = 4  # of moves and of what is sent
_SLACK = 1e-9
_SEEDS = 1 << 10  # of one round of swaps between two periods
_SWAPS_AT_A_TIME = 2000  # swaps between two looks at the clock
_THREADS = 2
_Swapped = TypeVar("_Swapped")
_MOST_OUT = 4  # units that one try of a rebuilding takes out
_MOST_LOOKS = 20  # times all units that it looks at for what comes in their place


class Sorting:
    """Makes schedules of a mine, and makes them better.

    Parameters
    ----------
    production : Production

    Attributes
    ----------
    ends : float
        When what makes a schedule better has to end, by the clock that always goes on; a schedule
        is made whatever the time.
    threads : int
        Pairs of periods that swaps go on in at the same time.
    """

    def __init__(self, production: Production) -> None:
        self.production, self.ends = production, math.inf
        self.threads = min(_THREADS, processors())
        above, sinking = production.above, production.sinking
        on, sunk = above.turned(), sinking.turned()
        self.mine = Mine(
            above.first,
            above.other,
            on.first,
            on.other,
            sinking.first,
            sinking.other,
            sunk.first,
            sunk.other,
            production.earliest,
            production.uses,
            production.values,
            production.terms.per_year,
            production.units - production.gates,
            production.weights * production.terms.fixed_cost,
            production.capacities[0],
            np.zeros(1, np.int64),
        )
        self.order = production.order
        self.by_gain = production.millable.by_gain()

    @contextmanager
    def ending(self, seconds: float) -> Iterator[None]:
        """Ends what makes a schedule better after some seconds: swaps within compiled loops too, of
        which two thousand may take minutes."""
        self.ends, self.mine.over[0] = time.monotonic() + seconds, 0
        timer = threading.Timer(seconds, self.end)
        timer.daemon = True
        timer.start()
        try:
            yield
        finally:
            timer.cancel()

    def end(self) -> None:
        """Ends swaps that go on within compiled loops."""
        self.mine.over[0] = 1

    @property
    def is_late(self) -> bool:
        """Whether the time is over."""
        return time.monotonic() >= self.ends

    def mine_of(self, sent: Bools) -> Mine:
        """The mine where some blocks are sent."""
        millable = self.production.millable
        if not len(sent):
            return self.mine
        return self.mine._replace(
            values=self.mine.values + millable.gained(sent, self.production.units),
            uses=self.mine.uses + millable.fed(sent, self.mine.uses.shape),
        )

    def sent_in(self, period: Ints) -> Timetable:
        """A schedule of some periods, in which those blocks are sent that gain most for their feed, of
        several ways by prices."""
        nothing = np.zeros(len(self.production.millable.block), bool)
        left = self.loose(Timetable(period, nothing)).left
        return Timetable(period, sent_in(self.production.millable, self.by_gain, period, left))

    def resent(self, plan: Timetable) -> Timetable:
        """A schedule of the same periods, with where blocks go chosen anew unless that is worth less."""
        return self.better(self.sent_in(plan.period), plan) if len(plan.sent) else plan

    def by_shares(self, shares: Floats, multipliers: Ints) -> Iterator[Timetable]:
        """Schedules by some orders of the relaxation's shares, of shape (units, periods)."""
        made, rank = self.production, np.empty(self.production.units, np.int64)
        rank[self.order] = np.arange(made.units)
        mean = np.round(made.periods - shares.sum(axis=1), 6)
        is_best, every = made.millable.best(made.weights, multipliers), made.millable.richest()
        for alpha in _ALPHAS:
            first = (shares < alpha - _SLACK).sum(axis=1)
            sent = self.sent_at(first, is_best)
            is_wanted = self.is_wanted(sent) & (first < made.periods)
            if (sent != every).any():  # a schedule that sends all that pays is one of these too
                wanted = np.flatnonzero(self.is_wanted(every) & (first < made.periods))
                wanted = wanted[np.lexsort([rank[wanted], mean[wanted], first[wanted]])]
                yield self.by_order(wanted, np.zeros(made.units, np.int64), every)
            for share in _FLOORS:
                floor = (
                    np.zeros(made.units, np.int64)
                    if share is None
                    else (shares < share - _SLACK).sum(axis=1).astype(np.int64)
                )
                for keys in ((first, mean, made.shell, rank), (first, made.shell, mean, rank)):
                    wanted = np.flatnonzero(is_wanted)
                    wanted = wanted[np.lexsort([key[wanted] for key in reversed(keys)])]
                    yield self.by_order(wanted, floor, sent)

    def sent_at(self, period: Ints, is_best: Bools) -> Bools:
        """Which ways blocks are sent where units are dug in some periods, by which is the best one in
        each."""
        at = np.minimum(period, self.production.periods - 1)[self.production.millable.unit]
        found: Bools = is_best[np.arange(len(at)), at]
        return found

    def is_wanted(self, sent: Bools) -> Bools:
        """Whether a unit is dug for itself: it brings something, or has feed."""
        mine = self.mine_of(sent)
        found: Bools = (mine.values > 0) | (mine.uses[1:] > 0).any(axis=0)
        return found

    def first_ones(self) -> Iterator[Timetable]:
        """Schedules of orders that need no relaxation, shell after shell: of all units; then of those
        that are dug for themselves, each right after what is left of all above it, so that no room
        goes to waste that bares nothing. The richest of a bench, or of a shell, come first."""
        yield self.by_shells()
        made, every = self.production, self.production.millable.richest()
        values, wanted = self.mine_of(every).values, np.flatnonzero(self.is_wanted(every))
        for keys in ((made.shell, -made.level, -values), (made.shell, -values)):
            order = wanted[np.lexsort([key[wanted] for key in reversed(keys)])]
            yield self.by_order(order, np.zeros(made.units, np.int64), every)

    def by_shells(self) -> Timetable:
        """The schedule of all units in an order: shell after shell, bench by bench."""
        made = self.production
        order = self.order[np.argsort(made.shell[self.order], kind="stable")]
        every = made.millable.richest()
        return self.by_order(order, np.zeros(made.units, np.int64), every)

    def by_order(self, wanted: Ints, floor: Ints, sent: Bools) -> Timetable:
        """The schedule of an order of wanted units of which some blocks are sent, after single
        moves."""
        mine = self.mine_of(sent)
        order = unit_moves.cone_order(mine, wanted)
        left = self.production.capacities.copy()
        period = unit_moves.sort_into(mine, order, floor, left)
        return self.moved(self.resent(Timetable(period, sent)))

    def moved(self, plan: Timetable) -> Timetable:
        """A schedule after single moves, each to the period where the unit is worth most, in turns
        with what is sent."""
        for _ in range(_TURNS):
            mine, more = self.mine_of(plan.sent), self.loose(plan)
            for _ in range(_PASSES):
                if self.is_late or not unit_moves.move_units(
                    mine, more, self.order, self.production.weights
                ):
                    break
            moved = Timetable(more.period, plan.sent)
            if not len(plan.sent):
                return moved
            before, plan = self.production.npv(plan), self.better(self.sent_in(more.period), moved)
            if self.production.npv(plan) <= before:
                break
        return plan

    def better(self, one: Timetable, other: Timetable) -> Timetable:
        """That of two schedules which is worth more."""
        return max(one, other, key=self.production.npv)

    def swapped(self, plan: Timetable, tries: int, seed: int) -> Timetable:
        """A schedule after swaps between each two neighbouring periods, and single moves. With every
        second seed the poorest of what is sent leaves the mill before, so that richer blocks find
        room."""
        if seed % 2 and plan.sent.any():
            poorest = self.by_gain[plan.sent[self.by_gain]]
            keep = np.random.default_rng(seed).integers(len(poorest))
            sent = plan.sent.copy()
            sent[poorest[keep:]] = False
            plan = Timetable(plan.period, sent)
        mine, more = self.mine_of(plan.sent), self.loose(plan)
        steps = self.steps.tolist()
        counts = np.bincount(more.period, minlength=len(steps) + 1)

        def swap(s: int) -> None:
            most = tries + int(counts[s : s + 2].sum())
            begin = (seed * len(steps) + s) * _SEEDS
            for done in range(0, most, _SWAPS_AT_A_TIME):
                if self.is_late:
                    break
                heat, piece = Heat(steps[s], 0.0), min(_SWAPS_AT_A_TIME, most - done)
                swaps.swap_units(mine, more, s, piece, begin + done // _SWAPS_AT_A_TIME, heat)

        for first in range(2):
            self.at_once(swap, range(first, len(steps), 2))
        return self.moved(self.resent(Timetable(more.period, plan.sent)))

    def at_once(self, swap: Callable[[int], _Swapped], periods: Iterable[int]) -> list[_Swapped]:
        """Does something with each of some periods and the next, which no other of them has, by
        `threads`. What one of two such pairs may do doesn't depend on the other: units that a pair
        has stay in it. A lag of more periods than one reaches across a pair, and then one comes after
        the other. Ctrl-C, and an error of one of them, ends the others."""
        if self.threads == 1 or len(self.production.sinking.other) and self.mine.lag > 1:
            return [swap(s) for s in periods]
        with ThreadPoolExecutor(self.threads) as pool:
            try:
                return list(pool.map(swap, periods))
            except BaseException:
                self.ends = -math.inf
                self.end()
                highs.stop()
                pool.shutdown(wait=False, cancel_futures=True)
                raise

    @property
    def steps(self) -> Ints:
        """The weight of each period less that of the next; after the last comes none."""
        weights = self.production.weights
        found: Ints = weights - np.append(weights[1:], 0)
        return found

    def rebuilt(self, plan: Timetable, tries: int, seed: int) -> Timetable:
        """A schedule after some tries to leave a few units in the ground, with all that rests on
        them, and to dig in their place what pays, each with all above it: as many periods as that
        takes. A try that brings less is taken back."""
        made, random = self.production, np.random.default_rng(seed)
        worth = made.npv(plan)
        for _ in range(tries):
            if self.is_late:
                break
            mine, more = self.mine_of(plan.sent), self.loose(plan)
            dug = np.flatnonzero(more.period[: mine.gates] < made.periods)
            out = random.permutation(dug)[: random.integers(_MOST_OUT)]
            if random.random() < 0.3:
                out = dug[more.period[dug] >= random.integers(made.periods)]
            unit_moves.take_out(mine, more, out)
            wanted = np.flatnonzero((mine.values > 0) & (more.period == made.periods))
            wanted = wanted[np.argsort(-mine.values[wanted] * random.random(len(wanted)))]
            later = random.random(made.units) < random.random() * random.integers(2)
            floor = later * random.integers(0, made.periods, made.units)
            least = -int(mine.values.max(initial=0) * made.weights[0]) * (random.random() < 0.3)
            limits = InsertLimits(least, _MOST_LOOKS * made.units)
            unit_moves.insert_units(mine, more, WantedUnits(wanted, floor), made.weights, limits)
            resent = self.resent(Timetable(more.period, plan.sent))
            other = self.shortened(self.moved(resent))
            found = made.npv(other)
            if found >= worth:
                plan, worth = other, found
        return plan

    def shortened(self, plan: Timetable) -> Timetable:
        """A schedule that ends where what follows doesn't pay its fixed costs."""
        made, sent = self.production, self.production.period_sent(plan)
        if not made.terms.fixed_cost:
            return plan
        so_far = [0]
        for t, weight in enumerate(made.weights.tolist()):
            here = plan.period == t
            flow = int(made.values[here].sum()) + int(made.millable.gains[sent == t].sum())
            flow -= made.terms.fixed_cost * bool(made.uses[0][here].any())
            so_far.append(so_far[-1] + weight * flow)
        end = int(np.argmax(np.array(so_far, object)))
        return Timetable(np.where(plan.period < end, plan.period, made.periods), plan.sent)

    def loose(self, plan: Timetable) -> Plan:
        """A schedule as moves and swaps change it."""
        return Plan(plan.period.copy(), self.production.capacities - self.production.used(plan))
