"""Windows of a schedule: HiGHS schedules some units of two or three neighbouring periods anew, each
dug whole, while all others stay.

Within a window slopes, sink rate and capacities hold, and where units may be moved at all is known
from those that stay. So a window that is solved to its end has no better schedule; and whatever
HiGHS says, a schedule counts where `Production` finds it feasible and worth more. Units are opened
that few others go with, and how many goes by whether HiGHS came to an end the time before. What
ends it is the size of its tree, and the clock alone where a window takes long or the time is over:
up to there a schedule doesn't depend on the machine.
"""
from __future__ import annotations

import time
from typing import NamedTuple

import numpy as np
from scipy.sparse import coo_matrix, csr_matrix, vstack

from ..base.arrays import Bools, Floats, Ints
from . import highs
from .highs import milp
from .unit_moves import Mine, Plan
from .pairs import Pairs
from .partition import Edges, differences
from .period_ranges import Freed, Ranges, Span, followers, ranges_of
from .destinations import Timetable
from .sorting import Sorting
from .units import rows_of

_FEWEST, _FIRST, _MOST = 60, 300, 3000  # units that are opened
_MORE, _LESS = 1.5, 0.5  # times that, where HiGHS ended and found nothing, or was ended
_MOST_FOLLOW = 300  # units that go with one that is opened, at most
_NODES = 100  # of the tree of one window, so that its size and not the time ends it
_SECONDS = 8.0  # of one window, at most
_GAP_OF_SCHEDULE = 1e-7  # of the schedule's worth, to which a window is solved
_GAP_OF_WINDOW = 0.01  # of the window's worth, likewise


class _Shares(NamedTuple):
    """The shares of a window, each of an open unit and a period by whose end it is dug: those from
    its first period to the one before its last, by whose end it is dug anyway.

    Attributes
    ----------
    unit, period : int arrays of shape (shares,)
    start : int array of shape (units,)
        A share of an open unit is at `start` and its period.
    """

    unit: Ints
    period: Ints
    start: Ints

    @classmethod
    def of(cls, ranges: Ranges) -> _Shares:
        """Those of some ranges."""
        units = np.flatnonzero(ranges.is_open)
        count = (ranges.high - ranges.low)[units]
        start = np.zeros(len(ranges.low), np.int64)
        start[units] = np.cumsum(count) - count - ranges.low[units]
        unit = np.repeat(units, count)
        return cls(unit, np.arange(len(unit)) - start[unit], start)


class _Solved(NamedTuple):
    """What HiGHS found of a window: shares of 0 and 1, or None; and whether it came to its end."""

    shares: Ints | None
    is_ended: bool


class _Window(NamedTuple):
    """A window as a program: of shares from 0 to 1, which gives most where no row of a table
    exceeds its limit.

    Attributes
    ----------
    ranges : Ranges
    shares : _Shares
    gains : float array of shape (shares,)
        In the unit of values times weights.
    table : sparse array
    limits : float array
    now : float array of shape (shares,)
        Those of the schedule.
    """

    ranges: Ranges
    shares: _Shares
    gains: Floats
    table: csr_matrix
    limits: Floats
    now: Floats

    def whole(self, seconds: float, near: float) -> _Solved:
        """The best shares that HiGHS finds of units that are dug whole, as 0 and 1, None where it
        finds none; and whether nothing is better by more than an amount."""
        now = abs(float(self.gains @ self.now))
        found = milp(
            self.gains / self.unit_of_gain,
            self.table,
            self.limits,
            time_limit=max(seconds, 0.0),
            node_limit=_NODES,
            mip_rel_gap=min(near / max(now, near, 1.0), _GAP_OF_WINDOW),
        )
        shares = None if found.shares is None else (found.shares > 0.5).astype(np.int64)
        return _Solved(shares, found.status == 0)

    @property
    def unit_of_gain(self) -> float:
        """The greatest gain of a share."""
        return max(float(np.abs(self.gains).max()), 1.0)

    def periods(self, shares: Ints, period: Ints) -> Ints:
        """The period of each unit by which shares of 0 and 1 these are."""
        found, unit = period.copy(), self.shares.unit
        found[unit] = self.ranges.high[unit]
        np.subtract.at(found, unit, shares)
        return found


def _window_of(mine: Mine, weights: Ints, plan: Plan, ranges: Ranges) -> _Window:
    """The window of some ranges, of which some are open.

    Parameters
    ----------
    mine : Mine
        Its values and uses are by where blocks go.
    weights : int array of shape (periods,)
    plan : Plan
        A schedule that is feasible.
    ranges : Ranges
        Which have the schedule's own periods.
    """
    shares, size = _Shares.of(ranges), plan.left.shape[1]
    unit, at = shares.unit, shares.period
    now = (plan.period[unit] <= at).astype(float)
    ordered = [_before(shares, ranges)]
    for pairs, lag in (
        (Pairs(mine.first, mine.above), 0),
        (Pairs(mine.sink_first, mine.sink_above), mine.lag),
    ):
        ordered.append(_resting(pairs, lag, shares, ranges))
    low, high = (np.concatenate(each).astype(np.int64) for each in zip(*ordered))
    order = differences(Edges(low, high), len(unit))
    rows, rooms = [], []
    for uses, left in zip(mine.uses, plan.left):
        grain = max(float(uses[unit].max()), 1.0)
        dug = coo_matrix(
            (uses[unit] / grain, (at, np.arange(len(unit)))), (size, len(unit))
        ).tocsr()
        before = vstack([csr_matrix((1, len(unit))), dug[:-1]])
        rows.append(dug - before)
        rooms.append(left / grain + rows[-1] @ now)
    return _Window(
        ranges,
        shares,
        mine.values[unit] * (weights - np.append(weights[1:], 0))[at].astype(float),
        vstack([*rows, order]).tocsr(),
        np.concatenate([*rooms, np.zeros(len(low))]),
        now,
    )


def _before(shares: _Shares, ranges: Ranges) -> Edges:
    """Pairs of shares of which the first is no more than the second: of a unit and two periods that
    follow each other."""
    found = np.flatnonzero(shares.period + 1 < ranges.high[shares.unit])
    return Edges(found, found + 1)


def _resting(pairs: Pairs, lag: int, shares: _Shares, ranges: Ranges) -> Edges:
    """Likewise of a unit and one that it rests on, so many periods before."""
    low, high = [np.zeros(0, np.int64)], [np.zeros(0, np.int64)]
    units, others = rows_of(pairs, np.flatnonzero(ranges.is_open))
    for t in np.unique(shares.period).tolist():
        is_there = (ranges.low[units] <= t) & (t < ranges.high[units])
        is_there &= t - lag < ranges.high[others]  # dug by then anyway where it isn't
        low.append(shares.start[units[is_there]] + t)
        high.append(shares.start[others[is_there]] + t - lag)
    return Edges(np.concatenate(low), np.concatenate(high))


class _Opening(NamedTuple):
    """Which periods are opened, and how they are solved.

    Attributes
    ----------
    window : Span
    sent : bool array
        Which blocks are sent.
    near : float
        What it is solved to, in the unit of values times weights.
    seed : int
    """

    window: Span
    sent: Bools
    near: float
    seed: int


class Windows:
    """Makes a schedule better by windows.

    Parameters
    ----------
    sorting : Sorting
        Of the mine; it says when the time is over.

    Attributes
    ----------
    sizes : dict
        How many units are opened next in a window.
    done : dict
        Of windows of which nothing is left to find, their units and periods, as a number.
    """

    def __init__(self, sorting: Sorting) -> None:
        self.sorting = sorting
        self.sizes: dict[Span, float] = {}
        self.done: dict[Span, int] = {}

    def bettered(self, plan: Timetable, width: int, seed: int) -> Timetable:
        """A schedule after a pass over all windows of so many periods, of which the last one may be
        what stays in the ground. Slopes, sink rate, capacities, panels and pushbacks are kept;
        where blocks go stays until the end.

        Parameters
        ----------
        plan : Timetable
        width : int
        seed : int
            Of all that is at random.
        """
        sorting = self.sorting
        mine, more = sorting.mine_of(plan.sent), sorting.loose(plan)
        near = _GAP_OF_SCHEDULE * abs(sorting.production.npv(plan))

        def better(s: int) -> None:
            if not sorting.is_late:
                opening = _Opening(Span(s, s + width - 1), plan.sent, near, seed)
                self.better_one(mine, more, opening)

        highs.begin(sorting.threads)
        for first in range(width):
            sorting.at_once(better, range(first, sorting.production.periods + 2 - width, width))
        return sorting.moved(sorting.resent(Timetable(more.period, plan.sent)))

    def better_one(self, mine: Mine, plan: Plan, opening: _Opening) -> None:
        """Makes one window better, where HiGHS finds how."""
        begin, end = opening.window
        inside = np.flatnonzero((plan.period >= begin) & (plan.period <= end))
        state = hash(
            b"".join(each.tobytes() for each in (inside, plan.period[inside], opening.sent))
        )
        if self.done.get(opening.window) == state:
            return
        size = self.sizes.get(opening.window, float(_FIRST))
        units = self.units_to_open(mine, plan, opening, inside, int(size))
        ranges = ranges_of(mine, plan.period, self.sorting.order, Freed(units, opening.window))
        is_ended, is_better = True, False
        if ranges.is_open.any():
            window = _window_of(mine, self.sorting.production.weights, plan, ranges)
            shares, is_ended = window.whole(self.seconds, opening.near)
            is_better = shares is not None and self.take(plan, window, shares, opening)
        if not is_ended:
            size *= _LESS
        elif not is_better:
            size *= _MORE
            if len(units) == len(inside):
                self.done[opening.window] = state
        self.sizes[opening.window] = min(max(size, _FEWEST), _MOST)

    @property
    def seconds(self) -> float:
        """What a window may take."""
        return min(_SECONDS, self.sorting.ends - time.monotonic())

    def units_to_open(
        self, mine: Mine, plan: Plan, opening: _Opening, inside: Ints, size: int
    ) -> Ints:
        """The units that are opened of those in a window, about so many: that few others go with,
        and at random some that more do."""
        if len(inside) <= size:
            return inside
        random = np.random.default_rng([opening.seed, *opening.window])
        count = followers(mine, plan.period, opening.window, _MOST_FOLLOW)[inside]
        order = np.argsort(count * (1 + random.random(len(inside))), kind="stable")
        return np.sort(inside[order[:size]])

    def take(self, plan: Plan, window: _Window, shares: Ints, opening: _Opening) -> bool:
        """Takes what was found of a window into the schedule, where that is feasible then and worth
        more."""
        made, before = self.sorting.production, plan.period.copy()
        after = window.periods(shares, before)
        one, other = Timetable(before, opening.sent), Timetable(after, opening.sent)
        if made.wrong(other) or made.npv(other) <= made.npv(one):
            return False
        moved = np.flatnonzero(after != before)
        plan.period[moved] = after[moved]
        here = slice(opening.window.begin, opening.window.end + 1)
        plan.left[:, here] = (made.capacities - made.used(other))[:, here]
        return True
