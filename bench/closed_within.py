"""The most that a closed set of units within capacities can be worth: branch and bound in whole numbers, with no other solver.

For prices of the capacities, none below 0, no such set is worth more than the richest closed set at worths less prices, and all
capacities at these prices. How much that one is worth is told by a flow: whichever flow along the pairs it is, no closed set is worth
more than what is left over at units that get more than they give. So neither prices nor the search for a flow need to be trusted.
A set has a unit, and then all that it rests on, or it hasn't, and then nothing that rests on it: by these two branches the bound
comes down.
"""
from __future__ import annotations

import heapq
import time
from itertools import count
from typing import NamedTuple

import numpy as np
from pitplan.base.arrays import Bools, Floats, Ints
from pitplan.schedule.compiling import compiled
from pitplan.schedule.pairs import Pairs
from scipy.optimize import linprog

GRAIN = 100  # prices are in hundredths of what values are counted in
ROOM = 1 << 61  # of what all units are worth, and of what they cost
VALUES, USES = 1e12, 1e9  # the units in which prices are sought
NEAR = 2e-5  # of a bound, to which prices are sought
FIRST, NEXT = 40, 12  # prices that are tried at most, of the whole mine and of a branch
LOOKED_AT = 200  # units of which one is branched on
KEPT = 6  # closed sets that a branch hands on
WHOLE = 1e-6  # of a share: what is no part of a unit


class Net(NamedTuple):
    """Pairs both ways: what a unit rests on, and what rests on it with the number of each pair."""

    first: Ints
    above: Ints
    on_first: Ints
    on: Ints
    pair: Ints

    @classmethod
    def of(cls, pairs: Pairs) -> Net:
        """That of some pairs."""
        order = np.argsort(pairs.other, kind="stable")
        ends = np.cumsum(np.bincount(pairs.other, minlength=len(pairs.first) - 1))
        return cls(*pairs, np.append(0, ends), pairs.blocks[order], order)


class Flow(NamedTuple):
    """A flow along pairs from units that are worth something: what each pair carries, what each unit has too much of, and how
    much it may still take; and the fewest pairs from each to one that may take something."""

    carried: Ints
    excess: Ints
    room: Ints
    height: Ints


@compiled
def _measure(net: Net, free: Bools, flow: Flow, queue: Ints) -> int:
    """Sets the heights anew, and gives how many units, the first ones of the queue, lead to one with room."""
    size, far = 0, len(free) + 1
    for unit in range(len(free)):
        flow.height[unit] = far
        if free[unit] and flow.room[unit] > 0:
            flow.height[unit], queue[size] = 1, unit
            size += 1
    done = 0
    while done < size:
        at = queue[done]
        done += 1
        for i in range(net.on_first[at], net.on_first[at + 1]):
            unit = net.on[i]
            if free[unit] and flow.height[unit] == far:
                flow.height[unit], queue[size] = flow.height[at] + 1, unit
                size += 1
        for i in range(net.first[at], net.first[at + 1]):
            unit = net.above[i]
            if flow.carried[i] > 0 and flow.height[unit] == far:
                flow.height[unit], queue[size] = flow.height[at] + 1, unit
                size += 1
    return size


@compiled
def _push(net: Net, free: Bools, flow: Flow, unit: int, cursor: Ints) -> int:
    """Pushes what a unit has too much of along one pair to a unit that is lower by 1, gives that unit; -1 where there is
    none."""
    above, on = net.first[unit + 1] - net.first[unit], net.on_first[unit + 1] - net.on_first[unit]
    for k in range(cursor[unit], above + on):
        cursor[unit] = k
        if k < above:
            i = net.first[unit] + k
            other, moved = net.above[i], flow.excess[unit]
            if not free[other] or flow.height[other] + 1 != flow.height[unit]:
                continue
            flow.carried[i] += moved
        else:
            j = net.on_first[unit] + k - above
            i, other = net.pair[j], net.on[j]
            moved = min(flow.excess[unit], flow.carried[i])
            if moved == 0 or flow.height[other] + 1 != flow.height[unit]:
                continue
            flow.carried[i] -= moved
        flow.excess[unit] -= moved
        flow.excess[other] += moved
        return other
    cursor[unit] = 0
    return -1


@compiled
def _lift(net: Net, free: Bools, flow: Flow, unit: int) -> None:
    """Lifts a unit above the lowest one that it may push to."""
    least = len(free) + 1
    for i in range(net.first[unit], net.first[unit + 1]):
        if free[net.above[i]]:
            least = min(least, flow.height[net.above[i]] + 1)
    for j in range(net.on_first[unit], net.on_first[unit + 1]):
        if flow.carried[net.pair[j]] > 0:
            least = min(least, flow.height[net.on[j]] + 1)
    flow.height[unit] = least


@compiled
def flow_of(net: Net, worth: Ints, free: Bools) -> Flow:
    """A flow among free units that leaves as little over as any, by push and relabel. Units of height above all of them are the
    largest richest closed set."""
    units = len(worth)
    flow = Flow(
        np.zeros(len(net.above), np.int64),
        np.where(free, np.maximum(worth, 0), 0),
        np.where(free, np.maximum(-worth, 0), 0),
        np.zeros(units, np.int64),
    )
    queue, ring = np.empty(units, np.int64), np.empty(units, np.int64)
    while True:
        reached = _measure(net, free, flow, queue)
        waits, cursor = np.zeros(units, np.bool_), np.zeros(units, np.int64)
        head, size, work = 0, 0, 0
        for k in range(reached):
            if flow.excess[queue[k]] > 0:
                ring[size], waits[queue[k]] = queue[k], True
                size += 1
        if size == 0:
            return flow
        while size > 0 and work < 4 * units:
            unit = ring[head]
            head, size, waits[unit] = (head + 1) % units, size - 1, False
            while flow.excess[unit] > 0 and flow.height[unit] <= units:
                taken = min(flow.excess[unit], flow.room[unit])
                flow.excess[unit] -= taken
                flow.room[unit] -= taken
                if flow.excess[unit] == 0:
                    break
                other = _push(net, free, flow, unit, cursor)
                if other < 0:
                    _lift(net, free, flow, unit)
                    work += 12
                elif not waits[other]:
                    ring[(head + size) % units], waits[other] = other, True
                    size += 1


@compiled
def left_over(net: Net, worth: Ints, free: Bools, carried: Ints) -> int:
    """What a flow leaves over at free units, added up anew: what none of their closed sets is worth more than."""
    found, total = worth.copy(), 0
    for unit in range(len(worth)):
        for i in range(net.first[unit], net.first[unit + 1]):
            if carried[i] < 0 or carried[i] > 0 and not (free[unit] and free[net.above[i]]):
                raise ValueError("no flow among free units")
            found[unit] -= carried[i]
            found[net.above[i]] += carried[i]
    for unit in range(len(worth)):
        if free[unit] and found[unit] > 0:
            total += found[unit]
    return total


@compiled
def reached_from(first: Ints, others: Ints, root: int) -> Bools:
    """All units that a unit leads to, itself among them."""
    found, stack, size = np.zeros(len(first) - 1, np.bool_), np.empty(len(first), np.int64), 1
    stack[0], found[root] = root, True
    while size > 0:
        size -= 1
        unit = stack[size]
        for i in range(first[unit], first[unit + 1]):
            if not found[others[i]]:
                found[others[i]], stack[size] = True, others[i]
                size += 1
    return found


@compiled
def sums_from(first: Ints, others: Ints, roots: Ints, amounts: Floats) -> Floats:
    """What all units that each root leads to have together."""
    found, mark = np.zeros(len(roots)), np.full(len(amounts), -1, np.int64)
    stack = np.empty(len(amounts), np.int64)
    for k in range(len(roots)):
        stack[0], mark[roots[k]], size = roots[k], k, 1
        while size > 0:
            size -= 1
            unit = stack[size]
            found[k] += amounts[unit]
            for i in range(first[unit], first[unit + 1]):
                if mark[others[i]] != k:
                    mark[others[i]], stack[size] = k, others[i]
                    size += 1
    return found


class Choice(NamedTuple):
    """What closed sets are chosen of.

    Attributes
    ----------
    above : Pairs
    values : int array of shape (units,)
    uses : int array of shape (resources, units)
    rooms : int array of shape (resources,)
    lacks : bool array of shape (units,)
        What no set has, and nothing that rests on it.
    rock : float array of shape (units,)
        By which it is told how much hangs on a unit.
    """

    above: Pairs
    values: Ints
    uses: Ints
    rooms: Ints
    lacks: Bools
    rock: Floats


class Branch(NamedTuple):
    """Closed sets that have some units and lack others.

    Attributes
    ----------
    bound : int
        What none of them within the capacities is worth more than, times `GRAIN`.
    has, lacks : bool arrays of shape (units,), packed
    prices : int array of shape (resources,)
        By which the bound holds.
    sets : list of bool arrays, packed
        Closed ones, whose mean is about the relaxation.
    shares : float array of shape (units,), of half precision
        That mean.
    """

    bound: int
    has: Bools
    lacks: Bools
    prices: Ints
    sets: list[Bools]
    shares: Floats


class Within:
    """The closed sets within capacities.

    Parameters
    ----------
    choice : Choice

    Attributes
    ----------
    best : int
        What the best set that was found is worth.
    first : int
        The bound before any branch.
    branches, closures : int
        How many were looked at.
    """

    def __init__(self, choice: Choice) -> None:
        self.net, self.choice = Net.of(choice.above), choice
        self.values, self.uses, self.rooms = choice.values, choice.uses, choice.rooms
        self.is_used_up = (self.uses >= 0).all(axis=1)  # of a resource that no unit gives back
        self.dearest = ROOM // (len(self.rooms) * np.maximum(np.abs(self.uses).sum(axis=1), 1))
        if int(np.abs(self.values).sum()) * GRAIN >= ROOM:
            raise OverflowError("values have no room")
        self.random = np.random.default_rng(1965)
        self.best = self.branches = self.closures = 0
        self.number, self.heap = count(), list[tuple[int, int, Branch]]()
        nothing = np.zeros(len(self.values), bool)
        self.add((nothing, choice.lacks), [], np.zeros(len(self.rooms), np.int64), FIRST)
        self.first = self.bound

    @property
    def bound(self) -> int:
        """What no set is worth more than."""
        return max(self.best, -self.heap[0][0] // GRAIN if self.heap else 0)

    def run(self, seconds: float) -> None:
        """Branches where the bound is greatest, for some processor seconds at most."""
        ends = time.process_time() + seconds
        while self.heap and self.bound > self.best and time.process_time() < ends:
            self.part(self.heap[0][2])

    def part(self, branch: Branch) -> None:
        """Puts two branches in place of the one whose bound is greatest."""
        net, size = self.net, len(self.values)
        has, lacks, *sets = (
            np.unpackbits(each, count=size).astype(bool)
            for each in (branch.has, branch.lacks, *branch.sets)
        )
        heapq.heappop(self.heap)
        if (has | lacks).all():  # its one set was taken
            return
        unit = self.parted_at(branch.shares.astype(float), has, lacks)
        cone = reached_from(net.first, net.above, unit)
        if not (cone & lacks).any():
            ours = (has | cone, lacks)
            self.add(ours, [each | cone for each in sets], branch.prices, NEXT, branch.bound)
        behind = reached_from(net.on_first, net.on, unit)
        self.add(
            (has, lacks | behind),
            [each & ~behind for each in sets],
            branch.prices,
            NEXT,
            branch.bound,
        )

    def parted_at(self, shares: Floats, has: Bools, lacks: Bools) -> int:
        """The unit to branch on: one that is dug in part, and changes much whether it is dug or not."""
        net, open_ = self.net, ~has & ~lacks
        units = np.flatnonzero(open_ & (shares > WHOLE) & (shares < 1 - WHOLE))
        if not len(units):
            units = np.flatnonzero(open_)
        if len(units) > LOOKED_AT:
            units = self.random.choice(units, LOOKED_AT, replace=False)
        more = np.where(has, 0.0, 1 - shares) * self.choice.rock
        less = np.where(lacks, 0.0, shares) * self.choice.rock
        more = sums_from(net.first, net.above, units, more)
        less = sums_from(net.on_first, net.on, units, less)
        return int(units[np.argmax(more * less)])

    def take(self, held: Bools) -> tuple[int, Ints]:
        """What a closed set is worth and uses; it is kept where it is the best one that fits."""
        worth, used = int(self.values[held].sum()), self.uses[:, held].sum(axis=1)
        if (used <= self.rooms).all():
            self.best = max(self.best, worth)
        return worth, used

    def add(
        self,
        part: tuple[Bools, Bools],
        sets: list[Bools],
        prices: Ints,
        most: int,
        bound: int | None = None,
    ) -> None:
        """Bounds a branch, and puts it with the others where it may have a better set. Prices come from
        a linear program over its closed sets that were found, which asks for another one each time.
        """
        has, lacks = part
        self.branches += 1
        if (self.uses[:, has].sum(axis=1) > self.rooms)[self.is_used_up].any():
            return
        sets, shares = [has, *sets], has.astype(float)
        rows, best_prices = [self.take(each) for each in sets], prices
        for _ in range(most):
            held, found = self.closed(part, prices)
            if bound is None or found < bound:
                bound, best_prices = found, prices
            sets.append(held)
            rows.append(self.take(held))
            if bound // GRAIN <= self.best:
                return
            least, mean, wanted = self.priced(rows)
            shares = sum(share * each for share, each in zip(mean, sets) if share > WHOLE)
            if bound - least <= NEAR * abs(bound) or (wanted == prices).all():
                break
            prices = wanted
        kept = [sets[i] for i in np.argsort(-mean)[:KEPT] if mean[i] > WHOLE]
        has_, lacks_, *sets = (np.packbits(each) for each in (has, lacks, *kept))
        branch = Branch(bound, has_, lacks_, best_prices, sets, shares.astype(np.float16))
        heapq.heappush(self.heap, (-bound, next(self.number), branch))

    def closed(self, part: tuple[Bools, Bools], prices: Ints) -> tuple[Bools, int]:
        """The richest closed set of a branch at some prices, and the bound by it."""
        has, lacks = part
        self.closures += 1
        worth, free = self.values * GRAIN - prices @ self.uses, ~has & ~lacks
        flow = flow_of(self.net, worth, free)
        paid = sum(int(price) * int(room) for price, room in zip(prices, self.rooms))
        over = left_over(self.net, worth, free, flow.carried)
        held = has | free & (flow.height > len(free))
        return held, int(worth[has].sum()) + over + paid

    def priced(self, rows: list[tuple[int, Ints]]) -> tuple[float, Floats, Ints]:
        """The best prices where no other closed set is: the bound by them, the shares of the sets, the prices."""
        worths = np.array([worth for worth, _ in rows]) / VALUES
        used, unit = np.array([each for _, each in rows]) / USES, GRAIN * VALUES / USES
        found = linprog(
            np.append(1.0, self.rooms / USES),
            A_ub=-np.column_stack([np.ones(len(rows)), used]),
            b_ub=-worths,
            bounds=[(None, None), *((0, most / unit) for most in self.dearest)],
            method="highs-ds",
        )
        prices = np.minimum(np.rint(np.maximum(found.x[1:], 0) * unit), self.dearest)
        return float(found.fun) * GRAIN * VALUES, -found.ineqlin.marginals, prices.astype(np.int64)
