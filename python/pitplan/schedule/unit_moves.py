"""A schedule by units and their pairs, in whole numbers, and what sorts, moves and takes out its
units, compiled."""
from __future__ import annotations

from typing import NamedTuple

import numpy as np

from ..base.arrays import Ints
from .compiling import compiled


class Mine(NamedTuple):
    """What moves and swaps read: rows of pairs both ways, by the slopes and by the sink rate, and of each
    unit its first period, its uses of shape (resources, units) and its value; from unit `gates` on
    they are gates. `opening` has what each period costs in which rock is dug, in the unit of values
    times weights, and `rooms` what rock each has: one with less left is open. `over` has one number,
    which another thread makes 1 once the time is over: swaps look at it before each one."""

    first: Ints
    above: Ints
    on_first: Ints
    on: Ints
    sink_first: Ints
    sink_above: Ints
    sink_on_first: Ints
    sink_on: Ints
    earliest: Ints
    uses: Ints
    values: Ints
    lag: int
    gates: int
    opening: Ints
    rooms: Ints
    over: Ints


class Plan(NamedTuple):
    """A schedule that moves and swaps change: the period of each unit, and what is left of each resource in
    each period, of shape (resources, periods)."""

    period: Ints
    left: Ints


class WantedUnits(NamedTuple):
    """Units that are to be dug, in their order, and of all units the first period that each may get."""

    units: Ints
    floor: Ints


class InsertLimits(NamedTuple):
    """What a unit with all that it rests on has to bring more than, in the unit of values times
    weights; and how many units are looked at before no more are."""

    least: int
    most: int


@compiled
def cone_order(mine: Mine, wanted: Ints) -> Ints:
    """The wanted units in their order, each right after what is left of all that it rests on."""
    units = len(mine.values)
    seen, out = np.zeros(units, np.uint8), np.empty(units, np.int64)
    stack, at = np.empty(units, np.int64), np.empty(units, np.int64)
    count = 0
    for root in wanted:
        if seen[root]:
            continue
        seen[root] = 1
        top = 0
        stack[0], at[0] = root, mine.first[root]
        while top >= 0:
            unit = stack[top]
            if at[top] < mine.first[unit + 1]:
                other = mine.above[at[top]]
                at[top] += 1
                if not seen[other]:
                    seen[other] = 1
                    top += 1
                    stack[top], at[top] = other, mine.first[other]
            else:
                out[count] = unit
                count += 1
                top -= 1
    return out[:count]


@compiled
def _fits(mine: Mine, left: Ints, unit: int, period: int) -> bool:
    """Whether a period has room for a unit."""
    for r in range(left.shape[0]):
        if mine.uses[r, unit] > left[r, period]:
            return False
    return True


@compiled
def _least(mine: Mine, period: Ints, unit: int) -> int:
    """The first period that what is above a unit leaves it."""
    found: int = mine.earliest[unit]
    for i in range(mine.first[unit], mine.first[unit + 1]):
        found = max(found, period[mine.above[i]])
    for i in range(mine.sink_first[unit], mine.sink_first[unit + 1]):
        found = max(found, period[mine.sink_above[i]] + mine.lag)
    return found


@compiled
def _latest(mine: Mine, plan: Plan, unit: int) -> int:
    """The last period that what rests on a unit leaves it; the number of periods where it may
    stay."""
    never = plan.left.shape[1]
    found = never
    for i in range(mine.on_first[unit], mine.on_first[unit + 1]):
        found = min(found, plan.period[mine.on[i]])
    for i in range(mine.sink_on_first[unit], mine.sink_on_first[unit + 1]):
        other = plan.period[mine.sink_on[i]]
        if other < never:
            found = min(found, other - mine.lag)
    return found


@compiled
def sort_into(mine: Mine, order: Ints, floor: Ints, left: Ints) -> Ints:
    """A schedule by an order: each unit goes into the first period that what is above it, a floor
    and the room allow. What the order hasn't isn't dug. `left` is used up."""
    never = left.shape[1]
    period = np.full(len(mine.values), never, np.int64)
    for unit in order:
        t = max(_least(mine, period, unit), floor[unit])
        while t < never and not _fits(mine, left, unit, t):
            t += 1
        if t < never:
            period[unit] = t
            for r in range(left.shape[0]):
                left[r, t] -= mine.uses[r, unit]
    return period


@compiled
def move_units(mine: Mine, plan: Plan, order: Ints, weights: Ints) -> int:
    """One pass of single moves, each to the period where the unit is worth most: from the bottom
    up, then from the top down. Gates go as late as they may, then as early. Returns how many units
    went elsewhere."""
    never, count, units = plan.left.shape[1], 0, len(order)
    for k in range(2 * units):
        unit = order[units - 1 - k] if k < units else order[k - units]
        value, now = mine.values[unit], plan.period[unit]
        if unit >= mine.gates:
            late = k < units
            plan.period[unit] = (
                _latest(mine, plan, unit) if late else _least(mine, plan.period, unit)
            )
            continue
        best, most = now, value * weights[now] if now < never else 0
        for t in range(_least(mine, plan.period, unit), min(_latest(mine, plan, unit), never) + 1):
            worth = value * weights[t] if t < never else 0
            if worth > most and (t == never or _fits(mine, plan.left, unit, t)):
                best, most = t, worth
        if best != now:
            count += 1
            _put(mine, plan, unit, best)
    return count


@compiled
def _undug_cone(mine: Mine, plan: Plan, root: int, work: Ints, stamp: int) -> int:
    """Lists a unit that isn't dug after all that isn't dug of what it rests on, in the first row of
    `work`, whose last row has the stamps of what was seen. Returns how many they are; 0 where they
    are more than the row has room for."""
    never, out, stack, at, seen = plan.left.shape[1], work[0], work[1], work[2], work[3]
    count, top = 0, 0
    stack[0], at[0], seen[root] = root, mine.first[root], stamp
    while top >= 0:
        unit = stack[top]
        if at[top] < mine.first[unit + 1]:
            other = mine.above[at[top]]
            at[top] += 1
            if seen[other] != stamp and plan.period[other] == never:
                seen[other] = stamp
                top += 1
                stack[top], at[top] = other, mine.first[other]
        else:
            out[count] = unit
            count += 1
            top -= 1
    return count


@compiled
def _put(mine: Mine, plan: Plan, unit: int, period: int) -> None:
    """Gives a unit another period, or takes it out."""
    never, now = plan.left.shape[1], plan.period[unit]
    for r in range(plan.left.shape[0]):
        if now < never:
            plan.left[r, now] += mine.uses[r, unit]
        if period < never:
            plan.left[r, period] -= mine.uses[r, unit]
    plan.period[unit] = period


@compiled
def insert_units(
    mine: Mine, plan: Plan, wanted: WantedUnits, weights: Ints, limits: InsertLimits
) -> int:
    """Digs wanted units that aren't dug, in their order, each with all that it rests on, in the first
    periods that have room, from a floor of each unit on; only where together they bring enough.
    Returns how many of the wanted it digs."""
    units, never, took, looked = len(mine.values), plan.left.shape[1], 0, 0
    work = np.zeros((4, units), np.int64)
    for k in range(len(wanted.units)):
        root = wanted.units[k]
        if plan.period[root] < never or looked > limits.most:
            continue
        count, worth, done = _undug_cone(mine, plan, root, work, k + 1), 0, 0
        looked += count
        while done < count:
            unit = work[0, done]
            t = max(_least(mine, plan.period, unit), wanted.floor[unit])
            while t < never and not _fits(mine, plan.left, unit, t):
                t += 1
            if t >= never:
                break
            if mine.uses[0, unit] and plan.left[0, t] == mine.rooms[t]:
                worth -= mine.opening[t]
            worth += mine.values[unit] * weights[t]
            _put(mine, plan, unit, t)
            done += 1
        if done == count and worth > limits.least:
            took += 1
            continue
        for i in range(done):
            _put(mine, plan, work[0, i], never)
    return took


@compiled
def take_out(mine: Mine, plan: Plan, roots: Ints) -> None:
    """Leaves some units in the ground, and all that rests on them."""
    never, stack, top = plan.left.shape[1], np.empty(len(mine.values) + len(roots), np.int64), 0
    for root in roots:
        if plan.period[root] < never:
            _put(mine, plan, root, never)
            stack[top] = root
            top += 1
    while top:
        top -= 1
        unit = stack[top]
        for i in range(mine.on_first[unit], mine.on_first[unit + 1]):
            other = mine.on[i]
            if plan.period[other] < never:
                _put(mine, plan, other, never)
                stack[top] = other
                top += 1
