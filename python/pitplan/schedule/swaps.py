"""Swaps of units between a period and the next, which annealing and the sorting of a schedule take,
compiled."""
from __future__ import annotations

from typing import NamedTuple

import numpy as np

from ..base.arrays import Array, Floats, Ints
from .compiling import compiled
from .unit_moves import Mine, Plan

_TRIES = 60  # steps after which a swap is given up
_MOST_OF_SWAP = 300  # units of one head with all above it, or of one tail
_SIZES = 8  # times that this may be halved, at random for each swap of annealing
_LOOKS = 12  # units that are looked at for one step of it


class _Sides(NamedTuple):
    """The two sides of a swap between period s and the next, and their marks: heads come to s (mark
    1), tails go from it (mark 2). `looked` is a head or a tail that is looked at, and `best` the one
    to take of these. `counts` has how many units each of these lists has, and what they are worth;
    `balance` what comes to s less what goes from it, and `grain` what a unit uses in the mean, of
    each resource."""

    head: Ints
    tail: Ints
    looked: Ints
    best: Ints
    mark: Array
    counts: Ints
    worths: Ints
    balance: Ints
    grain: Floats
    most: int


class _Both(NamedTuple):
    """The units of a period, and those of the next."""

    here: Ints
    there: Ints


class _Lists(NamedTuple):
    """Both as lists with room for all units of the two: how many each has, and where each unit of
    the mine is in its list."""

    here: Ints
    there: Ints
    sizes: Ints
    place: Ints


class _Reach(NamedTuple):
    """The earlier period of a swap, and of how many units one head or tail may be."""

    period: int
    most: int


class _Step(NamedTuple):
    """The earlier period of a swap, and the price of a mean unit for which room still lacks."""

    period: int
    price: float


class _Lacks(NamedTuple):
    """For how many mean units a period has no room, and the next."""

    here: float
    there: float


class _Means(NamedTuple):
    """What a unit uses of each resource in the mean, and what one of rock is worth."""

    grain: Floats
    worth: float


class _Swapped(NamedTuple):
    """What swaps did, in the unit of values times weights.

    Attributes
    ----------
    gain : float
        Of those that were taken, together.
    lost : float
        What all that were found and lose do, taken or not.
    losing : int
        How many these are.
    """

    gain: float
    lost: float
    losing: int


_HEADS, _TAILS, _LOOKED, _BEST = range(4)  # places of the lists


@compiled
def _look_at_head(mine: Mine, plan: Plan, sides: _Sides, unit: int, at: _Reach) -> bool:
    """Lists a unit of the period after s with all above it there, of at most so many units; false
    where it may not come. Marks are taken away again."""
    s, most = at.period, at.most
    sides.looked[0], sides.mark[unit] = unit, 1
    count, done, worth, good = 1, 0, 0, True
    while done < count and good:
        x = sides.looked[done]
        done += 1
        worth += mine.values[x]
        good = count <= most and mine.earliest[x] <= s
        for i in range(mine.sink_first[x], mine.sink_first[x + 1]):
            if plan.period[mine.sink_above[i]] > s - mine.lag:
                good = False
        for i in range(mine.first[x], mine.first[x + 1]):
            p = mine.above[i]
            if sides.mark[p] == 2 or plan.period[p] > s + 1:
                good = False
            elif plan.period[p] == s + 1 and sides.mark[p] == 0:
                sides.mark[p] = 1
                sides.looked[count] = p
                count += 1
    for i in range(count):
        sides.mark[sides.looked[i]] = 0
    sides.counts[_LOOKED], sides.worths[_LOOKED] = count, worth
    return good


@compiled
def _look_at_tail(mine: Mine, plan: Plan, sides: _Sides, unit: int, at: _Reach) -> bool:
    """Lists a unit of period s with all that rests on it there, of at most so many units; false where
    it may not go. Marks are taken away again."""
    s, most = at.period, at.most
    never = plan.left.shape[1]
    sides.looked[0], sides.mark[unit] = unit, 2
    count, done, worth, good = 1, 0, 0, True
    while done < count and good:
        x = sides.looked[done]
        done += 1
        worth += mine.values[x]
        good = count <= most
        for i in range(mine.sink_on_first[x], mine.sink_on_first[x + 1]):
            other = plan.period[mine.sink_on[i]]
            if other < never and other < s + 1 + mine.lag:
                good = False
        for i in range(mine.on_first[x], mine.on_first[x + 1]):
            p = mine.on[i]
            if sides.mark[p] == 1:
                good = False
            elif plan.period[p] == s and sides.mark[p] == 0:
                sides.mark[p] = 2
                sides.looked[count] = p
                count += 1
    for i in range(count):
        sides.mark[sides.looked[i]] = 0
    sides.counts[_LOOKED], sides.worths[_LOOKED] = count, worth
    return good


@compiled
def _take(mine: Mine, sides: _Sides, side: int, units: Ints, worth: int) -> bool:
    """Adds units to the heads or the tails; false where these are too many then."""
    to, sign = (sides.head, 1) if side == _HEADS else (sides.tail, -1)
    for x in units:
        sides.mark[x] = 1 if side == _HEADS else 2
        to[sides.counts[side]] = x
        sides.counts[side] += 1
        for r in range(mine.uses.shape[0]):
            sides.balance[r] += sign * mine.uses[r, x]
    sides.worths[side] += worth
    return bool(sides.counts[side] <= 3 * sides.most)


@compiled
def _lacks(mine: Mine, plan: Plan, sides: _Sides, s: int, sign: int) -> _Lacks:
    """For how many mean units the two periods have no room after a swap: period s, and the next. With a
    sign other than 0 after what is looked at comes to s too, or below 0 goes from it."""
    here, there, never = 0.0, 0.0, plan.left.shape[1]
    for r in range(plan.left.shape[0]):
        more = sides.balance[r]
        for i in range(sides.counts[_LOOKED] if sign else 0):
            more += sign * mine.uses[r, sides.looked[i]]
        here += max(more - plan.left[r, s], 0) / sides.grain[r]
        if s + 1 < never:
            there += max(-more - plan.left[r, s + 1], 0) / sides.grain[r]
    return _Lacks(here, there)


@compiled
def _balance_more(mine: Mine, plan: Plan, sides: _Sides, both: _Both, at: _Step) -> bool:
    """Takes one more head or tail, by which less room is lacking: of some at random that by which the
    swap loses least, at a price for what still lacks. False where there is none."""
    s, now = at.period, _lacks(mine, plan, sides, at.period, 0)
    lacks, score, side = now.here + now.there, np.inf, -1
    most = min(sides.most, int(2 * lacks) + 2)
    for _ in range(_LOOKS):
        is_tail = now.here > 0 and (now.there == 0 or np.random.random() * lacks < now.here)
        units = both.here if is_tail else both.there
        if not len(units):
            return False
        unit = units[np.random.randint(len(units))]
        if sides.mark[unit]:
            continue
        sign = -1 if is_tail else 1
        if is_tail:
            good = _look_at_tail(mine, plan, sides, unit, _Reach(s, most))
        else:
            good = _look_at_head(mine, plan, sides, unit, _Reach(s, most))
        if not good:
            continue
        after = _lacks(mine, plan, sides, s, sign)
        left = after.here + after.there
        cost = at.price * left - sign * sides.worths[_LOOKED]
        if left < lacks and cost < score:
            count = sides.counts[_LOOKED]
            score, side = cost, _TAILS if is_tail else _HEADS
            sides.best[:count] = sides.looked[:count]
            sides.counts[_BEST], sides.worths[_BEST] = count, sides.worths[_LOOKED]
    if side < 0:
        return False
    return _take(mine, sides, side, sides.best[: sides.counts[_BEST]], sides.worths[_BEST])


@compiled
def _balanced(mine: Mine, plan: Plan, sides: _Sides, both: _Both, at: _Step) -> bool:
    """Adds heads and tails to a swap until both periods have room; false where none does."""
    for _ in range(_TRIES):
        now = _lacks(mine, plan, sides, at.period, 0)
        if now.here + now.there == 0:
            return True
        if not _balance_more(mine, plan, sides, both, at):
            return False
    return False


@compiled
def _begin_swap(mine: Mine, plan: Plan, sides: _Sides, both: _Both, s: int) -> bool:
    """The first head, or in a third of the cases the first tail, at random; false where it is none
    that promises something."""
    here, there = both.here, both.there
    if np.random.randint(3):
        if not len(there):
            return False
        unit = there[np.random.randint(len(there))]
        if mine.values[unit] <= 0:
            unit = there[np.random.randint(len(there))]
        if mine.values[unit] <= 0:
            return False
        side, good = _HEADS, _look_at_head(mine, plan, sides, unit, _Reach(s, sides.most))
        good = good and (sides.worths[_LOOKED] > 0 or np.random.randint(4) == 0)
    else:
        if not len(here):
            return False
        unit = here[np.random.randint(len(here))]
        side, good = _TAILS, _look_at_tail(mine, plan, sides, unit, _Reach(s, sides.most))
        good = good and (sides.worths[_LOOKED] < 0 or np.random.randint(4) == 0)
    return good and _take(
        mine, sides, side, sides.looked[: sides.counts[_LOOKED]], sides.worths[_LOOKED]
    )


@compiled
def _goes_over(unit: int, of: _Lists, to: int) -> None:
    """Takes a unit from the list of one of two periods and puts it after those of the other."""
    lists, sizes, place = (of.here, of.there), of.sizes, of.place
    at, last = place[unit], lists[1 - to][sizes[1 - to] - 1]
    lists[1 - to][at] = last
    place[last] = at
    sizes[1 - to] -= 1
    lists[to][sizes[to]] = unit
    place[unit] = sizes[to]
    sizes[to] += 1


@compiled
def _lists_of(plan: Plan, s: int) -> _Lists:
    """The units of period s and of the next."""
    here, there = np.flatnonzero(plan.period == s), np.flatnonzero(plan.period == s + 1)
    size, place = len(here) + len(there), np.zeros(len(plan.period), np.int64)
    lists = (np.empty(size, np.int64), np.empty(size, np.int64))
    for units, of_units in ((here, lists[0]), (there, lists[1])):
        of_units[: len(units)] = units
        place[units] = np.arange(len(units))
    return _Lists(lists[0], lists[1], np.array([len(here), len(there)]), place)


@compiled
def _take_swap(mine: Mine, plan: Plan, sides: _Sides, s: int) -> None:
    """Lets heads and tails change places."""
    for i in range(sides.counts[_HEADS]):
        plan.period[sides.head[i]] = s
    for i in range(sides.counts[_TAILS]):
        plan.period[sides.tail[i]] = s + 1
    for r in range(plan.left.shape[0]):
        plan.left[r, s] -= sides.balance[r]
        if s + 1 < plan.left.shape[1]:
            plan.left[r, s + 1] += sides.balance[r]


class Heat(NamedTuple):
    """By what a swap between a period and the next is judged.

    Attributes
    ----------
    step : int
        The weight of the period less that of the next.
    mean : float
        The temperature, in the unit of values times weights: a swap that loses as much is taken
        once in e tries. At 0 one is taken that gains, and below 0 none.
    """

    step: int
    mean: float


@compiled
def _is_taken(gain: float, mean: float) -> bool:
    """Whether a swap is taken, by the rule of Metropolis and others (1953)."""
    if gain > 0 or mean <= 0:
        return gain > 0 and mean >= 0
    return bool(np.random.random() < np.exp(gain / mean))


@compiled
def _means(mine: Mine) -> _Means:
    """What a unit that uses some of a resource uses of it in the mean, and what a unit of rock is worth
    there, whichever its sign."""
    grain = np.ones(mine.uses.shape[0], np.float64)
    for r in range(len(grain)):
        grain[r] = max(mine.uses[r].sum() / max((mine.uses[r] > 0).sum(), 1), 1.0)
    return _Means(grain, np.abs(mine.values).sum() / max((mine.uses[0] > 0).sum(), 1))


@compiled
def swap_units(mine: Mine, plan: Plan, s: int, tries: int, seed: int, heat: Heat) -> _Swapped:
    """Tries so many swaps between period s and the next, or what isn't dug after the last, and takes
    those that bring more, or by the temperature some that don't; until the time is over."""
    np.random.seed(seed)
    lists, means = _lists_of(plan, s), _means(mine)
    here, there, sizes = lists.here, lists.there, lists.sizes
    room, total, lost, losing = len(here) + 1, 0.0, 0.0, 0
    mark = np.zeros(len(mine.values), np.uint8)
    counts, worths = np.zeros(4, np.int64), np.zeros(4, np.int64)
    balance = np.zeros(plan.left.shape[0], np.int64)
    head, tail = np.empty(room, np.int64), np.empty(room, np.int64)
    looked, best = np.empty(room, np.int64), np.empty(room, np.int64)
    for _ in range(tries if len(here) else 0):
        if mine.over[0]:
            break
        # annealing goes further by many small swaps, and what gains alone by large ones
        halved = np.random.randint(_SIZES) if heat.mean else 0
        most = _MOST_OF_SWAP >> halved
        sides = _Sides(head, tail, looked, best, mark, counts, worths, balance, means.grain, most)
        counts[:], worths[:], balance[:] = 0, 0, 0
        both = _Both(here[: sizes[0]], there[: sizes[1]])
        step = _Step(s, means.worth * 2.0 ** np.random.randint(-3, 4))
        good = _begin_swap(mine, plan, sides, both, s) and _balanced(mine, plan, sides, both, step)
        for i in range(counts[_HEADS]):
            mark[sides.head[i]] = 0
        for i in range(counts[_TAILS]):
            mark[sides.tail[i]] = 0
        if not good:
            continue
        gain = float(worths[_HEADS] - worths[_TAILS]) * heat.step
        if gain < 0:
            lost, losing = lost - gain, losing + 1
        if _is_taken(gain, heat.mean):
            total += gain
            _take_swap(mine, plan, sides, s)
            for i in range(counts[_HEADS]):
                _goes_over(sides.head[i], lists, 0)
            for i in range(counts[_TAILS]):
                _goes_over(sides.tail[i], lists, 1)
    return _Swapped(total, lost, losing)
