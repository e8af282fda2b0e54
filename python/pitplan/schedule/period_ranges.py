"""The periods that some units of a schedule may be moved to while all others stay, and how many
others go with each."""
from __future__ import annotations

from typing import NamedTuple

import numpy as np

from ..base.arrays import Bools, Ints
from .compiling import compiled
from .unit_moves import Mine


class Span(NamedTuple):
    """Periods that follow each other: the first and the last. The number of periods stands for what
    stays in the ground."""

    begin: int
    end: int


class Freed(NamedTuple):
    """Units that may be moved, and the periods that they may get."""

    units: Ints
    span: Span


class Ranges(NamedTuple):
    """The first and the last period of each unit; the number of periods stands for staying in the
    ground.

    Attributes
    ----------
    low, high : int arrays of shape (units,)
    """

    low: Ints
    high: Ints

    @property
    def is_open(self) -> Bools:
        """Of each unit whether there are several."""
        found: Bools = self.low < self.high
        return found


def ranges_of(mine: Mine, period: Ints, order: Ints, freed: Freed) -> Ranges:
    """The ranges of a schedule whose units stay where they are, but those that are freed.

    Parameters
    ----------
    mine : Mine
    period : int array of shape (units,)
        Of a schedule that keeps slopes and sink rate.
    order : int array of shape (units,)
        In which all that a unit rests on comes before it.
    freed : Freed
    """
    units, span = freed
    low, high = period.copy(), period.copy()
    low[units], high[units] = np.maximum(span.begin, mine.earliest[units]), span.end
    _tighten(mine, order, low, high, len(mine.opening))
    return Ranges(low, high)


@compiled
def _tighten(mine: Mine, order: Ints, low: Ints, high: Ints, never: int) -> None:
    """Raises each first period to what those leave that the unit rests on, and lowers each last one
    to what those leave that rest on it."""
    for k in range(len(order)):
        unit = order[k]
        if low[unit] == high[unit]:
            continue
        for i in range(mine.first[unit], mine.first[unit + 1]):
            low[unit] = max(low[unit], low[mine.above[i]])
        for i in range(mine.sink_first[unit], mine.sink_first[unit + 1]):
            low[unit] = max(low[unit], min(low[mine.sink_above[i]] + mine.lag, never))
    for k in range(len(order) - 1, -1, -1):
        unit = order[k]
        if low[unit] == high[unit]:
            continue
        for i in range(mine.on_first[unit], mine.on_first[unit + 1]):
            high[unit] = min(high[unit], high[mine.on[i]])
        for i in range(mine.sink_on_first[unit], mine.sink_on_first[unit + 1]):
            last = high[mine.sink_on[i]]
            if last < never:
                high[unit] = min(high[unit], last - mine.lag)


@compiled
def followers(mine: Mine, period: Ints, window: Span, most: int) -> Ints:
    """For each unit of the periods of a window how many units of its period go with it to the
    period before, itself among them, or if these are fewer to the one after; `most` where there are
    more, and -1 for units of other periods."""
    found, mark = np.full(len(period), -1, np.int64), np.full(len(period), -1, np.int64)
    stack = np.empty(len(period), np.int64)
    for unit in range(len(period)):
        now = period[unit]
        if now < window.begin or now > window.end:
            continue
        least = most
        for way in range(2):
            if now == (window.begin if way == 0 else window.end):
                continue
            first, others = (mine.first, mine.above) if way == 0 else (mine.on_first, mine.on)
            stack[0], mark[unit], count, done = unit, 2 * unit + way, 1, 0
            while done < count < least:
                each = stack[done]
                done += 1
                for i in range(first[each], first[each + 1]):
                    other = others[i]
                    if period[other] == now and mark[other] != 2 * unit + way:
                        mark[other] = 2 * unit + way
                        stack[count] = other
                        count += 1
            least = min(least, count)
        found[unit] = least
    return found
