"""Blocks of which a schedule says where they go, to the mill, to one of several processes, or to waste:
``cutoff = "by year"``.

The unit of such a block is dug as waste, and sending the block one of its ways brings the gain of that
way and takes its feed.
"""
from __future__ import annotations

from typing import NamedTuple

import numpy as np

from ..base.arrays import Array, Bools, Ints
from .compiling import compiled

MULTIPLIERS_IN_ONE = 1000  # multipliers are in thousandths of what worths are in


class Millable(NamedTuple):
    """The ways that blocks may be sent, a row for each: to the mill, or to a process, by which the
    block would gain at the full price. A block goes one of its ways, or to waste.

    Attributes
    ----------
    block : int array of shape (rows,)
        The block's number in the model, ascending.
    unit : int array of that shape
        The unit of the block.
    gains : int array of that shape
        What the way adds at the full price, in whole units of currency.
    feeds : int array of that shape
        Thousandths of a tonne that it takes.
    resource : int array of that shape
        Of which resource: 1 for the mill or the first process, 2 for the second, and so on; of one
        block ascending.
    """

    block: Ints
    unit: Ints
    gains: Ints
    feeds: Ints
    resource: Ints

    @classmethod
    def none(cls) -> Millable:
        """None: where a block goes is settled, and stands in the values and uses of its unit."""
        return cls(*(np.zeros(0, np.int64) for _ in cls._fields))

    @property
    def is_first(self) -> Bools:
        """Whether a row is the first of its block."""
        found = np.ones(len(self.block), bool)
        found[1:] = self.block[1:] != self.block[:-1]
        return found

    @property
    def is_last(self) -> Bools:
        """Whether a row is the last of its block."""
        return np.append(self.is_first[1:], np.ones(min(len(self.block), 1), bool))

    @property
    def place(self) -> Ints:
        """Of each row the place of its block among those that may be sent."""
        found: Ints = np.cumsum(self.is_first) - 1
        return found

    def left(self, weights: Ints, prices: Ints) -> Ints:
        """What sending leaves in each period above the price of its feed, in millionths, each product
        rounded down; below 0 where waste is the better way. Of shape (rows, periods).

        Parameters
        ----------
        weights : int array of shape (periods,)
            In millionths.
        prices : int array of shape (resources, periods)
            In billionths of a unit of currency for a thousandth of a tonne.
        """
        found: Ints = self.gains[:, None] * weights[None, :]
        found -= self.feeds[:, None] * prices[self.resource] // MULTIPLIERS_IN_ONE
        return found

    def best(self, weights: Ints, prices: Ints) -> Bools:
        """Whether a row is the way that leaves its block most in each period, and more than waste:
        likewise. Of as much the first."""
        return self.most(self.left(weights, prices))

    def richest(self) -> Bools:
        """Whether a row is the way by which its block gains most, of shape (rows,)."""
        return self.most(self.gains[:, None])[:, 0]

    def most(self, amounts: Array) -> Bools:
        """Whether a row has the most of its block in each column of amounts, and more than 0; of as
        much the first."""
        if not len(self.block):
            return np.zeros(amounts.shape, bool)
        of_block = np.maximum.reduceat(amounts, np.flatnonzero(self.is_first), axis=0)
        is_most: Bools = (amounts == of_block[self.place]) & (amounts > 0)
        found: Bools = is_most & (self.so_far(is_most) == 1)
        return found

    def so_far(self, rows: Bools) -> Ints:
        """Of each row how many of its block hold, from the first one up to it."""
        counts: Ints = np.cumsum(rows, axis=0)
        before: Ints = counts - rows
        found: Ints = counts - before[np.flatnonzero(self.is_first)][self.place]
        return found

    def steps(self, amounts: Array) -> Array:
        """An amount of each row less that of the next one of its block."""
        found: Array = amounts - np.where(self.is_last, 0, np.roll(amounts, -1))
        return found

    def gained(self, sent: Bools, units: int) -> Ints:
        """What sending some rows adds to each unit."""
        found = np.zeros(units, np.int64)
        np.add.at(found, self.unit, self.gains * sent)
        return found

    def fed(self, sent: Bools, shape: tuple[int, ...]) -> Ints:
        """What that takes of each resource and unit, of which the shape is given."""
        found = np.zeros(shape, np.int64)
        np.add.at(found, (self.resource, self.unit), self.feeds * sent)
        return found

    def feeds_of(self, resource: int) -> Ints:
        """What each row takes of a resource."""
        return np.where(self.resource == resource, self.feeds, 0)

    def by_gain(self) -> Ints:
        """Their places, those that gain most for their feed first."""
        return np.argsort(-(self.gains / np.maximum(self.feeds, 1)), kind="stable")


class Timetable(NamedTuple):
    """When units are dug, and what is sent.

    Attributes
    ----------
    period : int array of shape (units,)
        From 0; the number of periods where a unit stays.
    sent : bool array of shape (rows,)
        Which rows of `Millable` are sent where their units are dug: of a block one, or none.
    """

    period: Ints
    sent: Bools


class Rows(NamedTuple):
    """Rows of `Millable` as `send` reads them: the place of the block, what sending gains, how much it
    takes and of which resource, and when the unit is dug."""

    place: Ints
    gains: Ints
    feeds: Ints
    resource: Ints
    period: Ints


@compiled
def send(rows: Rows, order: Ints, left: Ints) -> Bools:
    """Fills what is left of each resource and period by rows in an order, of each block by the first
    that fits, and then by one that gains more where that fits too. A block of which none fits goes to
    waste, and one that isn't dug would be sent. `left` is used up."""
    count = len(rows.place)
    sent, chosen = np.zeros(count, np.bool_), np.full(count, -1, np.int64)
    for turn in range(2):
        for row in order:
            at, t, r = rows.place[row], rows.period[row], rows.resource[row]
            now = chosen[at]
            if now >= 0 and (turn == 0 or rows.gains[row] <= rows.gains[now]):
                continue
            if t < left.shape[1]:
                if rows.feeds[row] > left[r, t]:
                    continue
                left[r, t] -= rows.feeds[row]
                if now >= 0:
                    left[rows.resource[now], t] += rows.feeds[now]
            if now >= 0:
                sent[now] = False
            sent[row], chosen[at] = True, row
    return sent
