"""Which of its ways each block goes by, where a schedule has said when it is dug: by prices of feed at
which each period has room for what wants it, found from below."""
from __future__ import annotations

from typing import NamedTuple

import numpy as np

from ..base.arrays import Bools, Floats, Ints
from .destinations import Millable, Rows, send

_ROUNDS = 30  # of prices, at most


class _Worth(NamedTuple):
    """What each row leaves its block at some prices, and up to which price its block wants it rather
    than another way or waste: arrays of shape (rows,)."""

    net: Floats
    limit: Floats


def sent_in(millable: Millable, by_gain: Ints, period: Ints, left: Ints) -> Bools:
    """Which rows are sent where their units are dug in some periods.

    Parameters
    ----------
    millable : Millable
    by_gain : int array of shape (rows,)
        As `Millable.by_gain`.
    period : int array of shape (units,)
        The number of periods where a unit stays.
    left : int array of shape (resources, periods)
        What is left of each resource where nothing is sent; used up.
    """
    when = np.minimum(period[millable.unit], left.shape[1])
    rows = Rows(millable.place, millable.gains, millable.feeds, millable.resource, when)
    order = by_gain if millable.is_first.all() else _order_of(millable, when, left)
    return send(rows, order, left)


def _order_of(millable: Millable, when: Ints, left: Ints) -> Ints:
    """The rows in the order in which they are sent: first the best way of each block at the prices,
    those that are wanted up to the highest price first; then all others, by gain for their feed."""
    room = np.append(left, np.full((len(left), 1), np.iinfo(np.int64).max), axis=1)
    fits = millable.feeds <= room[millable.resource, when]
    millable = millable._replace(gains=np.where(fits, millable.gains, 0))  # else nobody wants it
    price = _prices(millable, when, left)
    worth = _worth_at(millable, price[millable.resource, when])
    is_other = ~millable.most(worth.net[:, None])[:, 0]
    of_feed = np.where(is_other, millable.gains / np.maximum(millable.feeds, 1), worth.limit)
    found: Ints = np.lexsort([-of_feed, is_other])
    return found


def _prices(millable: Millable, when: Ints, left: Ints) -> Floats:
    """A price of a thousandth of a tonne of each resource in each period, and 0 after the last: raised
    in turns to where no more wants a resource than there is. What one gets dearer by, others are wanted
    more, so that prices only rise, and end at the lowest ones."""
    price = np.zeros((left.shape[0], left.shape[1] + 1))
    for _ in range(_ROUNDS):
        before = price.copy()
        for resource in np.unique(millable.resource).tolist():
            limit = _worth_at(millable, price[millable.resource, when]).limit
            here = np.flatnonzero((millable.resource == resource) & (limit > 0))
            here = here[when[here] < left.shape[1]]
            here = here[np.lexsort([-limit[here], when[here]])]
            used = np.cumsum(millable.feeds[here])
            starts = np.searchsorted(when[here], np.arange(left.shape[1]))
            ahead = np.append(0, used)[starts]
            over = here[used - ahead[when[here]] > left[resource, when[here]]]
            np.maximum.at(price[resource], when[over], limit[over])
        if (price == before).all():
            break
    return price


def _worth_at(millable: Millable, prices: Floats) -> _Worth:
    """That of each row, at the price of its own resource and period."""
    feeds = np.maximum(millable.feeds, 1)
    net = millable.gains - feeds * prices
    firsts, place = np.flatnonzero(millable.is_first), millable.place
    best = np.maximum.reduceat(net, firsts)[place]
    is_best = millable.so_far((net == best)[:, None])[:, 0] == 1
    is_best &= net == best
    second = np.maximum.reduceat(np.where(is_best, -np.inf, net), firsts)[place]
    other = np.maximum(np.where(is_best, second, best), 0)
    return _Worth(net, (millable.gains - other) / feeds)
