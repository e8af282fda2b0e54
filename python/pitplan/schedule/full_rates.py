"""Which rates are full as far as whole units and blocks fill them: what is left of one is less than the
least that could still be dug, or be sent, in the same period."""
from __future__ import annotations

import numpy as np

from ..base.arrays import Bools, Ints
from .production import Production

_NONE = np.iinfo(np.int64).max  # where nothing could be added


def full_rates(production: Production, period: Ints, goes: Ints) -> Bools:
    """Whether nothing more that takes some of a resource fits into what a period has left of it, of
    shape (resources, periods). Where nothing could be added at all, it isn't full. What nothing
    limits never is.

    A unit could be dug in a period where it is dug later or stays, and all that it rests on is dug by
    then. A block could be sent a way where its unit is dug in that period and the block goes another
    way, or where its unit could be dug.

    Parameters
    ----------
    production : Production
    period : int array of shape (units,)
        When each is dug, from 0; the number of periods where it stays.
    goes : int array of shape (blocks of the model,)
        Which way each block goes that is dug, from 1; 0 to waste.
    """
    made, millable = production, production.millable
    ready = _first_by_what_is_above(made, period)
    is_other_way = goes[millable.block] != millable.resource
    of_row = ready[millable.unit], period[millable.unit] - 1 + is_other_way
    sent = period[millable.unit][~is_other_way]
    found = np.zeros((len(made.uses), made.periods), bool)
    for r, room in enumerate(made.terms.capacities):
        if not room:
            continue
        used, feeds = _added(period, made.uses[r], made.periods), millable.feeds_of(r)
        used += _added(sent, feeds[~is_other_way], made.periods)
        least = np.minimum(
            _least(made.uses[r], ready, period - 1, made.periods),
            _least(feeds, *of_row, made.periods),
        )
        found[r] = (np.array(room) - used < least) & (least < _NONE)
    return found


def _first_by_what_is_above(production: Production, period: Ints) -> Ints:
    """The first period in which each unit could be dug, by what it rests on as that is dug."""
    found = np.zeros(production.units, np.int64)
    for pairs, lag in ((production.above, 0), (production.sinking, production.terms.per_year)):
        np.maximum.at(found, pairs.blocks, period[pairs.other] + lag)
    return found


def _added(period: Ints, amounts: Ints, periods: int) -> Ints:
    """Amounts by the period of each, as a sum for each period."""
    found = np.zeros(periods + 1, np.int64)
    np.add.at(found, np.minimum(period, periods), amounts)
    return found[:periods]


def _least(amounts: Ints, first: Ints, last: Ints, periods: int) -> Ints:
    """The least amount above 0 of those that could be added in each period, which are so from a first
    one to a last one."""
    found = np.full(periods, _NONE)
    for t in range(periods):
        could = (amounts > 0) & (first <= t) & (t <= last)
        found[t] = amounts[could].min(initial=_NONE)
    return found
