"""Mines of a few units, as compiled loops take them: pairs and numbers written down by hand."""
import numpy as np
from pitplan.schedule.pairs import Pairs
from pitplan.schedule.unit_moves import Mine, Plan


def rows_both_ways(pairs, units):
    """Rows of pairs (what rests, on what), and these turned."""
    both = np.array(pairs, np.int64).reshape(-1, 2)
    above, on = (Pairs.of(both[:, k], both[:, 1 - k], units) for k in (0, 1))
    return above.first, above.other, on.first, on.other


def mine_of(pairs, values, rooms, sink=(), uses=None, opening=None):
    """A mine of one resource, of which each unit uses 1 where `uses` doesn't say another number."""
    units = len(values)
    return Mine(
        *rows_both_ways(pairs, units),
        *rows_both_ways(sink, units),
        np.zeros(units, np.int64),
        np.array([uses or [1] * units], np.int64),
        np.array(values, np.int64),
        1,
        units,
        np.array(opening or [0] * len(rooms), np.int64),
        np.array(rooms, np.int64),
        np.zeros(1, np.int64),
    )


def plan_of(mine, period):
    """A schedule of such a mine, with what is left of its room."""
    left = mine.rooms.copy()
    for unit, at in enumerate(period):
        if at < len(left):
            left[at] -= mine.uses[0, unit]
    return Plan(np.array(period, np.int64), left[None, :])
