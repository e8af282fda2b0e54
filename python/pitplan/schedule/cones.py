"""The first period in which each unit may be dug by its cone: itself and all that it rests on, directly
or not.

Whoever digs a unit by the end of a period has dug its whole cone by then. So where the cone uses
more of a resource than all periods up to that one have together, no schedule digs the unit so
early. This holds for units that are dug whole: a bound by it says nothing of a schedule that digs
them in parts.
"""
from __future__ import annotations

import numpy as np

from ..base.arrays import Ints
from .compiling import compiled
from .pairs import Pairs

_BITS = 64  # units whose cones are added up in one pass
_BYTE = 256


def first_by_cones(above: Pairs, order: Ints, uses: Ints, capacities: Ints) -> Ints:
    """The first period by which the capacities so far have room for each unit's cone; the number of
    periods where none has.

    Parameters
    ----------
    above : Pairs
    order : int array of shape (units,)
        In which all that a unit rests on comes before it.
    uses : int array of shape (resources, units)
        What each unit uses at least, none below 0.
    capacities : int array of shape (resources, periods)
    """
    found = np.zeros(uses.shape[1], np.int64)
    rooms = np.cumsum(capacities, axis=1)
    for room, used in zip(rooms, _cone_uses(above, order, np.ascontiguousarray(uses))):
        np.maximum(found, np.searchsorted(room, used), out=found)
    return found


@compiled
def _cone_uses(above: Pairs, order: Ints, uses: Ints) -> Ints:
    """What the cone of each unit uses, of shape (resources, units).

    In one pass 64 units hand their mark, a bit each, down to all that they rest on. Marks are added up
    by their eight bytes, and each byte's sums go to its units at the end."""
    found, marks = np.zeros_like(uses), np.zeros(uses.shape[1], np.uint64)
    sums = np.zeros((uses.shape[0], _BITS // 8, _BYTE), np.int64)
    for begin in range(0, len(order), _BITS):
        end = min(begin + _BITS, len(order))
        for k in range(end - begin):
            marks[order[begin + k]] |= np.uint64(1) << np.uint64(k)
        sums[:] = 0
        for at in range(end - 1, -1, -1):
            unit = order[at]
            mark = marks[unit]
            if not mark:
                continue
            marks[unit] = 0
            for i in range(above.first[unit], above.first[unit + 1]):
                marks[above.other[i]] |= mark
            for byte in range(_BITS // 8):
                which = int((mark >> np.uint64(8 * byte)) & np.uint64(255))
                for r in range(uses.shape[0]):
                    sums[r, byte, which] += uses[r, unit]
        for k in range(end - begin):
            for which in range(_BYTE):
                if which >> (k % 8) & 1:
                    for r in range(uses.shape[0]):
                        found[r, order[begin + k]] += sums[r, k // 8, which]
    return found
