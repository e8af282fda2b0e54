"""Which unit rests on which, as columns."""
import numpy as np

from pitplan.schedule.pairs import Pairs


def test_columns_are_pairs():
    """A unit that waits for two stands in two columns; what is left of a column is each unit's own
    number."""
    pairs = Pairs.of(np.array([3, 4, 4, 5]), np.array([0, 2, 1, 2]), 6)
    assert pairs.most == 2
    assert pairs.columns().tolist() == [[0, 1, 2, 0, 1, 2], [0, 1, 2, 3, 2, 5]]
    none = Pairs.of(np.zeros(0, np.int64), np.zeros(0, np.int64), 6)
    assert (none.most, none.columns().shape) == (0, (0, 6))
