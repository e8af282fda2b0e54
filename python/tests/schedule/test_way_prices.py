"""Which ways blocks go by prices: beside all choices of a few blocks, and by hand."""
import itertools

import numpy as np
import pytest

from pitplan.schedule.destinations import Millable
from pitplan.schedule.way_prices import sent_in


def millable_of(*rows):
    """Rows of a block, its gain, its feed and the resource; each block is a unit."""
    block, gains, feeds, resource = (np.array(column) for column in zip(*rows))
    return Millable(block, block.copy(), gains, feeds, resource)


def chosen(millable, period, rooms):
    """The rows that are sent, and what is left."""
    left = np.array(rooms)
    sent = sent_in(millable, millable.by_gain(), np.array(period), left)
    return np.flatnonzero(sent).tolist(), left.tolist()


def best_by_hand(millable, period, rooms):
    """What the best choice of all gains."""
    blocks = sorted(set(millable.block.tolist()))
    rows = list(zip(*(each.tolist() for each in millable)))
    most = 0
    for picked in itertools.product(*([None, *(r for r in rows if r[0] == b)] for b in blocks)):
        left = [list(row) for row in rooms]
        for row in filter(None, picked):
            left[row[4]][period[row[1]]] -= row[3]
        if min(map(min, left)) >= 0:
            most = max(most, sum(row[2] for row in filter(None, picked)))
    return most


def test_a_block_makes_room_for_one_that_has_no_other_way():
    """By gain for its feed the first block would take the mill, which the second alone can't do
    without."""
    millable = millable_of((0, 100, 10, 1), (0, 90, 10, 2), (1, 80, 10, 1))
    assert chosen(millable, [0, 0], [[0], [10], [10]]) == ([1, 2], [[0], [0], [0]])


def test_a_block_for_which_its_best_way_has_no_room_takes_another():
    millable = millable_of((0, 100, 10, 1), (0, 30, 5, 2), (1, 90, 10, 1), (1, 20, 50, 2))
    assert chosen(millable, [0, 0], [[0], [10], [5]]) == ([1, 2], [[0], [0], [0]])
    assert chosen(millable, [0, 1], [[0, 0], [10, 10], [5, 5]])[0] == [0, 2]


def test_one_way_after_another_is_taken_where_more_room_is_left():
    """A way that gains more, and that the prices were against, fits after all."""
    millable = millable_of((0, 100, 10, 1), (0, 99, 10, 2), (1, 50, 20, 1))
    assert chosen(millable, [0, 0], [[0], [10], [10]])[0] == [0]


def test_what_stays_would_be_sent_by_the_way_that_gains_most():
    millable = millable_of((0, 30, 10, 1), (0, 40, 10, 2), (1, 50, 10, 1), (1, 45, 1, 2))
    assert chosen(millable, [1, 1], [[0], [0], [0]])[0] == [1, 2]


@pytest.mark.parametrize("seed", range(20))
def test_of_six_blocks_it_comes_near_the_best_choice(seed):
    """Never over what there is, and of these all choices together are worth hardly more."""
    r = np.random.default_rng(seed)
    rows = [
        (b, int(r.integers(10, 100)), int(r.integers(5, 20)), way)
        for b in range(6)
        for way in (1, 2)
        if r.random() < 0.8
    ]
    millable, period = millable_of(*rows), r.integers(0, 2, 6).tolist()
    rooms = [[0, 0], *r.integers(10, 40, (2, 2)).tolist()]
    sent, left = chosen(millable, period, rooms)
    assert min(map(min, left)) >= 0
    assert len(set(millable.block[sent])) == len(sent)
    used = np.zeros((3, 2), int)
    np.add.at(
        used, (millable.resource[sent], np.array(period)[millable.unit[sent]]), millable.feeds[sent]
    )
    assert (np.array(rooms) - used).tolist() == left
    assert millable.gains[sent].sum() >= 0.7 * best_by_hand(millable, period, rooms)
