"""The periods that units may be moved to while others stay, by trying all, and by a drawn mine."""
import itertools
from dataclasses import replace

import numpy as np
import pytest
from pitplan.schedule.destinations import Timetable
from pitplan.schedule.period_ranges import Freed, Ranges, Span, followers, ranges_of
from drawn_units import mine_of
from tiny_mines import MINES, begun, made_of, some_of


@pytest.mark.parametrize("sink", [False, True])
@pytest.mark.parametrize("seed, kind", MINES)
def test_a_range_leaves_out_no_period_that_slopes_and_sink_rate_leave(seed, kind, sink):
    """And has none that what stays forbids."""
    made = made_of(seed, kind, sink)
    orders, plan = begun(made)
    roomy = replace(made, terms=replace(made.terms, capacities=((),) * len(made.uses)))
    for turn in range(4):
        freed = units, (begin, end) = some_of(made, plan, turn, 2)
        ranges = ranges_of(orders.mine, plan.period, orders.order, freed)
        seen = [set() for _ in units]
        for periods in itertools.product(range(begin, end + 1), repeat=len(units)):
            period = plan.period.copy()
            period[units] = periods
            if not roomy.wrong(Timetable(period, plan.sent)) and (period >= made.earliest).all():
                for one, each in zip(seen, periods):
                    one.add(each)
        low, high = ranges.low[units], ranges.high[units]
        assert [min(one) for one in seen] == low.tolist()
        assert [max(one) for one in seen] == high.tolist()
        others = np.setdiff1d(np.arange(made.units), units)
        assert (ranges.low[others] == plan.period[others]).all()
        assert (ranges.high[others] == plan.period[others]).all()


@pytest.mark.parametrize("seed, kind", MINES)
def test_how_many_go_with_a_unit(seed, kind):
    made = made_of(seed, kind)
    orders, plan = begun(made)
    begin, end = 0, 1
    found = followers(orders.mine, plan.period, Span(begin, end), 1000)
    ways = {begin: made.above.turned(), end: made.above}
    for unit, now in enumerate(plan.period.tolist()):
        if now > end:
            assert found[unit] == -1
            continue
        pairs, seen, stack = ways[now], {unit}, [unit]
        while stack:
            one = stack.pop()
            for other in pairs.other[pairs.first[one] : pairs.first[one + 1]].tolist():
                if plan.period[other] == now and other not in seen:
                    seen.add(other)
                    stack.append(other)
        assert found[unit] == len(seen)


# 3 rests on 2, that on 0 and 1; 4 on nothing
CHAIN = ((2, 0), (2, 1), (3, 2))
ORDER = np.array([0, 1, 2, 3, 4])


def ranged(period, freed, span, sink=()):
    mine = mine_of(CHAIN, [1] * 5, rooms=[9] * 4, sink=sink)
    found = ranges_of(mine, np.array(period), ORDER, Freed(np.array(freed), Span(*span)))
    return list(zip(found.low.tolist(), found.high.tolist())), found.is_open.tolist()


def test_what_stays_bounds_what_is_freed():
    low_high, is_open = ranged([0, 1, 2, 3, 0], [2], (0, 4))
    assert low_high == [(0, 0), (1, 1), (1, 3), (3, 3), (0, 0)]
    assert is_open == [False, False, True, False, False]
    assert ranged([0, 1, 2, 3, 0], [2], (2, 2))[1] == [False] * 5
    assert ranged([0, 1, 2, 3, 0], [4], (0, 4))[0][4] == (0, 4)


def test_units_that_are_freed_together_bound_each_other_by_their_ranges_alone():
    assert ranged([0, 1, 2, 3, 0], [2, 3], (1, 4))[0][2:4] == [(1, 4), (1, 4)]
    assert ranged([0, 1, 2, 3, 0], [1, 2], (0, 4))[0][1:3] == [(0, 3), (0, 3)]


def test_a_sink_rate_leaves_a_period_between():
    """3 comes a period after 1, which 4 periods are the end of; who is never dug holds nobody."""
    assert ranged([0, 1, 2, 2, 0], [3], (0, 4), sink=((3, 1),))[0][3] == (2, 4)
    assert ranged([0, 1, 2, 3, 0], [1], (0, 4), sink=((3, 1),))[0][1] == (0, 2)
    assert ranged([0, 1, 4, 4, 0], [1], (0, 4), sink=((3, 1),))[0][1] == (0, 4)


def test_followers_are_counted_to_the_nearer_side():
    """Of one period: 2 takes 0 and 1 along to the one before, and 3 to the one after."""
    mine = mine_of(CHAIN, [1] * 5, rooms=[9] * 4)
    period = np.array([1, 1, 1, 1, 3])
    assert followers(mine, period, Span(0, 2), 9).tolist() == [1, 1, 2, 1, -1]
    assert followers(mine, period, Span(1, 2), 9).tolist() == [3, 3, 2, 1, -1]
    assert followers(mine, period, Span(0, 1), 9).tolist() == [1, 1, 3, 4, -1]
    assert followers(mine, period, Span(0, 1), 2).tolist() == [1, 1, 2, 2, -1]


def test_a_range_of_one_period_is_closed():
    assert Ranges(np.array([0, 2, 4]), np.array([0, 3, 4])).is_open.tolist() == [False, True, False]
