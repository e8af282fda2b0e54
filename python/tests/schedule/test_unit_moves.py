"""Units sorted into periods, moved alone, dug together and left: each step worked out by hand."""
import numpy as np
import pytest

from pitplan.schedule import unit_moves
from pitplan.schedule.unit_moves import InsertLimits, WantedUnits
from drawn_units import mine_of, plan_of

# 2 rests on 0 and 1, and 3 on 2; 4 on nothing
CHAIN = ((2, 0), (2, 1), (3, 2))
ORDER = np.arange(5)
WEIGHTS = np.array([3, 2, 1])
NEVER = 3


def chain(values=(-1, -1, 10, 1, 1), rooms=(2, 2, 2), **more):
    return mine_of(CHAIN, list(values), list(rooms), **more)


def test_each_wanted_unit_comes_right_after_all_that_it_rests_on():
    found = [
        unit_moves.cone_order(chain(), np.array(wanted)).tolist()
        for wanted in ([2], [4, 3, 0], [1, 2])
    ]
    assert found == [[0, 1, 2], [4, 0, 1, 2, 3], [1, 0, 2]]


@pytest.mark.parametrize(
    "rooms, floor, wanted",
    [
        ((2, 2, 2), [0] * 5, [0, 0, 1, 1, 2]),
        ((1, 1, 1), [0] * 5, [0, 1, 2, NEVER, NEVER]),
        ((2, 2, 2), [0, 1, 0, 0, 0], [0, 1, 1, 2, 0]),
        ((0, 5, 0), [0] * 5, [1, 1, 1, 1, 1]),
    ],
)
def test_a_unit_goes_into_the_first_period_that_has_room(rooms, floor, wanted):
    left = np.array([rooms])
    found = unit_moves.sort_into(chain(rooms=rooms), ORDER, np.array(floor), left)
    assert found.tolist() == wanted
    assert left.tolist() == [[room - wanted.count(t) for t, room in enumerate(rooms)]]


def test_what_is_too_large_for_any_period_stays_with_all_below_it():
    mine = chain(uses=[1, 1, 3, 1, 1])
    found = unit_moves.sort_into(mine, ORDER, np.zeros(5, np.int64), np.array([[2, 2, 2]]))
    assert found.tolist() == [0, 0, NEVER, NEVER, 1]


def test_a_sink_rate_puts_a_period_between():
    mine = chain(rooms=(9, 9, 9), sink=((2, 1), (3, 2)))
    found = unit_moves.sort_into(mine, ORDER, np.zeros(5, np.int64), np.array([[9, 9, 9]]))
    assert found.tolist() == [0, 0, 1, 2, 0]


def test_a_pass_of_single_moves():
    """From the bottom up 2 comes to the second period, which pays 20 for 10, and 1, which costs,
    goes there with it; 0 finds it full then."""
    mine = mine_of(((2, 0), (2, 1)), [-1, -1, 10], [2, 2, 2])
    plan = plan_of(mine, [0, 0, 2])
    assert unit_moves.move_units(mine, plan, np.arange(3), WEIGHTS) == 2
    assert plan.period.tolist() == [0, 1, 1]
    assert plan.left.tolist() == [[1, 0, 2]]
    assert unit_moves.move_units(mine, plan, np.arange(3), WEIGHTS) == 0


def test_what_costs_and_carries_nothing_is_left_in_the_ground():
    mine = mine_of((), [-5, 5], [2, 2, 2])
    plan = plan_of(mine, [1, 2])
    assert unit_moves.move_units(mine, plan, np.arange(2), WEIGHTS) == 2
    assert plan.period.tolist() == [NEVER, 0]
    assert plan.left.tolist() == [[1, 2, 2]]


def test_with_a_unit_all_that_rests_on_it_is_left():
    mine = chain()
    plan = plan_of(mine, [0, 0, 1, 1, 2])
    unit_moves.take_out(mine, plan, np.array([0]))
    assert plan.period.tolist() == [NEVER, 0, NEVER, NEVER, 2]
    assert plan.left.tolist() == [[1, 2, 1]]


def inserted(wanted, least=0, most=100, begin=(NEVER,) * 5, floor=(0,) * 5, **more):
    mine = chain(**more)
    plan = plan_of(mine, begin)
    asked = WantedUnits(np.array(wanted), np.array(floor))
    took = unit_moves.insert_units(mine, plan, asked, WEIGHTS, InsertLimits(least, most))
    return took, plan.period.tolist(), plan.left[0].tolist()


def test_a_unit_is_dug_with_all_above_it_where_that_pays():
    """0 and 1 cost 3 each in the first period, and 2 brings 20 in the next: 14 together."""
    dug = [0, 0, 1, NEVER, NEVER]
    assert inserted([2], least=13) == (1, dug, [0, 1, 2])
    assert inserted([2], least=14) == (0, [NEVER] * 5, [2, 2, 2])
    assert inserted([2], begin=(1, 1, NEVER, NEVER, NEVER)) == (
        1,
        [1, 1, 2, NEVER, NEVER],
        [2, 0, 1],
    )
    assert inserted([2], floor=(0, 0, 2, 0, 0)) == (1, [0, 0, 2, NEVER, NEVER], [0, 2, 1])


def test_a_period_that_is_opened_for_it_costs_what_it_costs():
    """The first costs 8 and the second 6, so that nothing is left of the 14."""
    assert inserted([2], opening=[8, 5, 9])[0] == 1
    assert inserted([2], opening=[8, 6, 9])[0] == 0
    assert inserted([2], opening=[8, 6, 9], begin=(NEVER,) * 4 + (0,), rooms=(3, 2, 2))[0] == 1


def test_no_more_units_are_looked_at_than_asked():
    both = [0, 0, 1, NEVER, 1]
    assert inserted([2, 4], most=3) == (2, both, [0, 0, 2])
    assert inserted([2, 4], most=2) == (1, [0, 0, 1, NEVER, NEVER], [0, 1, 2])
