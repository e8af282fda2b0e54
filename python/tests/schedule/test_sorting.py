"""Schedules by the relaxation's shares, moved and rebuilt: feasible by `Production`, never better than
the best of all, and never worse than before."""
import math
import time
from dataclasses import replace

import numpy as np
import pytest

from pitplan.schedule import highs
from pitplan.schedule.destinations import Millable, Timetable
from pitplan.schedule.partition import begun as first_clusters, relax, shares_of
from pitplan.schedule.sorting import Sorting
from six_blocks import best_of_all, made_up
from tiny_mines import MINES, TinyMine, begun, five_columns, made_of


@pytest.mark.parametrize("sink", [False, True])
@pytest.mark.parametrize("seed, kind", MINES)
def test_a_first_schedule_is_feasible_and_none_beats_the_best(seed, kind, sink):
    made = made_of(seed, kind, sink)
    _, plan = begun(made)
    assert made.wrong(plan) == []
    if (seed, kind) in MINES[:5]:  # of the others not every schedule can be listed
        assert 0 < made.npv(plan) <= TinyMine(seed, **kind).best()


@pytest.mark.parametrize("sink", [False, True])
@pytest.mark.parametrize("seed, kind", MINES)
def test_first_schedules_are_feasible_and_begin_with_that_by_shells(seed, kind, sink):
    made = made_of(seed, kind, sink)
    found = list(Sorting(made).first_ones())
    assert len(found) == 3
    assert [made.wrong(plan) for plan in found] == [[], [], []]
    assert (found[0].period == Sorting(made).by_shells().period).all()


def test_a_first_schedule_digs_no_waste_that_bares_nothing():
    """Bench by bench no ore is reached: the waste of all columns would come before."""
    made, best = five_columns()
    worths = [made.npv(plan) for plan in Sorting(made).first_ones()]
    assert worths[0] <= 0
    assert max(worths) == best


@pytest.mark.parametrize("seed, kind", MINES[:4])
def test_schedules_by_shares_are_many_feasible_ones_and_one_is_near_the_best(seed, kind):
    mine = TinyMine(seed, **kind)
    made, cluster = mine.production, first_clusters(mine.production)
    relaxed = relax(made, cluster)
    found = list(Sorting(made).by_shares(shares_of(cluster, relaxed), relaxed.multipliers))
    assert len(found) == 3 * 3 * 2  # shares, floors, orders
    assert all(made.wrong(plan) == [] for plan in found)
    assert 0.8 * mine.best() <= max(map(made.npv, found)) <= mine.best()


@pytest.mark.parametrize("leaches", [False, True])
def test_where_blocks_go_is_chosen_too(leaches):
    """Of six small mines swaps and rebuilding find the best of nearly all, and lose nothing."""
    reached = 0
    for seed in range(6):
        made, pairs, sinking = made_up(seed, chooses=True, leaches=leaches)
        sorting = Sorting(made)
        plan, best = sorting.by_shells(), best_of_all(made, pairs, sinking)
        for turn in range(20):
            before = made.npv(plan)
            other = sorting.rebuilt(sorting.swapped(plan, 50, turn), 5, turn)
            assert made.wrong(other) == []
            plan = sorting.better(plan, other)
            assert before <= made.npv(plan) <= best
        reached += made.npv(plan) == best
    assert reached >= 4


def test_a_mine_where_blocks_are_sent_has_their_gain_and_their_feed():
    made = made_up(3, chooses=True)[0]
    sent = np.arange(len(made.millable.block)) == 1
    mine, bare = (Sorting(made).mine_of(each) for each in (sent, sent & False))
    block = made.millable.block[1]
    gained, fed = np.zeros(6, np.int64), np.zeros(6, np.int64)
    gained[block], fed[block] = made.millable.gains[1], made.millable.feeds[1]
    assert (mine.values - bare.values).tolist() == gained.tolist()
    assert (mine.uses[1] - bare.uses[1]).tolist() == fed.tolist()
    assert (mine.uses[0] == bare.uses[0]).all()


def test_a_schedule_ends_where_the_rest_pays_no_fixed_cost():
    """The last period's blocks bring less than a period costs, and all that is kept is as before."""
    made = made_up(2)[0]
    plan = Sorting(made).by_shells()
    last = plan.period[plan.period < made.periods].max()
    flow = int(made.values[plan.period == last].sum())
    for cost, is_shorter in ((0, False), (max(flow, 0) + 1, True)):
        terms = replace(made.terms, fixed_cost=cost)
        found = Sorting(replace(made, terms=terms)).shortened(plan)
        assert (found.period[plan.period == last] == made.periods).all() == is_shorter
        before = plan.period < last
        assert is_shorter or (found.period[before] == plan.period[before]).all()


def test_steps_are_what_a_period_later_costs():
    made = TinyMine(1).production
    weights = made.terms.weights
    wanted = [one - other for one, other in zip(weights, (*weights[1:], 0))]
    assert Sorting(made).steps.tolist() == wanted
    assert min(wanted) > 0


def test_nothing_is_made_better_once_the_time_is_over():
    made = made_of(9, {})
    orders, plan = begun(made)
    orders.ends = time.monotonic() - 1
    assert orders.is_late
    worth = made.npv(plan)
    for found in (orders.swapped(plan, 1000, 1), orders.rebuilt(plan, 1000, 1), orders.moved(plan)):
        assert found.period.tolist() == plan.period.tolist()
        assert made.npv(found) == worth


def test_an_error_of_one_pair_of_periods_ends_the_others(monkeypatch):
    stopped = []
    monkeypatch.setattr(highs, "stop", lambda: stopped.append(1))
    orders = Sorting(made_of(9, {}))
    orders.threads = 2

    def swap(s):
        if s == 2:
            raise ValueError("of the second pair")
        return s

    assert orders.at_once(swap, [0, 1]) == [0, 1]
    with pytest.raises(ValueError, match="of the second pair"):
        orders.at_once(swap, [0, 2])
    assert orders.ends == -math.inf
    assert stopped == [1]


def test_the_better_of_two_is_worth_more():
    made = made_of(9, {})
    orders, plan = begun(made)
    none = Timetable(np.full(made.units, made.periods), plan.sent)
    assert orders.better(none, plan) is plan
    assert orders.better(plan, none) is plan


def test_where_blocks_go_is_never_chosen_worse():
    """By gain for feed the first block fills the mill so far that the second, which gains more, has no
    room: a schedule that sends that one stays, and one that sends none is filled."""
    made = made_up(0, chooses=True)[0]
    of_two = [np.array(each) for each in ([0, 1], [0, 1], [60, 90], [6, 10], [1, 1])]
    rooms = ((10**9,) * made.periods, (10,) * made.periods)
    terms = replace(made.terms, capacities=rooms)
    made = replace(made, terms=terms, millable=Millable(*of_two))
    sorting, period = Sorting(made), np.zeros(made.units, np.int64)
    for sent, wanted in (([0, 1], [0, 1]), ([0, 0], [1, 0]), ([1, 0], [1, 0])):
        plan = Timetable(period, np.array(sent, bool))
        found = sorting.resent(plan)
        assert found.sent.tolist() == wanted
        assert made.npv(found) >= made.npv(plan)
        assert made.wrong(found) == []
