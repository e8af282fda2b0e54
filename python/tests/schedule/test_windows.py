"""Windows keep what a schedule has to keep, give the best that a window has, and take nothing else.
What is feasible and what it is worth is counted by `Production`, which shares no line with them;
what is best, by trying all."""
import itertools
import time

import numpy as np
import pytest
from pitplan.schedule import windows
from pitplan.schedule.highs import Answer
from pitplan.schedule.period_ranges import Freed, Span, ranges_of
from pitplan.schedule.destinations import Timetable
from pitplan.schedule.windows import Windows
from tiny_mines import MINES, TinyMine, begun, made_of, some_of


def best_of_all(made, plan, freed):
    """The most that a schedule is worth in which these units are dug in the periods of a window and
    all others as they are."""
    best, (units, (begin, end)) = made.npv(plan), freed
    for periods in itertools.product(range(begin, end + 1), repeat=len(units)):
        period = plan.period.copy()
        period[units] = periods
        other = Timetable(period, plan.sent)
        if made.npv(other) > best and not made.wrong(other):
            best = made.npv(other)
    return best


@pytest.mark.parametrize("sink", [False, True])
@pytest.mark.parametrize("seed, kind", MINES)
def test_a_window_has_no_better_schedule_than_is_found(seed, kind, sink):
    made = made_of(seed, kind, sink)
    orders, plan = begun(made)
    gained = 0
    for turn in range(6):
        freed = some_of(made, plan, turn, 2)
        ranges = ranges_of(orders.mine, plan.period, orders.order, freed)
        best = best_of_all(made, plan, freed)
        if not ranges.is_open.any():
            assert best == made.npv(plan)
            continue
        window = windows._window_of(orders.mine, made.weights, orders.loose(plan), ranges)
        shares, is_ended = window.whole(60.0, 0.0)
        found = Timetable(window.periods(shares, plan.period), plan.sent)
        assert is_ended
        assert made.wrong(found) == []
        assert made.npv(found) == best
        gained += best > made.npv(plan)
        plan = found
    assert gained or kind or sink


@pytest.mark.parametrize("seed, kind", MINES)
def test_three_periods_at_once(seed, kind):
    made = made_of(seed, kind)
    orders, plan = begun(made)
    for turn in range(3):
        freed = some_of(made, plan, turn, 3)
        freed = freed._replace(units=freed.units[:7])
        ranges = ranges_of(orders.mine, plan.period, orders.order, freed)
        if not ranges.is_open.any():
            continue
        window = windows._window_of(orders.mine, made.weights, orders.loose(plan), ranges)
        found = Timetable(window.periods(window.whole(60.0, 0.0).shares, plan.period), plan.sent)
        assert made.wrong(found) == []
        assert made.npv(found) == best_of_all(made, plan, freed)


@pytest.mark.parametrize("sink", [False, True])
@pytest.mark.parametrize("width", [2, 3])
@pytest.mark.parametrize("seed, kind", MINES)
def test_a_pass_keeps_all_and_loses_nothing(seed, kind, width, sink):
    mine, made = TinyMine(seed, **kind), made_of(seed, kind, sink)
    orders, plan = begun(made)
    found = Windows(orders)
    for turn in range(3):
        other = found.bettered(plan, width, turn)
        assert made.wrong(other) == []
        assert made.npv(plan) <= made.npv(other)
        plan = other
    if kind and not sink:
        assert made.npv(plan) <= mine.best()


@pytest.mark.parametrize("sink", [False, True])
@pytest.mark.parametrize("seed, kind", MINES)
def test_what_is_left_of_capacities_stays_right(seed, kind, sink):
    made = made_of(seed, kind, sink)
    orders, plan = begun(made)
    loose, found = orders.loose(plan), Windows(orders)
    for s in range(made.periods):
        found.better_one(orders.mine, loose, windows._Opening(Span(s, s + 1), plan.sent, 0.0, s))
        after = Timetable(loose.period, plan.sent)
        assert (loose.left == made.capacities - made.used(after)).all()


@pytest.mark.parametrize("sink", [False, True])
@pytest.mark.parametrize("seed, kind", MINES)
def test_threads_and_the_clock_change_nothing(seed, kind, sink):
    made = made_of(seed, kind, sink)
    found = []
    for threads in (1, 2, 3, 2):
        orders, plan = begun(made)
        orders.threads = threads
        passes = Windows(orders)
        for turn in range(3):
            plan = passes.bettered(plan, 2 + turn % 2, turn)
        found.append(plan.period.tolist())
    assert found[1:] == found[:1] * 3


def answered(shares):
    """HiGHS, as if it gave these shares."""
    return lambda *_, **__: Answer(0, "", shares, np.zeros(0))


def test_what_is_no_improvement_is_not_taken(monkeypatch):
    """Whatever HiGHS says: the worst of all that is feasible, what breaks slopes or capacities, and
    nothing at all."""
    made = made_of(9, {})
    orders, plan = begun(made)
    plan = Windows(orders).bettered(plan, 2, 1)
    for s in range(made.periods):
        opening, loose = windows._Opening(Span(s, s + 1), plan.sent, 0.0, 1), orders.loose(plan)
        inside = np.flatnonzero((plan.period >= s) & (plan.period <= s + 1))
        ranges = ranges_of(orders.mine, plan.period, orders.order, Freed(inside, Span(s, s + 1)))
        count = len(windows._window_of(orders.mine, made.weights, loose, ranges).gains)
        for shares in (np.zeros(count), np.ones(count), np.arange(count) % 2, None):
            monkeypatch.setattr(windows, "milp", answered(shares))
            Windows(orders).better_one(orders.mine, loose, opening)
            after = Timetable(loose.period, plan.sent)
            assert made.wrong(after) == []
            assert made.npv(after) >= made.npv(plan)
            assert (loose.left == made.capacities - made.used(after)).all()


def test_it_ends_with_the_time(monkeypatch):
    """HiGHS is asked for no more seconds than are left, and for nothing once they are over."""
    made, opening, whole = made_of(9, {}), [], windows.milp

    def milp(*words, **options):
        opening.append(options["time_limit"])
        return whole(*words, **options)

    monkeypatch.setattr(windows, "milp", milp)
    orders, plan = begun(made)
    orders.ends = time.monotonic() + 4.0
    Windows(orders).bettered(plan, 2, 1)
    assert opening
    assert all(0 <= seconds <= 4.0 for seconds in opening)
    opening.clear()
    orders.ends = time.monotonic() - 1.0
    Windows(orders).bettered(plan, 2, 1)
    assert not opening


def test_more_units_are_opened_where_highs_ends_and_fewer_where_it_is_ended(monkeypatch):
    made = made_of(9, {})
    orders, plan = begun(made)
    for status, sizes in ((0, [450, 675]), (1, [150, 75])):
        answer = Answer(status, "", None, np.zeros(0))
        monkeypatch.setattr(windows, "milp", lambda *_, answer=answer, **__: answer)
        found, opening = Windows(orders), windows._Opening(Span(0, 1), plan.sent, 0.0, 1)
        for size in sizes:
            found.done.clear()
            found.better_one(orders.mine, orders.loose(plan), opening)
            assert found.sizes[0, 1] == size


@pytest.mark.parametrize("size, is_done", [(3, False), (1000, True)])
def test_a_window_is_done_only_where_all_its_units_were_opened(monkeypatch, size, is_done):
    made = made_of(9, {})
    orders, plan = begun(made)
    monkeypatch.setattr(windows, "milp", answered(None))
    found, opening = Windows(orders), windows._Opening(Span(0, 1), plan.sent, 0.0, 1)
    found.sizes[0, 1] = size
    found.better_one(orders.mine, orders.loose(plan), opening)
    assert ((0, 1) in found.done) == is_done


def test_a_window_of_which_all_was_looked_at_is_not_looked_at_again(monkeypatch):
    made, opening, whole = made_of(9, {}), [], windows.milp
    orders, plan = begun(made)
    found = Windows(orders)
    for turn in range(6):
        plan = found.bettered(plan, 2, turn)
    monkeypatch.setattr(windows, "milp", lambda *a, **b: opening.append(1) or whole(*a, **b))
    assert found.bettered(plan, 2, 7).period.tolist() == plan.period.tolist()
    assert not opening
