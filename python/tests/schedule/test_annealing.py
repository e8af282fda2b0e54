"""Annealing keeps what a schedule has to keep at every step, takes what loses as often as its rule
says, and gives the best that it saw. What a schedule is worth and whether it is feasible is counted
by `Production`, which shares no line with the compiled ones."""
import math
import threading

import pytest
from pitplan.schedule import annealing, unit_moves, sorting, swaps
from pitplan.schedule.annealing import Annealing
from pitplan.schedule.swaps import Heat
from pitplan.schedule.destinations import Timetable
from tiny_mines import MINES, TinyMine, begun, made_of


@pytest.mark.parametrize("sink", [False, True])
@pytest.mark.parametrize("seed, kind", MINES[:5])
def test_each_step_keeps_all(seed, kind, sink):
    made = made_of(seed, kind, sink)
    orders, plan = begun(made)
    mine, loose, steps = orders.mine, orders.loose(plan), orders.steps
    moved = 0
    for turn in range(300):
        s = turn % made.periods
        before = made.npv(Timetable(loose.period.copy(), plan.sent))
        gain = swaps.swap_units(mine, loose, s, 5, turn, Heat(int(steps[s]), math.inf)).gain
        after = Timetable(loose.period, plan.sent)
        assert made.wrong(after) == []
        assert (loose.left == made.capacities - made.used(after)).all()
        assert made.npv(after) - before == pytest.approx(gain, abs=1)
        moved += bool(gain)
    assert moved > (0 if sink else 5)


def test_what_is_tried_below_zero_moves_nothing_and_counts_losses():
    made = made_of(2, {})
    orders, plan = begun(made)
    loose = orders.loose(plan)
    found = Annealing(orders, 1)
    assert found.mean_loss(orders.mine, loose) > 0
    assert (loose.period == plan.period).all()


@pytest.mark.parametrize("seed, kind", MINES[:5])
def test_the_best_that_was_seen_comes_out(monkeypatch, seed, kind):
    """Also where it ends as hot as it begins, in disorder; and never more than the best schedule is
    worth."""
    monkeypatch.setattr(annealing, "_HOT", 1e6)
    monkeypatch.setattr(annealing, "_COLD", 1e6)
    mine = TinyMine(seed, **kind)
    orders, plan = begun(mine.production)
    plan = orders.swapped(plan, 500, 1)
    worths = [mine.production.npv(Annealing(orders, n).annealed(plan, 20)) for n in range(6)]
    assert min(worths) >= mine.production.npv(plan)
    assert max(worths) <= mine.best()


def test_it_comes_out_of_what_swaps_lead_to():
    """Of a mine where swaps that gain end below the best; the same seed gives the same schedule."""
    mine = TinyMine(46, pushbacks=True)
    orders, plan = begun(mine.production)
    for seed in range(1, 6):
        plan = orders.swapped(plan, 500, seed)
    found = [max(mine.production.npv(Annealing(orders, n).annealed(plan, 200)) for n in range(4))]
    again = [max(mine.production.npv(Annealing(orders, n).annealed(plan, 200)) for n in range(4))]
    assert mine.production.npv(plan) <= found[0] <= mine.best()
    assert found == again


@pytest.mark.parametrize("sink", [False, True])
@pytest.mark.parametrize("seed, kind", MINES[:5])
def test_threads_change_nothing(seed, kind, sink):
    """Pairs of periods that swaps go on in at the same time have no unit of each other."""
    made = made_of(seed, kind, sink)
    found = []
    for threads in (1, 2, 3):
        orders, plan = begun(made)
        orders.threads = threads
        plan = Annealing(orders, 3).annealed(orders.swapped(plan, 300, 1), 100)
        assert made.wrong(plan) == []
        found.append(plan.period.tolist())
    assert found[0] == found[1] == found[2]


@pytest.mark.parametrize("how", ["swapped", "annealed"])
def test_what_is_done_at_once_has_no_period_in_common(how):
    """And each two neighbouring periods come once, at each temperature of annealing."""
    orders, plan = begun(TinyMine(2).production)
    rounds, at_once = [], orders.at_once
    orders.at_once = lambda swap, periods: (rounds.append(list(periods)), at_once(swap, periods))[1]
    if how == "swapped":
        orders.swapped(plan, 10, 1)
    else:
        Annealing(orders, 1).annealed(plan, 1)
    assert all(b - a > 1 for pairs in rounds for a, b in zip(pairs, pairs[1:]))
    for both in zip(rounds[::2], rounds[1::2]):
        assert sorted(sum(both, [])) == list(range(orders.production.periods))


def test_pairs_that_reach_into_each_other_come_one_after_the_other():
    """By a lag of two periods a swap of periods 2 and 3 asks for what one of 0 and 1 moves."""
    orders, _ = begun(made_of(2, {}, True))
    assert len(orders.production.sinking.other)
    orders.threads = 2
    for lag, is_alone in ((1, False), (2, True)):
        orders.mine = orders.mine._replace(lag=lag)
        who = set(orders.at_once(lambda _: threading.get_ident(), range(8)))
        assert (who == {threading.get_ident()}) == is_alone


def test_swaps_end_once_the_time_is_over():
    """Those that go on within a compiled loop, of which another thread says so, and the probes of
    annealing: more tries than any time has."""
    orders, plan = begun(TinyMine(2).production)
    loose, step = orders.loose(plan), int(orders.steps[0])
    words = (orders.mine, loose, 0, 10**12, 1, Heat(step, math.inf))
    loop = threading.Thread(target=swaps.swap_units, args=words, daemon=True)
    loop.start()
    orders.end()
    loop.join(60.0)
    assert not loop.is_alive()
    assert Annealing(orders, 1).mean_loss(orders.mine, loose) == 0


class Clock:
    """A clock that says 0 so many times, and then that the time is over."""

    def __init__(self, looks):
        self.looks = looks

    def monotonic(self):
        self.looks -= 1
        return 0.0 if self.looks >= 0 else 2.0


@pytest.mark.parametrize("looks", [0, 1, 3])
@pytest.mark.parametrize("how", ["swapped", "annealed", "rebuilt"])
def test_a_round_ends_when_the_time_is_over(monkeypatch, looks, how):
    made = TinyMine(2).production
    orders, plan = begun(made)
    steps = []
    for module, name in ((swaps, "swap_units"), (unit_moves, "take_out")):
        function = getattr(module, name)
        monkeypatch.setattr(
            module, name, lambda *words, f=function: (steps.append(1), f(*words))[1]
        )
    anneal = Annealing(orders, 1)
    anneal.mean_loss = lambda *words: 1.0  # its probes don't count
    monkeypatch.setattr(sorting, "time", Clock(looks))
    orders.ends, orders.threads = 1.0, 1
    if how == "swapped":
        found = orders.swapped(plan, 10_000, 1)
    elif how == "annealed":
        found = anneal.annealed(plan, 10_000)
    else:
        monkeypatch.setattr(orders, "moved", lambda plan: plan)  # that looks at the clock itself
        found = orders.rebuilt(plan, 50, 1)
    assert len(steps) == looks
    assert made.wrong(found) == []
