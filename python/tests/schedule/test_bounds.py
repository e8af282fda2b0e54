"""The bound of made-up mines so small that every schedule is tried, and the relaxation is one linear
program."""
import time
from dataclasses import replace

import numpy as np
import pytest

from pitplan import PlanError
from pitplan.pit.program import Pit
from pitplan.schedule.search import Search
from pitplan.schedule.unit_texts import UnitTexts
from six_blocks import PERIODS, best_of_all, made_up, whole_relaxation


@pytest.mark.parametrize(
    "terms",
    [
        {},
        {"sinks": True},
        {"chooses": True},
        {"chooses": True, "sinks": True},
        {"chooses": True, "leaches": True},
        {"chooses": True, "leaches": True, "sinks": True, "lead": 1},
        {"lead": 0},
        {"lead": 1, "chooses": True, "sinks": True},
        {"fixed_cost": 20_000},
        {"fixed_cost": 9_000, "lead": 2, "chooses": True},
    ],
)
@pytest.mark.parametrize("seed", range(1, 5))
def test_no_schedule_is_worth_more_than_the_bound(tmp_path, seed, terms):
    """It lies between the best of all schedules and next to the relaxation; what was found is that
    best."""
    made, pairs, sinking = made_up(seed, **terms)
    search = Search(tmp_path, made, Pit())
    search.run(0.0, 1e9)  # it ends by what it counts
    best, relaxed = best_of_all(made, pairs, sinking), whole_relaxation(made, pairs, sinking)
    assert best > 0
    assert best <= search.found.bound
    assert relaxed * (1 - 1e-9) <= search.found.bound <= relaxed * (1 + 1e-4)
    assert 0.999 * best <= search.found.npv <= best
    assert not made.wrong(search.plan)


@pytest.mark.parametrize("gap", [0.05, 0.08])
@pytest.mark.parametrize("seed", range(1, 5))
def test_the_bound_comes_to_a_hundredth_of_the_gap_of_the_relaxation(tmp_path, seed, gap):
    made, pairs, sinking = made_up(seed, sinks=True)
    search, relaxed = Search(tmp_path, made, Pit()), whole_relaxation(made, pairs, sinking)
    search.lower(gap, time.monotonic() + 1e6)
    assert search.found.bound <= relaxed * (1 + 0.01 * gap)


@pytest.mark.parametrize("seed", range(6))
def test_any_multipliers_give_a_bound(tmp_path, seed):
    """Also those that nobody would take."""
    made, pairs, sinking = made_up(seed, seed != 2, seed % 2 == 1, fixed_cost=5000 * (seed % 2))
    nodes, best = UnitTexts(made), best_of_all(made, pairs, sinking)
    r = np.random.default_rng(seed)
    for k in range(4):
        prices = r.integers(0, 4_000_000, (2, PERIODS)) * (k > 0)
        assert nodes.total(nodes.closed(Pit(), tmp_path, prices, None).bound, prices) >= best
    with pytest.raises(PlanError, match="BadValue|multipliers"):
        nodes.closed(Pit(), tmp_path, np.full((2, PERIODS), -1), None)


def test_a_bound_is_rounded_up():
    """Of 1.25 units of currency, of which capacities pay 1 or 1,001 billionths of fixed costs, are
    left 1,249,999.999 or 1,249,998.999 millionths."""
    made = made_up(1, fixed_cost=9_000)[0]
    one = tuple((1,) * PERIODS for _ in made.terms.capacities)
    nodes = UnitTexts(replace(made, terms=replace(made.terms, capacities=one)))
    prices = np.zeros((2, PERIODS), np.int64)
    for price, total in ((0, 1_250_000), (1, 1_250_000), (1001, 1_249_999)):
        prices[0, 0] = price
        assert nodes.total("1.25", prices) == total
