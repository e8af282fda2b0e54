"""Years in which a rate is 0: a mill that starts late, or a mine that stands still."""
import subprocess
import sys
from dataclasses import replace

import pandas as pd
import pytest

from pitplan.audit.recheck import is_rate
from pitplan.audit.recheck_schedule import Asked
from pitplan.pit.program import Pit
from pitplan.schedule import whole_units
from pitplan.schedule.search import Search
from planned import RICH, WEIGHTS, built, of_table, run
from six_blocks import best_of_all, made_up

LATE = """
[schedule]
years = 7
mining_rate = 600e3
mill_rate = [0, 0, 400e3]
"""


def still(seed, rows, **terms):
    """A mine of six blocks without any of some resources in the first period; the rest has room
    for more, so that something pays all the same."""
    made, pairs, sinking = made_up(seed, **terms)
    rooms = [[int(1.5 * room) for room in limits] for limits in made.terms.capacities]
    for row in rows:
        rooms[row][0] = 0
    limits = tuple(map(tuple, rooms))
    return replace(made, terms=replace(made.terms, capacities=limits)), pairs, sinking


@pytest.mark.parametrize(
    "rows, terms",
    [
        ([1], {}),
        ([0], {}),
        ([1], {"chooses": True}),
        ([1, 2], {"chooses": True, "leaches": True}),
        ([0], {"fixed_cost": 900}),
        ([1], {"lead": 1}),
        ([1], {"sinks": True}),
    ],
)
@pytest.mark.parametrize("seed", [1, 2])
def test_the_best_of_all_schedules_is_found_and_is_below_the_bound(tmp_path, seed, rows, terms):
    made, pairs, sinking = still(seed, rows, **terms)
    best = best_of_all(made, pairs, sinking)
    assert best > 0
    search = Search(tmp_path, made, Pit())
    search.run(0.0, 1e9)
    assert search.found.npv == best <= search.found.bound
    used = made.used(search.plan)
    assert used.any()
    assert (used[rows, 0] == 0).all()


@pytest.mark.parametrize("seed", range(3))
def test_a_small_mine_is_looked_through_whole(seed):
    made, pairs, sinking = still(seed, [1], chooses=True)
    found = whole_units.by_whole_units(made, 60.0)
    assert found.is_all
    assert made.npv(found.plan) == best_of_all(made, pairs, sinking)


@pytest.fixture(scope="module")
def mines(tmp_path_factory):
    """A mine whose mill starts in year 3, with its plan by either cut-off."""
    folder = tmp_path_factory.mktemp("late")
    found = {}
    for name, more in (("fixed", ""), ("by year", 'cutoff = "by year"\n')):
        study = built(folder / name.replace(" ", "-"), LATE + more, RICH)
        found[name] = study, run("schedule", study, "--gap", "1", "--minutes", "2")
    return found


@pytest.mark.parametrize("cutoff", ["fixed", "by year"])
def test_nothing_is_milled_before_the_mill_starts(mines, cutoff):
    study, said = mines[cutoff]
    years = pd.read_csv(study / "out" / "schedule.csv").set_index("year")
    assert "feasible" in said
    assert (years.feed_t[years.index < 3] == 0).all()
    assert years.rock_t[years.index < 3].sum() > 0
    assert (years.feed_t[years.index >= 3] > 0).any()
    assert (years.feed_t <= 400e3).all()
    assert years.mill_used[years.index < 3].isna().all()
    assert years.binds.str.contains("mill")[years.index < 3].all()


def test_what_is_dug_before_is_waste_by_the_planners_own_table(mines):
    """Each block goes where it is worth most at the full price: before year 3 only what no mill
    would take is dug, and the worth is that of these rows."""
    study, _ = mines["fixed"]
    dug = of_table(study).dropna(subset=["year"])
    assert not dug[dug.year < 3].milled.any()
    by_hand = sum(WEIGHTS[int(year)] * worth for year, worth in zip(dug.year, dug.worth))
    years = pd.read_csv(study / "out" / "schedule.csv")
    assert years.npv.iloc[-1] == pytest.approx(by_hand, rel=1e-12)


def test_a_bundle_of_such_a_plan_is_checked_without_pit(mines, tmp_path):
    study, _ = mines["by year"]
    run("bundle", study, tmp_path / "b")
    script = tmp_path / "b" / "recheck_schedule.py"
    ran = subprocess.run([sys.executable, script], capture_output=True, text=True)
    assert ran.returncode == 0, ran.stdout + ran.stderr
    assert "the schedule keeps slopes, sink rate and capacities" in ran.stdout


def test_a_bundles_checker_has_the_same_years():
    asked = Asked({}, [[1000], [400, 400, 0]], 0.1)
    assert asked.years([4_500_000.0, 1_300_000.0]) == 6
    assert asked.years([1000.0, 1_300_000.0]) == 4
    assert [asked.room(1, t) for t in range(4)] == [400_000, 400_000, 0, 0]
    assert is_rate([0, 0, 250e3])
    assert not any(map(is_rate, (0, [0, 0], [1, -1], [])))
