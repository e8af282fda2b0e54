"""From when on a panel may be dug by all that it rests on, against sets of Python; and the bound by
it, on mines whose every schedule is tried."""
import shutil
from dataclasses import replace

import mines
import numpy as np
import pytest
from bundles import with_schedule
from pitplan import Study
from pitplan.audit import recheck_schedule
from pitplan.pit.program import Pit
from pitplan.schedule import Schedule, production
from pitplan.schedule.cones import first_by_cones
from pitplan.schedule.pairs import Pairs
from pitplan.schedule.search import Search
from pitplan.study.study_file import read_study_file
from tiny_mines import TinyMine

RICH = mines.STUDY_TOML.replace("price = 8500", "price = 24000")
TERMS = "\n[schedule]\nyears = 6\nmining_rate = 500e3\nmill_rate = 400e3\n"


def cones_of(count, pairs):
    """Of each unit all that it rests on and itself; a unit rests on those of lower numbers alone."""
    found = []
    for unit in range(count):
        found.append({unit}.union(*(found[other] for low, other in pairs if low == unit)))
    return found


@pytest.mark.parametrize("count", [1, 9, 64, 65, 200])
@pytest.mark.parametrize("seed", range(3))
def test_it_is_the_first_period_with_room_for_all_that_a_unit_rests_on(count, seed):
    r = np.random.default_rng(seed)
    pairs = {(b, int(r.integers(b))) for b in r.integers(0, count, 3 * count).tolist() if b}
    uses, rooms = r.integers(0, 50, (2, count)), r.integers(1, 8 * count, (2, 5))
    name = r.permutation(count)
    rows = np.array(sorted(pairs), np.int64).reshape(-1, 2)
    turned = np.empty_like(uses)
    turned[:, name] = uses
    found = first_by_cones(Pairs.of(name[rows[:, 0]], name[rows[:, 1]], count), name, turned, rooms)
    for unit, cone in enumerate(cones_of(count, pairs)):
        needs = [sum(int(row[each]) for each in cone) for row in uses]
        fits = [
            t
            for t in range(5)
            if all(need <= row[: t + 1].sum() for need, row in zip(needs, rooms))
        ]
        assert found[name[unit]] == (fits[0] if fits else 5)
    above = [{other for low, other in pairs if low == unit} for unit in range(count)]
    assert by_the_checker(above, uses.tolist(), rooms.tolist()) == found[name].tolist()


def by_the_checker(above, uses, rooms, sent=None):
    """What the bundle's checker says of units of one block each; unit 0 and what follows, each
    after what it rests on."""
    count = len(above)
    periods = recheck_schedule.Periods(
        [0] * len(rooms[0]),
        rooms,
        rooms,
        uses,
        {b: b for b in range(count)},
        None,
        1,
        sent,
        dict.fromkeys(range(count), 0),
        0,
        0,
    )
    return recheck_schedule.cone_periods(periods, list(range(count)), above)


@pytest.mark.parametrize("room, first", [(7, 0), (6, 1), (1, 2)])
def test_a_cone_that_just_fits_is_not_kept_out(room, first):
    """By the package and by the bundle's checker; where a schedule says what is sent, the checker's
    mill keeps nothing out."""
    pairs = Pairs.of(np.array([1]), np.array([0]), 2)
    uses, rooms = [[3, 4], [0, 0]], [[room, 1], [0, 0]]
    ours = first_by_cones(pairs, np.arange(2), np.array(uses), np.array(rooms))
    assert ours.tolist() == by_the_checker([set(), {0}], uses, rooms) == [int(room < 3) * 2, first]
    uses[1] = [1, 1]
    assert by_the_checker([set(), {0}], uses, rooms) == [2, 2]
    assert by_the_checker([set(), {0}], uses, rooms, set())[1] == first


PANELS, BOTH = {"panel": 2}, {"panel": 2, "pushbacks": True, "lead": 1}
CASES = [(seed, kind) for kind in (PANELS, BOTH) for seed in (2, 3, 9, 26)]


@pytest.mark.parametrize(
    "seed, kind", [*CASES, (0, {"pushbacks": True}), (46, {"pushbacks": True})]
)
def test_the_bound_by_cones_is_above_the_best_and_not_above_that_without(tmp_path, kind, seed):
    mine = TinyMine(seed, **kind)
    best, bounds = mine.best(), []
    made = mine.production
    for search in (Search(tmp_path / "cones", made, Pit()), without_cones(tmp_path / "free", made)):
        search.run(0.0, 1e9)
        bounds.append(search.found.bound)
    assert best <= bounds[0] <= bounds[1] * (1 + 1e-4)


def without_cones(folder, made):
    """A search as if each unit might be dug in parts from the first period on."""
    free = replace(made)
    free.__dict__["earliest"] = np.zeros(made.units, np.int64)
    return Search(folder, free, Pit())


def test_of_some_mines_it_is_lower(tmp_path):
    mine = TinyMine(25, panel=2).production
    bounds = []
    for search in (Search(tmp_path / "a", mine, Pit()), without_cones(tmp_path / "b", mine)):
        search.run(0.0, 1e9)
        bounds.append(search.found.bound)
    assert mine.earliest.any()
    assert bounds[0] < 0.99 * bounds[1]


def checked(bundle, monkeypatch, capsys):
    """What the bundle's checker says, in this process."""
    for script in (recheck_schedule, recheck_schedule.recheck):
        monkeypatch.setattr(script, "HERE", bundle)
    return recheck_schedule.main(), capsys.readouterr().out


@pytest.mark.parametrize("more", ["panel = 2\n", "pushbacks = [0.6]\n"])
def test_the_bundles_checker_counts_cones_too(tmp_path, monkeypatch, capsys, more):
    """And refuses a bound by cones that are too heavy, or by units that come a year later than theirs
    says. One that a flow doesn't show changes nothing: the bound is worked out from the flow."""
    bundle, found = with_schedule(tmp_path / "right", mines.table(6, 6, 5, 5), RICH + TERMS + more)
    assert found.production.earliest.any()
    status, said = checked(bundle, monkeypatch, capsys)
    assert status == 0, said
    mine, made = recheck_schedule.read_mine(), found.production
    unit = dict(zip(made.blocks.tolist(), made.unit.tolist()))
    first, other = made.above
    for one, wanted in enumerate(recheck_schedule.of_units(mine.above, unit, True)):
        ours = set(other[first[one] : first[one + 1]].tolist())
        assert {each for each in ours if each < made.units - made.gates} == wanted

    def too_heavy(above, order, uses, capacities):
        """Each cone as if its units used twice as much."""
        return first_by_cones(above, order, 2 * uses, capacities)

    def a_year_late(above, order, uses, capacities):
        """Each unit."""
        return np.minimum(first_by_cones(above, order, uses, capacities) + 1, capacities.shape[1])

    for mistake in (too_heavy, a_year_late):
        monkeypatch.setattr(production, "first_by_cones", mistake)
        wrong, _ = with_schedule(
            tmp_path / mistake.__name__, mines.table(6, 6, 5, 5), RICH + TERMS + more
        )
        monkeypatch.setattr(production, "first_by_cones", first_by_cones)
        status, said = checked(wrong, monkeypatch, capsys)
        assert status == 1, said
        assert said.startswith("WRONG")


def test_a_bound_is_read_for_its_own_panels_alone(tmp_path):
    """One that was found for panels isn't there once the panel is changed, nor the one of blocks
    for panels."""
    with_schedule(tmp_path, mines.table(6, 6, 5, 5), RICH + TERMS + "panel = 2\n")
    plan = read_study_file(tmp_path / "s")
    shells = Study(tmp_path / "s").shells(plan.factors)
    values = plan.values["schedule"]
    assert Schedule.last(shells, values, plan.rates)
    for panel in (None, 3):
        assert Schedule.last(shells, {**values, "panel": panel}, plan.rates) is None
    shutil.rmtree(tmp_path / "s" / "runs" / "schedule")
    assert Schedule.last(shells, values, plan.rates) is None
