"""What recheck.py finds again by code of its own."""
import math
from types import SimpleNamespace

import numpy as np
import pytest
from scipy.spatial import ConvexHull

from pitplan.audit import recheck
from pitplan.slopes import offsets


@pytest.mark.parametrize(
    "place, tonnes, mining, ways, is_strange",
    [
        ((0, 0, 3), 0, 0, [(0, 0)], False),
        ((0, 0, 3), 0, 0, [(0, 0), (0, 0)], False),
        ((0, 0, 1), 0, 0, [(0, 0)], True),
        ((1, 0, 3), 0, 0, [(0, 0)], True),
        ((0, 0, 3), 5, 0, [(0, 0)], True),
        ((0, 0, 3), 0, 7, [(0, 0)], True),
        ((0, 0, 3), 0, 0, [(0, 0), (0, 7)], True),
    ],
)
def test_a_block_without_a_row_is_air_above_ground(place, tonnes, mining, ways, is_strange):
    """It stands above the highest row of its column, weighs nothing and costs nothing."""
    blocks = SimpleNamespace(
        places=[(0, 0, 0), (0, 0, 2), place],
        tonnes=[9, 9, tonnes],
        amounts=[*[recheck.Amounts(((0, 0),), 1)] * 2, recheck.Amounts(tuple(ways), mining)],
    )
    assert recheck.added_without_need(blocks, [0, 1, -1]) == ([2] if is_strange else [])


def offsets_checked(offsets, wall, is_safe=False, levels=None):
    """What recheck.py says of the offsets of a region of that name."""
    said = []
    report = SimpleNamespace(check=lambda holds, what: said.append((holds, what)))
    slopes = {"safe": is_safe, "levels": levels}
    recheck.check_offsets(report, "the offsets of EAST", offsets, wall, slopes)
    return said[0]


@pytest.mark.parametrize("angles, is_safe", [(42, True), ([[0, 38], [90, 45], [300, 42]], False)])
def test_each_offset_that_is_left_out_or_added_is_named(angles, is_safe):
    """Low ones too, of which no deep wall tells anything."""
    found = offsets.search(offsets.wall((20, 20, 10), angles, 30.0), safe=is_safe, levels=4)
    listed = [list(offset) for offset in found.offsets]
    wall = recheck.Wall(recheck.Angles.of(angles), {"size": [20, 20, 10], "rotation": 30.0})
    assert offsets_checked(listed, wall, is_safe, 4)[0]
    assert len(listed) > 9
    for i, offset in enumerate(listed):
        holds, what = offsets_checked(listed[:i] + listed[i + 1 :], wall, is_safe, 4)
        assert (holds, what.partition("; ")[2]) == (False, f"they lack {offset}")
    for more in ([1, -1, 2], [0, 0, 7], [40, 0, 1]):
        holds, what = offsets_checked([*listed, more], wall, is_safe, 4)
        assert (holds, what.partition("; ")[2]) == (False, f"they have too much {more}")
    holds, what = offsets_checked([*listed, listed[3]], wall, is_safe, 4)
    assert (holds, what.partition("; ")[2]) == (False, f"they have too much {listed[3]}")


@pytest.mark.parametrize("seed", range(4))
def test_the_offsets_are_found_again_by_other_code(seed):
    """`fewest` of recheck.py, which shares nothing with pitplan's search."""
    random = np.random.default_rng(seed)
    for _ in range(2):
        size = [20.0, float(random.choice([16, 20, 25])), float(random.choice([10, 15, 20]))]
        bearings = sorted(random.choice(360, random.integers(1, 4), replace=False).tolist())
        angles = [[bearing, random.uniform(36, 55)] for bearing in bearings]
        rotation, is_safe = float(random.choice([0, 17.3, 45])), bool(random.random() < 0.4)
        levels = random.choice([None, 2, 5])
        asked = offsets.wall(size, angles, rotation)
        pattern = offsets.search(asked, safe=is_safe, levels=levels)
        wall = recheck.Wall(recheck.Angles.of(angles), {"size": size, "rotation": rotation})
        again = recheck.fewest(wall, is_safe, levels, set())
        assert sorted(again) == sorted(pattern.offsets), (size, angles, rotation, is_safe, levels)


def test_offsets_that_are_known_by_hand_are_found():
    """A wall that is nowhere steeper than 45 degrees, in cubes over one level: without the corners
    of the square of nine it would be steeper between its sides."""
    wall = recheck.Wall(recheck.Angles.of(45), {"size": [10, 10, 10], "rotation": 0})
    nine = [(i, j, 1) for i in (-1, 0, 1) for j in (-1, 0, 1)]
    assert sorted(recheck.fewest(wall, True, 1, set())) == nine


def dense(pattern, grid, angles, step):
    """The errors of a wall at bearings a small step apart, by SciPy's hull of the offsets: along a
    ray it ends at the nearest of its half planes."""
    (x, y, z), turn = grid["size"], np.radians(grid["rotation"])
    flat = np.array([(i * x / (k * z), j * y / (k * z)) for i, j, k in pattern.offsets])
    east = flat[:, 0] * np.cos(turn) + flat[:, 1] * np.sin(turn)
    north = flat[:, 1] * np.cos(turn) - flat[:, 0] * np.sin(turn)
    planes = ConvexHull(np.column_stack((east, north))).equations
    bearing = np.arange(0, 360, step)
    ray = np.sin(np.radians(bearing)), np.cos(np.radians(bearing))
    ahead = planes[:, :1] * ray[0] + planes[:, 1:2] * ray[1]
    with np.errstate(divide="ignore"):
        out = np.where(ahead > 0, -planes[:, 2:] / ahead, np.inf).min(axis=0)
    known = np.array(angles if isinstance(angles, list) else [[0, angles]], float)
    return np.degrees(np.arctan(1 / out)) - np.interp(bearing, *known.T, period=360)


@pytest.mark.parametrize(
    "angles",
    [
        45,
        [[0, 38], [90, 45], [300, 42]],
        [[0.5, 38], [10.25, 52], [20.75, 38]],
        [[33.3, 30], [213.3, 60]],
    ],
)
@pytest.mark.parametrize("size, rotation", [((20, 20, 15), 0), ((10, 25, 12), 17.3)])
def test_a_wall_errs_at_any_bearing(angles, size, rotation):
    """What recheck.py says is the most of all bearings, and not of those alone that it looks at."""
    pattern = offsets.search(offsets.wall(size, angles, rotation))
    grid = {"size": size, "rotation": rotation}
    wall = recheck.Wall(recheck.Angles.of(angles), grid)
    steeper, least = recheck.Outline(wall, pattern.offsets).extremes(True)
    flatter = -least
    errors = dense(pattern, grid, angles, 0.001)
    assert (steeper, flatter) == pytest.approx((errors.max(), -errors.min()), abs=2e-4)
    assert steeper >= errors.max() - 1e-9
    assert flatter >= -errors.min() - 1e-9


@pytest.mark.parametrize("step", [0.0, -0.1, 1e-320, math.nan])
def test_recheck_refuses_such_a_series_too(step):
    with pytest.raises(recheck.Bad, match="is no series"):
        recheck.series({"from": 0.3, "to": 1.2, "step": step})


FACTS = {
    "table": "t.csv",
    "dialect": {"separator": ",", "decimal": ".", "encoding": "utf-8", "skip": 0},
    "grid": {"origin": [0, 0, 0], "size": [20, 20, 10], "rotation": 0},
    "columns": {**dict(zip(("x", "y", "z", "dx", "dy", "dz"), "XYZABC")), "tonnes": "T"},
    "depth": False,
}


def in_a_bundle(folder, monkeypatch, table, study=""):
    """A folder with this table and this study.toml."""
    (folder / "t.csv").write_text(table)
    (folder / "study.toml").write_text(study)
    monkeypatch.setattr(recheck, "HERE", folder)


@pytest.mark.parametrize(
    "upper, fault",
    [
        ("2.5,20,20,5", None),
        ("2,20,20,6", "the sub-blocks of the block of row 2 fill 1.100 of it"),
        ("3,20,20,5", "row 3 lies over a side of its block"),
    ],
)
def test_sub_blocks_that_fill_more_than_their_block_are_wrong(tmp_path, monkeypatch, upper, fault):
    """By hand: a block 10 m high, of which the lower half is one of two parts."""
    table = f"X,Y,Z,A,B,C,T\n0,0,-2.5,20,20,5,1\n0,0,{upper},1\n"
    in_a_bundle(tmp_path, monkeypatch, table)
    assert recheck.AddedUp(FACTS, [], set()).fault() == fault


@pytest.mark.parametrize(
    "passed, said",
    [
        ("east,north,up", "1 lines below the header are descriptions and no blocks"),
        (
            "m,m,m\n0,0,0",
            "2 lines below the header are descriptions and no blocks: not so in row 3",
        ),
    ],
)
def test_a_block_among_descriptions_that_are_passed_over_is_told(
    tmp_path, monkeypatch, passed, said
):
    in_a_bundle(tmp_path, monkeypatch, f"X,Y,Z\n{passed}\n20,0,0\n")
    facts = FACTS | {"columns": dict(zip("xyz", "XYZ"))}
    facts["dialect"] = FACTS["dialect"] | {"skip": passed.count("\n") + 1}
    lines = []
    report = SimpleNamespace(check=lambda holds, what: lines.append((holds, what)))
    recheck.check_passed(report, recheck.Table(facts, []), facts)
    assert lines == [("not so" not in said, said)]


def test_what_a_block_brings_and_costs_in_another_currency(tmp_path, monkeypatch):
    """By hand: 1,000 t of 2 % copper, half of it recovered, 10 t; of which each is sold for 100 EUR,
    and for 20 EUR of costs. A euro is 1.25 dollars."""
    in_a_bundle(tmp_path, monkeypatch, "X,Y,Z,T,CU\n0,0,0,1000,2\n")
    facts = FACTS | {"columns": {"x": "X", "y": "Y", "z": "Z", "tonnes": "T"}}
    copper = {"name": "copper", "grade": "CU", "price": 100, "selling": 20, "recovery": 0.5}
    plan = {"metals": [copper | {"currency": "EUR"}], "mining": 1, "processing": 3}
    plan |= {"exchange": {"EUR": 1.25}}
    found = recheck.Economics(plan, recheck.Table(facts, []), facts).of_row(0)
    (way,) = found.ways
    assert (way.revenue, way.processing) == pytest.approx((1250, 3000 + 250))
    assert (found.mining, way.metals["copper"]) == pytest.approx((1000, 10))


@pytest.mark.parametrize(
    "ours, theirs, holds",
    [(100.4, 100, True), (100.4, 101, False), (100.5, 101, True), (100.6, 100, False)],
)
def test_an_amount_is_the_nearest_multiple_of_what_it_is_rounded_to(ours, theirs, holds):
    """In whole units: 101 is nearer than a unit to 100.4, and isn't what that is rounded to."""
    of = SimpleNamespace(rounding=1.0)
    assert recheck.Economics.is_near(of, ours, theirs * 10**6) == holds


@pytest.mark.parametrize("first, holds", [(600, True), (800, True), (1000, False), (0, False)])
def test_what_a_block_rests_on_is_dug_with_it_or_before(first, holds):
    """Of a block of the pit at 0.8 and the one above it: by that first pit, or by none."""
    blocks, said = SimpleNamespace(above=lambda block: [1] if block == 0 else []), []
    report = SimpleNamespace(check=lambda holds, what: said.append(holds))
    recheck.check_closed(report, blocks, [800, first])
    assert said == [holds]
