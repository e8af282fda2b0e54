"""The search for offsets: against plain sums, against hulls by shapely, and against the pit that
`pit` finds in a deep model."""
import math
import os
import shutil
import subprocess
import sys
import tomllib
from fractions import Fraction
from pathlib import Path

import pytest
from hypothesis import assume, example, given, settings, strategies as st
from shapely.geometry import LineString, MultiPoint

from pitplan.slopes import offsets as search

TOP = Path(__file__).resolve().parents[3]
sys.path.insert(0, str(TOP / "tests"))
from program import walls  # noqa: E402  (tests/program/walls.py, which knows nothing of the search)

SCRIPT = TOP / "examples" / "offsets.py"
SIZES = st.sampled_from([(10, 10, 10), (20, 20, 10), (25, 25, 15), (20, 10, 12.5), (10, 25, 10)])
BY_BEARING = [(30, 38), (150, 46), (270, 42)]


def sums_of(offsets, levels):
    """Which columns sums of offsets come to on each level, by trying all."""
    reached = [{(0, 0)}]
    for level in range(1, levels + 1):
        reached.append(
            {(x + i, y + j) for i, j, k in offsets if k <= level for x, y in reached[level - k]}
        )
    return reached


def slope_of(asked, offsets, bearing):
    """Degrees of the wall at a bearing: the ray cut with the hull of offset / level, by shapely.
    The model isn't turned."""
    x, y, z = asked.size
    hull = MultiPoint([(i * x / k / z, j * y / k / z) for i, j, k in offsets]).convex_hull
    far = 1e3
    ray = LineString(
        [(0, 0), (far * math.sin(math.radians(bearing)), far * math.cos(math.radians(bearing)))]
    )
    return math.degrees(math.atan2(1, ray.intersection(hull).length))


@example((10, 10, 10), 7, 1)  # offsets of several levels, whose sums matter
@example((25, 25, 15), 7, 1)
@given(SIZES, st.integers(1, 6), st.integers(0, 10))
def test_few_offsets_reach_the_whole_cone_and_nothing_beyond(size, levels, tenths):
    # 45 degrees, so that the cone is known in whole numbers: also where blocks lie on its very edge
    stretch = Fraction(40 + tenths, 40)
    x, y, z = map(Fraction, size)
    reach = [int(stretch * levels * z / side) + 1 for side in (x, y)]
    cone = [
        {
            (i, j)
            for i in range(-reach[0], reach[0] + 1)
            for j in range(-reach[1], reach[1] + 1)
            if (i * x) ** 2 + (j * y) ** 2 <= (stretch * k * z) ** 2
        }
        for k in range(levels + 1)
    ]
    found = []
    for found in search._Cones(search.wall(size, 45), levels).needed(float(stretch)):
        pass
    assert sums_of(found, levels) == cone
    for offset in found:
        less = [other for other in found if other != offset]
        assert offset[:2] not in sums_of(less, offset[2])[offset[2]]


@settings(max_examples=6)
@given(SIZES, st.floats(36, 56), st.booleans())
def test_a_wall_that_is_held_errs_by_no_more_than_is_allowed(size, slope, safe):
    asked = search.wall(size, slope)
    found = search.search(asked, safe=safe)
    off = [slope_of(asked, found.offsets, b) - slope for b in range(0, 360, 3)]
    assume(found.is_held)
    assert sum(map(abs, off)) / len(off) <= 0.5 + 0.02
    assert max(map(abs, off)) <= 1 + 1e-6
    assert (
        max(off) <= 1e-6
        if safe
        else min(off) < 0 < max(off) and abs(sum(off)) / len(off) <= 0.25 + 0.02
    )
    assert sum(off) / len(off) == pytest.approx(found.error.signed, abs=0.02)
    assert max(off) <= found.error.steepest + 1e-6
    assert min(off) >= found.error.flattest - 1e-6
    assert walls.needed(found.offsets)
    assert set(walls.needed(found.offsets)) == set(found.offsets)


@pytest.mark.parametrize(
    "size, slope, levels, offsets, corner, edge",
    [
        ((20, 20, 10), 44, 1, 5, 1 / 2, 2**0.5 / 2),
        ((20, 20, 10), 44, 2, 5, 1 / 2, 2**0.5 / 2),
        ((25, 25, 10), 38, 1, 5, 10 / 25, 2**0.5 * 10 / 25),
        ((20, 20, 10), 52, 2, 9, 2**0.5 / 2, 1),
        ((10, 10, 10), 60, 1, 5, 1, 2**0.5),
        ((50, 50, 5), 89, None, 5, 20, 2**0.5 * 20),
    ],
)
def test_few_levels_make_a_safe_wall_flatter_and_never_steeper(
    size, slope, levels, offsets, corner, edge
):
    """A block out along an axis and so many levels up makes a corner of that tangent, and between
    two of them the wall is steeper by sqrt 2."""
    found = search.search(search.wall(size, slope), safe=True, levels=levels)
    built = [slope_of(found.wall, found.offsets, bearing) for bearing in range(360)]
    assert max(built) <= slope
    assert not found.is_held
    assert len(found.offsets) == offsets
    assert (min(built), max(built)) == pytest.approx(
        [math.degrees(math.atan(tangent)) for tangent in (corner, edge)]
    )


@settings(max_examples=20)
@example((20, 10, 12.5), [(0, 35), (45, 50), (90, 35), (180, 45)], 2)
@given(
    SIZES,
    st.one_of(
        st.integers(20, 70),
        st.lists(
            st.tuples(st.sampled_from([0, 45, 90, 160, 300]), st.integers(30, 60)),
            min_size=2,
            max_size=4,
            unique_by=lambda pair: pair[0],
        ),
    ),
    st.integers(1, 4),
)
def test_no_safe_wall_is_steeper_than_asked(size, angles, levels):
    found = search.search(search.wall(size, angles), safe=True, levels=levels)
    slope = str(angles) if isinstance(angles, int) else ",".join("%d:%d" % pair for pair in angles)
    assert found.levels <= levels
    assert max(steeper(found, slope, range(360))) <= 1e-9


def steeper(found, slope, bearings):
    """By how many degrees a wall is steeper than asked at bearings, by the hull of
    tests/program/walls.py."""
    outline = walls.hull(
        [(i * found.wall.size[0] / k, j * found.wall.size[1] / k) for i, j, k in found.offsets]
    )
    return [
        math.degrees(math.atan2(found.wall.size[2], walls.distance(outline, bearing)))
        - walls.asked(slope, bearing)
        for bearing in bearings
    ]


@pytest.mark.parametrize("levels", [1, 3, 5, None])
def test_the_steepest_of_a_safe_wall_is_that_of_all_bearings(levels):
    """Where the slope changes with the bearing, also between one degree and the next."""
    found = search.search(search.wall((20, 20, 10), BY_BEARING), safe=True, levels=levels)
    off = steeper(found, "30:38,150:46,270:42", [b / 64 for b in range(360 * 64)])
    assert max(off) <= found.error.steepest + 1e-9 <= max(off) + 1e-6
    assert found.error.steepest <= 1e-9
    at = found.steepest_at()
    assert steeper(found, "30:38,150:46,270:42", [at]) == pytest.approx([max(off)], abs=1e-5)


def test_a_safe_wall_that_no_offsets_make_is_refused(monkeypatch):
    with pytest.raises(
        search.TooSteep,
        match="in blocks of 2 x 2 x 15 .* at bearing [0-9]+, where 5.0 are asked for; take lower or wider blocks",
    ):
        search.search(
            search.wall((2, 2, 15), 5), safe=True
        )  # 85 blocks out at the first level: 23,000 offsets
    assert search.search(search.wall((2, 2, 15), 5)).error.is_too_steep
    asked = search.wall((20, 20, 10), 44)
    with pytest.raises(
        search.TooSteep, match="the nearest is 90.0 degrees at bearing 0, where 44.0 are asked for"
    ):
        search.search(asked, safe=True, fits=lambda offsets: len(offsets) <= 4)
    assert (
        search.search(asked, safe=True, fits=lambda offsets: len(offsets) <= 5).offsets
        == search.search(asked, safe=True, levels=1).offsets
    )
    monkeypatch.setattr(search, "OFFSETS", 4)
    with pytest.raises(search.TooSteep):
        search.search(asked, safe=True)


def test_any_safe_wall_goes_before_any_that_is_too_steep():
    steep, flat = search.Error(0.01, 0, 1e-3, -0.01), search.Error(80, -80, -70, -84)
    assert flat.badness(True) < steep.badness(True) < search.Error(0.01, 0, 2, -0.01).badness(True)
    assert not search.Error(0.2, -0.2, 0.0, -0.9).is_too_steep
    assert search.Error(0.2, -0.2, 0.0, -0.9).badness(True) <= 1


def test_usual_walls_are_held():
    for size, slope in (
        ((10, 10, 10), 45),
        ((20, 20, 10), 45),
        ((25, 25, 15), 45),
        ((10, 10, 10), 38),
        ((25, 25, 15), 52),
        ((20, 20, 15), [(0, 45), (90, 45), (180, 38), (270, 45)]),
        ((20, 20, 10), BY_BEARING),
    ):
        assert search.search(search.wall(size, slope)).is_held, (size, slope)


def test_known_patterns_err_as_trigonometry_says():
    asked = search.wall((10, 10, 10), 45)
    diagonal = math.degrees(math.atan(math.sqrt(2)))  # of a diamond one block out along the axes
    five = search.error_of(asked, search.Outline(asked, walls.named("five")))
    assert five.steepest == pytest.approx(diagonal - 45)
    assert five.flattest == pytest.approx(0)
    nine = search.error_of(asked, search.Outline(asked, walls.named("nine")))
    assert nine.flattest == pytest.approx(90 - diagonal - 45)
    assert nine.steepest == pytest.approx(0)
    assert not search.search(asked, levels=1).is_held
    for pattern, needed, mean, steepest, flattest in (
        ("cone:3:1:1", 9, 2.3, 3.2, 0),
        ("cone:5:1:1", 17, 0.8, 1.5, 0),
        ("cone:5:51:50", 25, 0.1, 0.5, -0.7),
    ):
        error = search.error_of(
            asked, search.Outline(asked, walls.named(pattern))
        )  # measured in pits by a planner
        assert len(walls.needed(walls.named(pattern))) == needed
        assert (error.signed, error.steepest, error.flattest) == pytest.approx(
            (mean, steepest, flattest), abs=0.15
        )


@pytest.mark.parametrize(
    "size, angles, slope, rotation",
    [((10, 10, 10), 45, "45", 0), ((20, 10, 10), BY_BEARING, "30:38,150:46,270:42", 25)],
)
def test_the_wall_is_the_hull_of_offset_over_level(
    program, tmp_path, size, angles, slope, rotation
):
    found = search.search(search.wall(size, angles, rotation))
    listed = f"offsets = {[list(offset) for offset in found.offsets]}\n"
    pit = pit_of(program, tmp_path, walls.Deep(size, 46, 38, out=16), listed)
    deep = walls.Deep(size, 46, 38, out=16)
    assert not deep.touches_the_edge(pit)
    bearings = [22.5 * i for i in range(16)]
    measured = deep.walls(
        pit, [bearing - rotation for bearing in bearings]
    )  # it measures by the model's own y axis
    off = [is_now - walls.asked(slope, bearing) for is_now, bearing in zip(measured, bearings)]
    assert sum(map(abs, off)) / 16 <= 0.6
    assert max(map(abs, off)) <= 1.2  # few levels: a wall without end errs by less
    assert measured == pytest.approx([found.built(bearing) for bearing in bearings], abs=0.75)


def pit_of(program, folder, deep, settings):
    """The blocks that `pit` digs in a deep model."""
    deep.write(folder, "deep")
    (folder / "wall.toml").write_text(settings)
    for words in (
        ["slopes", "--blocks", "deep.blocks", "--pattern", "settings", "--settings", "wall.toml"],
        ["solve", "--prec", "deep.prec", "--upit", "deep.upit"],
    ):
        with open(folder / ("deep.prec" if words[0] == "slopes" else "deep.cert"), "w") as out:
            subprocess.run([program, *words], cwd=folder, stdout=out, check=True)
    return [
        int(line[4:])
        for line in (folder / "deep.cert").read_text().splitlines()
        if line.startswith("PIT ")
    ]


@pytest.mark.parametrize("rotation, size", [(-75.5, (20, 10, 10)), (180, (20, 10, 10))])
def test_a_turned_model_has_the_same_slopes_by_the_compass(rotation, size):
    asked = search.wall(size, BY_BEARING, rotation)
    found = search.search(asked)
    assert all(
        abs(found.built(b) - walls.asked("30:38,150:46,270:42", b))
        <= (1 if found.is_held else found.error.worst) + 1e-6
        for b in range(0, 360, 7)
    )


def test_a_dent_is_filled_and_told():
    asked = search.wall(
        (10, 10, 10), [(0, 36), (90, 55), (180, 36), (270, 55)]
    )  # steep between flat: the hull is flatter there
    found = search.search(asked, levels=7)
    assert not found.is_held
    assert found.error.flattest < -1
    assert found.built(90) - 55 == pytest.approx(slope_of(asked, found.offsets, 90) - 55)
    assert found.built(90) - 55 < -0.5


def test_what_a_large_model_has_room_for(monkeypatch):
    asked = search.wall((10, 10, 10), 45)
    ten_million = search.search(asked, fits=search.within(10_000_000))
    assert len(ten_million.offsets) * 10_000_000 <= 2**27
    assert not ten_million.is_held
    assert ten_million.error.worst < 4
    assert search.search(asked, fits=search.within(5_000_000)).is_held
    with pytest.raises(search.SlopeError, match="not even one offset"):
        search.search(asked, fits=search.within(2**27 + 1))
    monkeypatch.setattr(search, "OFFSETS", 24)  # of 25 that hold it
    few = search.search(asked)
    assert len(few.offsets) <= 24
    assert not few.is_held


@pytest.mark.parametrize(
    "size, angles, said",
    [
        ((10, 10, 0), 45, "three sizes above 0"),
        ((10, 10), 45, "three sizes"),
        ((10, 10, 10), 4, "from 5 to 89"),
        ((10, 10, 10), 90, "from 5 to 89"),
        ((10, 10, 10), [(0, 45), (400, 38)], "from 0 to 360"),
        ((10, 10, 10), [(0, 45), (360, 38)], "two slopes"),
        ((10, 10, 10), [], "no slope"),
        ((10, 10, 10), float("nan"), "from 5 to 89"),
    ],
)
def test_what_cannot_be_meant(size, angles, said):
    with pytest.raises(search.SlopeError, match=said):
        search.wall(size, angles)


def script(*words):
    return subprocess.run(
        [sys.executable, "-I", "-S", str(SCRIPT), *words], capture_output=True, text=True
    )  # the standard library alone


def test_the_script_writes_the_offsets_of_the_search():
    ran = script("20", "20", "10", "30:38,150:46,270:42", "--rotation", "-30")
    found = search.search(search.wall((20, 20, 10), BY_BEARING, -30))
    assert ran.returncode == 0
    assert walls.offsets_in(ran.stdout) == list(found.offsets)
    assert ran.stderr.strip() == str(found)
    safe = script("10", "10", "10", "45", "--safe")
    assert "at most 0.00 steeper" in safe.stderr
    assert "warning" not in safe.stderr
    few = script("20", "20", "10", "44", "--safe", "--levels", "1")
    assert set(walls.offsets_in(few.stdout)) == set(walls.named("five"))
    assert "at most 0.00 steeper and 17.43 flatter" in few.stderr
    assert few.stderr.startswith("warning")
    none = script("20", "20", "10", "44", "--safe", "--blocks", str(2**25))
    assert none.returncode == 2
    assert not none.stdout
    assert "the nearest is 90.0 degrees at bearing 0, where 44.0 are asked for" in none.stderr
    large = script("10", "10", "10", "45", "--blocks", "10000000")
    assert large.returncode == 0
    assert "can't be held with the 13 offsets that 10,000,000 blocks leave room for" in large.stderr


@pytest.mark.parametrize(
    "words, said",
    [
        (("10", "10", "10"), "SLOPE"),
        (("10", "x", "10", "45"), "the size of a block along y is 'x'"),
        (("10", "10", "10", "45°"), "the slope is '45°'"),
        (("10", "10", "10", "0:45,38"), "among the slopes by bearing is '38'"),
        (("10", "10", "10", "0:45,9o:38"), "a bearing is '9o'"),
        (("10", "10", "10", "0:45,90:"), "the slope at bearing 90 is ''"),
        (("10", "10", "10", "1"), "from 5 to 89 degrees"),
        (("10", "10", "10", "45", "--levels", "0"), "levels are from 1"),
        (("10", "10", "10", "45", "--blocks", "-3"), "-3 blocks"),
    ],
)
def test_wrong_words_of_the_script(words, said):
    ran = script(*words)
    assert ran.returncode == 2
    assert said in ran.stderr
    assert not ran.stdout
    assert "Traceback" not in ran.stderr


@pytest.mark.parametrize("angles", [45, BY_BEARING, [(0, 35), (45, 50), (90, 35), (180, 45)]])
@pytest.mark.parametrize("safe", [False, True])
def test_nothing_better_is_passed_over(angles, safe):
    """What the search leaves out unlooked at, since it can't be better, isn't: all cones and levels
    are judged one by one."""
    asked = search.wall((20, 20, 10), angles, 30)
    cones = search._Cones(asked, 7)
    stretches = cones.cuts(search.NARROWEST, 40)
    found = search._best(cones, asked, safe, search.within(0), stretches)
    every = []
    for stretch in stretches:
        for offsets in cones.needed(stretch):
            error = search.error_of(asked, search.Outline(asked, offsets), safe)
            every.append(rank(len(offsets), error.badness(safe)))
    assert rank(len(found.offsets), found.error.badness(safe)) == pytest.approx(
        min(every), rel=2e-6
    )


def rank(count, badness):
    """By what patterns are told apart: those that hold by their offsets, the others by how much
    they err."""
    return (0, count, badness) if badness <= 1 + 1e-6 else (1, badness, 0)


FEET = 1 / 0.3048
TWO_TO_ONE = math.degrees(math.atan(2))


@pytest.mark.parametrize("safe", [False, True])
@pytest.mark.parametrize("angle", [TWO_TO_ONE, math.degrees(math.atan(0.5)), 45.0, 55.0])
def test_a_size_off_in_its_eighth_digit_changes_no_offset(angle, safe):
    """Blocks of 20 x 20 x 10 m in feet with seven decimals, and one side a ten-millionth of a metre
    longer: where a column of blocks lies on the very edge of a cone, it does there too."""
    wanted = search.search(search.wall((20, 20, 10), angle), safe=safe)
    for size in (
        [round(side * FEET, 7) for side in (20, 20, 10)],
        (20, 20.0000001, 10),
        (20.0000001, 20.0000001, 10),
        (19.9999999, 20, 10),
    ):
        found = search.search(search.wall(size, angle), safe=safe)
        assert found.offsets == wanted.offsets, size
    assert search.search(search.wall((20.002, 20, 10), 45)).offsets != (
        search.search(search.wall((20, 20, 10), 45)).offsets
    )  # a size that is really another has other offsets


def test_steeper_by_less_than_a_millionth_is_as_steep():
    """By the tangents: 1.0000005 is 1, and 1.000003 isn't."""
    for tangent, is_steep in ((1.0000005, False), (1.000003, True)):
        off = math.degrees(math.atan(tangent)) - 45
        assert search.Error(0.1, 0, off, -0.1).is_too_steep is is_steep


def test_the_script_writes_slopes_of_regions(tmp_path):
    """A list for each slope, as `pit` reads them beside blocks; what is told of each wall comes on
    standard error."""
    words = [sys.executable, SCRIPT, "20", "20", "10", "44", "0:34,180:40"]
    refused = subprocess.run(words, capture_output=True, text=True)
    assert refused.returncode == 2
    assert refused.stderr.endswith("several slopes are those of regions: add --slopes\n")
    ran = subprocess.run([*words, "--slopes"], capture_output=True, text=True, check=True)
    patterns = [
        search.search(search.wall((20, 20, 10), angles)) for angles in (44, [(0, 34), (180, 40)])
    ]
    assert ran.stderr.splitlines() == [str(pattern) for pattern in patterns]
    assert tomllib.loads(ran.stdout) == {
        "slopes": [[list(offset) for offset in pattern.offsets] for pattern in patterns],
        "up": "plus",
    }
    assert "add a line `region = N`" in ran.stdout
    (tmp_path / "two.toml").write_text(ran.stdout + "region = 0\n")
    (tmp_path / "two.blocks").write_text("0 3 3 0 1\n1 3 3 1 0\n2 3 4 1 0\n3 4 4 1 1\n")
    pit = [os.environ["PIT"], "slopes", "--pattern", "settings"]
    files = ["--blocks", tmp_path / "two.blocks", "--settings", tmp_path / "two.toml"]
    made = subprocess.run([*pit, *files], capture_output=True, text=True, check=True)
    at = {(0, 0, 1): 1, (0, 1, 1): 2, (1, 1, 1): 3}
    above = [at[offset] for offset in patterns[1].offsets if offset in at]
    assert made.stdout.splitlines()[0] == " ".join(map(str, [0, len(above), *sorted(above)]))


def test_a_copied_script_finds_an_installed_pitplan(tmp_path):
    """As of /usr/share/doc/pitplan/examples, with nothing of the repository beside it; the Python
    that runs it has no packages."""
    copied = Path(shutil.copy(SCRIPT, tmp_path / "offsets.py"))
    words = ["-I", "-S", copied, "20", "20", "10", "44"]
    lost = subprocess.run(
        [sys.executable, *words], capture_output=True, text=True, env={"PATH": str(tmp_path)}
    )
    assert lost.returncode == 1
    assert (
        lost.stderr
        == "offsets.py: no pitplan is installed: install it, or run this script where it lies in the repository\n"
    )
    wanted = subprocess.run(
        [sys.executable, SCRIPT, *words[3:]], capture_output=True, text=True
    ).stdout
    with_packages = subprocess.run(
        [sys.executable, *words[2:]],
        capture_output=True,
        text=True,
        env={"PATH": str(tmp_path), "PYTHONPATH": str(TOP / "python")},
    )
    assert wanted.startswith("# 44 degrees"), with_packages.stderr
    assert with_packages.stdout == wanted, with_packages.stderr
    for where in ("lib/pontihaw", "lib/python3/dist-packages"):
        root = tmp_path / where.replace("/", "-")
        (root / where / "pitplan" / "slopes").mkdir(parents=True)
        shutil.copy(
            TOP / "python" / "pitplan" / "slopes" / "offsets.py",
            root / where / "pitplan" / "slopes",
        )
        (root / "bin").mkdir()
        (root / "bin" / "pitplan").write_text("#!/bin/sh\n")
        (root / "bin" / "pitplan").chmod(0o755)
        ran = subprocess.run(
            [sys.executable, *words],
            capture_output=True,
            text=True,
            env={"PATH": str(root / "bin")},
        )
        assert ran.stdout == wanted, ran.stderr
