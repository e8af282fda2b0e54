"""Slopes by region: the pairs against a plain search, what settings list and what is read back,
what a planner is told."""
import math
import re
import sys
from pathlib import Path

import numpy as np
import pytest
from hypothesis import given, settings, strategies as st

import pitplan as pp
from mines import STUDY_TOML, places_of, rows_of, table, written_study
from pitplan.slopes import slopes as module
from pitplan.base.errors import PlanError
from pitplan.pit.program import Files, Pit
from served import pitplan

sys.path.insert(0, str(Path(__file__).resolve().parents[3] / "tests"))
from program import walls  # noqa: E402  (tests/program/walls.py, which knows nothing of the search)

ANGLES = st.one_of(
    st.integers(35, 55),
    st.lists(
        st.tuples(st.sampled_from([0, 90, 160, 300]), st.integers(42, 46)),
        min_size=1,
        max_size=3,
        unique_by=lambda pair: pair[0],
    ),
)


def model_of(folder, frame, **keys):
    path = folder / "t.csv"
    frame.to_csv(path, index=False)
    return pp.read_table(path, **{**dict(size=(20, 20, 15)), **keys})


def written(folder, slopes, model):
    """The pairs that `pit` makes of the settings, as sets of predecessors by block."""
    places = zip(model.blocks.ix, model.blocks.iy, model.blocks.iz)
    with open(folder / "m.blocks", "w") as file:
        file.writelines(
            "%d %d %d %d 0 0 0 0 %d\n" % (b, *place, region)
            for b, (place, region) in enumerate(zip(places, slopes.region_of(model)))
        )
    (folder / "m.toml").write_text(slopes.settings(model.grid, 4))
    Pit().slopes(Files(folder / "m.blocks", folder / "m.toml"), folder / "m.prec")
    lines = [list(map(int, line.split())) for line in (folder / "m.prec").read_text().splitlines()]
    assert [line[0] for line in lines] == list(range(len(model)))
    assert all(line[1] == len(line) - 2 for line in lines)
    return [set(line[2:]) for line in lines]


@settings(max_examples=8)
@given(
    st.tuples(st.integers(2, 6), st.integers(2, 6), st.integers(2, 6), st.integers(0, 10**6)),
    ANGLES,
    ANGLES,
)
def test_each_block_has_the_slopes_of_its_own_region(tmp_path_factory, made_of, angles, east):
    folder = tmp_path_factory.mktemp("s")
    slopes = pp.Slopes(angles, by="SECTOR", regions={"EAST": east})
    model = model_of(folder, table(*made_of))
    got = written(folder, slopes, model)
    rows = rows_of(folder / "t.csv")
    at = {place: b for b, place in enumerate(places_of(rows))}
    found = slopes.offsets_by_region(model.grid)
    wanted = [
        {
            at[x + i, y + j, z + k]
            for i, j, k in found["EAST" if row["SECTOR"] == "EAST" else "default"]
            if (x + i, y + j, z + k) in at
        }
        for (x, y, z), row in zip(at, rows)
    ]
    assert got == wanted


def test_offsets_lead_the_way_that_bearings_say():
    # the east wall is flat: along x, or along y where the y axis points east
    for rotation, flat in ((0, (1, 0)), (90, (0, 1)), (-90, (0, -1)), (180, (-1, 0))):
        offsets = pp.Slopes([(0, 46), (90, 38), (180, 46), (270, 46)]).offsets_by_region(
            pp.Grid((0, 0, 0), (10, 10, 10), (1, 1, 1), rotation)
        )["default"]
        out = {
            way: max((i * way[0] + j * way[1]) / k for i, j, k in offsets)
            for way in ((0, 1), (1, 0), (0, -1), (-1, 0))
        }
        assert max(out, key=out.get) == flat, rotation
        assert out[flat] == pytest.approx(1 / math.tan(math.radians(38)), rel=0.06), rotation


def test_regions_of_numbers_and_of_empty_cells(tmp_path):
    frame = table(6, 5, 3, 3)
    frame["ZONE"] = np.where(frame.SECTOR == "EAST", 2, 1)
    model = model_of(tmp_path, frame)
    model.blocks["ZONE"] = model.blocks.ZONE.where(
        model.blocks.iz > 0
    )  # floats now, and empty at the bottom
    found = pp.Slopes(45, by="ZONE", regions={"2": 38}).region_of(model)
    assert (found == ((model.blocks.SECTOR == "EAST") & (model.blocks.iz > 0)).to_numpy()).all()


@pytest.mark.parametrize(
    "words, said",
    [
        (dict(angles=95), "from 5 to 89 degrees"),
        (dict(angles="45"), "angles is '45', and has to be degrees"),
        (dict(angles=[[0, 45], [380, 40]]), "a bearing is from 0 to 360"),
        (dict(angles=[[0, 45, 3]]), "has to be degrees"),
        (dict(angles=[[0, 45], [0, 38]]), "two slopes"),
        (dict(angles=True), "has to be degrees"),
        (dict(regions={"EAST": 38}), 'by = "SECTOR"'),
        (dict(by="SECTOR"), "regions = { NORTH = 38 }"),
        (dict(by="SECTOR", regions=[1]), "regions is"),
        (dict(by="SECTOR", regions={"EAST": 3}), r"regions, EAST: a slope is from 5"),
        (dict(levels=0), "levels is 0"),
        (dict(levels=2.5), "levels is 2.5"),
    ],
)
def test_wrong_slopes(words, said):
    with pytest.raises(PlanError, match=said):
        pp.Slopes(**words)


def test_wrong_regions(tmp_path):
    model = model_of(tmp_path, table(4, 4, 3, 1))
    with pytest.raises(PlanError, match="no column 'SECTR'; is 'SECTOR' meant"):
        pp.Slopes(45, by="SECTR", regions={"EAST": 38}).region_of(model)
    with pytest.raises(PlanError, match="no block has SECTOR = EASST; is 'EAST' meant"):
        pp.Slopes(45, by="SECTOR", regions={"EASST": 38}).region_of(model)


REFUSING = """#!/bin/sh
case "$1" in --version|value) exec {pit} "$@";; esac
echo "reason: the offsets give more than 134217728 pairs" >&2
echo "fault: slope TooMany" >&2
exit 3
"""


def test_slopes_of_too_many_pairs_are_told_in_the_planner_s_terms(tmp_path, monkeypatch, program):
    study = written_study(tmp_path / "s")
    assert pitplan("build", study).returncode == 0
    (tmp_path / "pit").write_text(REFUSING.format(pit=program))
    (tmp_path / "pit").chmod(0o755)
    ran = pitplan("shells", study, PIT=str(tmp_path / "pit"))
    assert ran.returncode == 3, ran.stderr
    assert (
        "[slopes] the offsets make more pairs of a block and a predecessor over this model than pit lists, 134,217,728"
        in " ".join(ran.stderr.split())
    )
    assert "try: fewer levels in [slopes], steeper angles, or larger blocks" in " ".join(
        ran.stderr.split()
    )
    assert "TooMany" not in ran.stderr


def test_more_regions_than_pit_takes_are_told():
    most = {f"R{n}": 45 for n in range(63)}
    pp.Slopes(45, by="S", regions=most)
    with pytest.raises(PlanError, match="65 slopes .* pit takes 64"):
        pp.Slopes(45, by="S", regions={**most, "R63": 45})


def test_built_is_what_the_offsets_make():
    grid = pp.Grid((0, 0, 0), (20, 20, 15), (1, 1, 1), 30.0)
    slopes = pp.Slopes(45, by="S", regions={"N": [(0, 38), (180, 46)]})
    found = slopes.built(grid)
    assert found.groupby("region").size().to_dict() == {"default": 24, "N": 24}
    north = found[found.region == "N"].set_index("bearing")
    assert north.asked[0] == 38
    assert north.asked[90] == 42
    assert north.asked[180] == 46
    assert north.asked[270] == 42
    assert ((found.built - found.asked) - found.error).abs().max() < 1e-9
    assert found.error.abs().max() <= 1
    safe = pp.Slopes(45, safe=True).built(grid)
    assert safe.error.max() <= 1e-9
    assert safe.error.min() < 0


def test_a_safe_wall_is_built_flatter_or_not_at_all(tmp_path):
    few = written_study(
        tmp_path / "few",
        text=STUDY_TOML.replace("angles = 45", "angles = 44\nsafe = true\nlevels = 1"),
    )
    ran = pitplan("build", few)
    offsets = re.findall(r"\[(-?\d), (-?\d), 1\]", (few / "model/settings.toml").read_text())
    assert ran.returncode == 0, ran.stderr
    assert sorted(offsets) == sorted(
        (str(i), str(j)) for i in (-1, 0, 1) for j in (-1, 0, 1)
    ), ran.stderr
    flattest = math.degrees(
        math.atan(15 / math.hypot(20, 20))
    )  # the five would have walls of atan(15 * sqrt 2 / 20) = 46.7 degrees
    assert f"44.0 degrees are asked for there, {flattest:.1f} are built" in ran.stderr
    assert "too steep" not in ran.stderr
    assert "try: more levels" in ran.stderr


@pytest.mark.parametrize(
    "angles, where",
    [
        ("angles = 5", "angles"),
        ('angles = 45\nby = "SECTOR"\nregions = { EAST = 5 }', "regions, EAST"),
    ],
)
def test_a_build_refuses_a_safe_wall_that_would_be_too_steep(tmp_path, angles, where):
    text = STUDY_TOML.replace("angles = 45", angles + "\nsafe = true").replace(
        "size = [20, 20, 15]", "size = [2, 2, 15]"
    )
    frame = table(3, 3, 2, 1)
    frame[["XC", "YC"]] /= 10
    study = written_study(tmp_path / "s", frame, text=text)
    for word in ("build", "slopes"):
        ran = pitplan(word, study)
        assert ran.returncode == 3, ran.stderr
        assert "Traceback" not in ran.stderr, ran.stderr
        assert not (study / "model").exists(), ran.stderr
        assert (
            f"[slopes] {where}, safe = true: a wall that is nowhere steeper than asked can't be built in blocks of 2 x 2 x 15"
            in ran.stderr
        )
        assert re.search(
            r"the nearest is [\d.]+ degrees at bearing \d+, where 5\.0 are asked for\n  study.toml:\d+: safe = true\n  try: lower or wider blocks",
            ran.stderr,
        )


def test_angles_that_no_offsets_hold_are_said_by_slopes_and_by_build(tmp_path):
    said = {}
    for name, angles in (
        ("few", "45\nlevels = 1"),
        ("dent", "[[0, 35], [45, 55], [90, 35], [180, 45], [270, 55]]"),
    ):
        cannot = written_study(
            tmp_path / name, text=STUDY_TOML.replace("angles = 45", f"angles = {angles}")
        )
        # the build says it too, and goes on
        runs = [pitplan(word, cannot) for word in ("slopes", "build")]
        assert runs[0].stderr == runs[1].stderr
        assert [ran.returncode for ran in runs] == [0, 0]
        said[name] = runs[0].stderr
    assert (
        "default: 0.5 degrees on average and 1 at the worst bearing can't be held with blocks of 20 x 20 x 15 and levels = 1;"
        in said["few"]
    )
    assert "try: more levels" in said["few"]
    bearing, asked, built = map(
        float,
        re.search(
            r"err most at bearing (\d+): ([\d.]+) degrees are asked for there, ([\d.]+) are built",
            said["dent"],
        ).groups(),
    )
    assert bearing == 45
    assert asked == 55
    assert built < 50
    assert "try: angles that change less" in said["dent"]  # between two flat walls
    bearing, asked, built = map(
        float,
        re.search(
            r"too steep by most at bearing (\d+): ([\d.]+) degrees are asked for there, ([\d.]+) are built",
            said["dent"],
        ).groups(),
    )
    assert built - asked > 1
    assert asked == pytest.approx(
        walls.asked("0:35,45:55,90:35,180:45,270:55", bearing), abs=0.5
    )  # the bearing is told in whole degrees


def test_the_offsets_of_a_wall_are_searched_once(tmp_path, monkeypatch):
    model, events, look = model_of(tmp_path, table(4, 4, 3, 2)), [], module.offsets.search
    monkeypatch.setattr(module, "_FOUND", {})

    def search(wall, **how):
        events.append(wall.slopes[0][1])
        return look(wall, **how)

    monkeypatch.setattr(module.offsets, "search", search)
    for _ in range(2):  # as what-ifs over the same slopes do
        slopes = pp.Slopes(45, by="SECTOR", regions={"EAST": 38, "WEST": 40})
        slopes.patterns(model.grid)
    assert events == [45, 38, 40]
    pp.Slopes(45, safe=True).patterns(model.grid)
    assert events == [45, 38, 40, 45]


def test_a_region_that_is_called_as_the_slopes_of_all_others_is_refused():
    with pytest.raises(
        pp.PlanError, match="'default' is what the slopes of all other blocks are called"
    ):
        pp.Slopes(45, by="SECTOR", regions={"default": 38})


def test_values_without_a_region_of_their_own_are_counted(tmp_path):
    """And blocks whose cell is empty: they have the slopes of all others, too."""
    frame = table(8, 7, 4, 3)
    frame["ZONE"] = np.where(frame.XC < frame.XC.median(), 110, 120).astype(object)
    frame.loc[frame.YC == frame.YC.max(), "ZONE"] = 130
    frame.loc[frame.index[:5], "ZONE"] = None
    text = STUDY_TOML.replace("angles = 45", 'angles = 45\nby = "ZONE"\nregions = { 110 = 38 }')
    ran = pitplan("check", written_study(tmp_path / "s", frame, text))
    assert ran.returncode == 0, ran.stderr
    rock = frame[frame.TONNES > 0].ZONE
    others = {word: int((rock == number).sum()) for word, number in (("120", 120), ("130", 130))}
    others["nothing"] = int(rock.isna().sum())
    others_listed = sorted(others.items(), key=lambda of: -of[1])
    assert (
        f"blocks of rock by region: default {sum(others.values())}, 110 {(rock == 110).sum()}"
        in ran.stdout
    )
    assert (
        "default are those whose ZONE is "
        + ", ".join(f"{word} {count}" for word, count in others_listed)
        in ran.stdout
    )


def test_regions_are_counted_in_blocks_of_rock(tmp_path):
    """Every third row is air, without tonnes, and one cell of the column is empty."""
    frame = table(6, 5, 4, 3)
    frame.loc[::3, "TONNES"] = 0.0
    frame["SECTOR"] = np.where(np.arange(len(frame)) % 4 == 1, "SOUTH", frame.SECTOR)
    frame.loc[2, "SECTOR"] = ""
    slopes, model = pp.Slopes(45, by="SECTOR", regions={"EAST": 40}), model_of(tmp_path, frame)
    counts = frame[frame.TONNES > 0].SECTOR.value_counts().to_dict()
    east = counts.pop("EAST")
    assert slopes.rock_by_region(model) == {"default": sum(counts.values()), "EAST": east}
    assert slopes.rock_of_default(model) == counts
