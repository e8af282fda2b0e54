"""Slopes by depth and by elevation: regions that a formula gives, against columns that are worked
out from the table by loops."""
import operator
import os
import subprocess
import sys
from collections import Counter

import numpy as np
import pandas as pd
import pytest

import pitplan as pp
from bundles import bundled
from mines import CUBE, STUDY_TOML, WASTE, below, predecessors, study_of, table, written_study
from processes import said

REGIONS = {"TOP": 35, "OLD": [[0, 38], [180, 48]], "2": 52}


def ground_of(frame, height):
    """The top of the highest rock of each column, by its coordinates in plan."""
    found = {}
    for row in frame.itertuples():
        if row.TONNES > 0:
            at = (row.XC, row.YC)
            found[at] = max(found.get(at, -np.inf), row.ZC + height / 2)
    return found


def column_of(frame, height, word):
    """What a function of depth, elevation and row gives for each row of a table."""
    ground = ground_of(frame, height)
    return [
        word(ground.get((row.XC, row.YC), np.nan) - row.ZC, row.ZC, row)
        for row in frame.itertuples()
    ]


def both(folder, frame, formula, word, regions=REGIONS, **keys):
    """Two studies: by the formula, and by a column that has what `word` gives."""
    size = keys.pop("size", (20, 20, 15))
    found = []
    for name, by, rows in (
        ("formula", formula, frame),
        ("column", "REG", frame.assign(REG=column_of(frame, size[2], word))),
    ):
        (folder / name).mkdir()
        slopes = pp.Slopes(45, by=by, regions=regions)
        found.append(study_of(folder / name, rows, slopes, size=size, **keys))
    return found


def prec(study):
    return predecessors(study.where)


def test_a_region_by_depth_and_elevation_is_that_of_a_column(tmp_path):
    """Depths count from the ground of each column, which a hill has at several elevations; a code
    is a word as `by` of a column has it."""
    frame = table(9, 8, 6, 5).assign(DOM=lambda f: np.where(f.XC > 5080, 2, 1))
    formula = "where(below_ground < 20, 'TOP', where(elevation <= 130 and DOM == 1, ' OLD', DOM))"
    ours, theirs = both(
        tmp_path,
        frame,
        formula,
        lambda deep, up, row: "TOP"
        if deep < 20
        else "OLD"
        if up <= 130 and row.DOM == 1
        else str(row.DOM),
    )
    assert prec(ours) == prec(theirs)
    assert len(set(ours.region.tolist())) == 4
    wanted = [v["worth"] for v in theirs.shells([600, 1000]).verdicts]
    assert [v["worth"] for v in ours.shells([600, 1000]).verdicts] == wanted


def test_each_block_has_the_predecessors_of_its_own_region(tmp_path):
    """Block by block, as in a study with these angles alone."""
    frame = table(8, 7, 5, 2)
    lines = {}
    for angle in (35, 52):
        (tmp_path / str(angle)).mkdir()
        alone = study_of(tmp_path / str(angle), frame, pp.Slopes(angle))
        lines[angle] = prec(alone)
    slopes = pp.Slopes(52, by="where(below_ground < 30, 'SOFT', '')", regions={"SOFT": 35})
    study = study_of(tmp_path, frame, slopes)
    ground, b = ground_of(frame, 15), study.model.blocks
    soft = [ground[x, y] - z < 30 for x, y, z in zip(b["XC"], b["YC"], b["ZC"])]
    assert 0 < sum(soft) < len(soft)
    count = len(frame)  # blocks of air that one slope needs and another doesn't come after these

    def needed(line):
        return {block for block in line if block < count}

    assert [needed(line) for line in prec(study)[:count]] == [
        needed(lines[35 if is_soft else 52][n]) for n, is_soft in enumerate(soft[:count])
    ]
    assert lines[35] != lines[52]


@pytest.mark.parametrize("with_rows", [True, False])
def test_air_over_a_cliff_has_the_region_of_the_ground_below_it(tmp_path, with_rows):
    """With rows of air, which lie above the ground; and without, where blocks of air are added, as
    by a column."""
    frame = below(7)
    frame = frame if with_rows else frame[frame.TONNES > 0]
    ours, theirs = both(
        tmp_path,
        frame,
        "where(below_ground > 0 and below_ground < 12, 'TOP', 'OLD')",
        lambda deep, up, row: "TOP" if 0 < deep < 12 else "OLD",
        {"TOP": 40, "OLD": 60},
        size=CUBE,
        economics=WASTE,
    )
    assert prec(ours) == prec(theirs)
    assert len(ours.model) == len(theirs.model) > len(frame) - with_rows


def test_a_model_of_depths_and_one_that_is_turned(tmp_path):
    """z that counts downward: an elevation is its negative; and the depth below the ground stays
    what it is."""
    frame = table(8, 7, 5, 3, rotation=30.0)
    formula = "where(below_ground > 20 and elevation < -110, 'OLD', 'TOP')"
    down = frame.assign(ZC=-frame.ZC + 20)
    slopes = pp.Slopes(45, by=formula, regions={"OLD": 55, "TOP": 38})
    study = study_of(tmp_path, frame.assign(ZC=frame.ZC - 300), slopes, rotation=30)
    (tmp_path / "down").mkdir()
    other = study_of(
        tmp_path / "down",
        down.assign(ZC=300 - frame.ZC),
        slopes,
        rotation=30,
        z="depth",
    )
    assert 0 < (study.region == 1).sum() < len(study.region)
    assert prec(study) == prec(other)


COMPARED = {
    "<": operator.lt,
    "<=": operator.le,
    ">": operator.gt,
    ">=": operator.ge,
    "==": operator.eq,
    "!=": operator.ne,
}


@pytest.mark.parametrize("more", [-0.002, -0.0009, 0.0, 0.0009, 0.002])
@pytest.mark.parametrize("sign", COMPARED)
def test_a_difference_under_a_thousandth_of_a_block_is_none(tmp_path, sign, more):
    """By whole numbers of half blocks: a bound that is a hair off is that of the block itself, on
    either side of the sign; one that is further off isn't."""
    frame = table(8, 7, 5, 5)
    frame.to_csv(tmp_path / "t.csv", index=False)
    model = pp.read_table(tmp_path / "t.csv", size=(20, 20, 15))
    level = ((model.blocks["ZC"] - 100) / 15).round().astype(int)
    halves = 2 * (level.groupby([model.blocks["XC"], model.blocks["YC"]]).transform("max") - level)
    bound = 2 * more if abs(more) > 0.001 else 0
    for formula, wanted in (
        (f"below_ground {sign} {(2.5 + more) * 15!r}", COMPARED[sign](halves + 1, 5 + bound)),
        (f"{(2.5 + more) * 15!r} {sign} below_ground", COMPARED[sign](5 + bound, halves + 1)),
        (f"elevation {sign} {100 + (2 + more) * 15!r}", COMPARED[sign](2 * level, 4 + bound)),
    ):
        slopes = pp.Slopes(45, by=f"where({formula}, 'A', 'B')", regions={"B": 40})
        if wanted.all():
            continue
        found = slopes.region_of(model)
        assert (found == 0).tolist() == wanted.tolist(), formula


def test_a_column_is_compared_as_it_is(tmp_path):
    """The room for rounding is that of our names alone, also where a column has such a name."""
    frame = table(8, 7, 5, 5)
    for name in ("CU", "elevation"):
        rows = frame.assign(**{name: np.where(frame.XC > 5050, 0.501, 0.5)})
        rows.to_csv(tmp_path / "t.csv", index=False)
        model = pp.read_table(tmp_path / "t.csv", columns={"z": "ZC"}, size=(20, 20, 15))
        slopes = pp.Slopes(45, by=f"where({name} > 0.5, 'A', 'B')", regions={"A": 40})
        assert (slopes.region_of(model) == 1).tolist() == (model.blocks["XC"] > 5050).tolist()


def test_the_blocks_of_each_region_are_counted(tmp_path):
    """`check` and `build` say how many, against the table by loops."""
    frame = table(7, 6, 5, 3)
    ground = ground_of(frame, 15)
    words = [
        "SOFT" if ground[row.XC, row.YC] - row.ZC < 25 else "RICH" if row.CU > 0.5 else row.SECTOR
        for row in frame.itertuples()
    ]
    count = Counter(word if word in ("SOFT", "RICH", "EAST") else "default" for word in words)
    wanted = ", ".join(f"{name} {count[name]}" for name in ("default", "SOFT", "RICH", "EAST"))
    folder = written_study(tmp_path / "s", frame, BY_DEPTH)
    for command in ("check", "build"):
        assert f"blocks of rock by region, as the formula has them: {wanted}\n" in said(
            command, folder
        )


def test_wrong_formulas_are_told(tmp_path):
    frame = table(7, 6, 4, 3)
    for by, regions, said in (
        ("below_ground < 20", {"TOP": 40}, r"says yes or no, and no word\n.*where\("),
        (
            "where(below < 20, 'TOP', 'OLD')",
            {"TOP": 40},
            "no column 'below'; is 'below_ground' meant",
        ),
        (
            "where(below_ground < 20, 'TOP', 'OLD')",
            {"TPO": 40},
            "no block has .*TPO; is 'TOP' meant",
        ),
        ("where(below_ground < 20, 'TOP'", {"TOP": 40}, "no column"),
        ("SECTR", {"EAST": 40}, "no column 'SECTR'; is 'SECTOR' meant"),
    ):
        with pytest.raises(pp.PlanError, match=said):
            study_of(tmp_path, frame, pp.Slopes(45, by=by, regions=regions))


def test_a_column_counts_before_a_name_of_ours(tmp_path):
    """A table with a column `elevation` of its own has that one in the formula."""
    frame = table(7, 6, 4, 3).assign(elevation=lambda f: f.ZC * 0 + np.where(f.XC > 5050, 1, 0))
    slopes = pp.Slopes(45, by="where(elevation == 1, 'E', 'W')", regions={"E": 40})
    study = study_of(tmp_path, frame, slopes, columns={"z": "ZC"})
    assert ((study.region == 1) == (study.model.blocks["XC"] > 5050)).all()


BY_DEPTH = STUDY_TOML.replace(
    "angles = 45",
    "angles = 45\nby = \"where(below_ground < 25, 'SOFT', where(CU > 0.5, 'RICH', SECTOR))\"\nregions = { SOFT = 36, RICH = 50, EAST = 42 }",
)


@pytest.mark.parametrize("bound", ["< 25", "<= 22.4999", "<= 22.5001"])
def test_a_bundle_is_checked_by_the_same_regions(tmp_path, bound):
    """By the same room for rounding, too: 22.5 is the depth of the second block."""
    frame = table(7, 6, 5, 3)
    folder = bundled(tmp_path, BY_DEPTH.replace("< 25", bound), frame)

    def rechecked():
        words = [sys.executable, "-I", str(folder / "recheck.py"), os.environ["PIT"]]
        ran = subprocess.run(words, capture_output=True, text=True)
        return ran.stdout + ran.stderr, ran.returncode

    text, status = rechecked()
    assert status == 0, text
    assert "each block is in the region of slopes that its row names" in text, text
    stated = folder / "study.toml"
    stated.write_text(stated.read_text().replace(f"below_ground {bound}", "below_ground < 40"))
    text, status = rechecked()
    assert status == 1, text
    assert "WRONG   each block is in the region" in text, text


def test_of_sub_blocks_a_code_in_the_formula_is_that_of_the_most_tonnes(tmp_path):
    """60 % of domain 3 and 40 % of domain 1 are no domain 2.2; and a grade in the formula stays the
    mean that the metal has."""
    frame = table(7, 6, 4, 3).assign(DX=20.0, DY=20.0, DZ=15.0, DOM=2, CU=0.3)
    whole = frame.iloc[:1]
    parts = [
        whole.assign(IJK=f"p{n}", ZC=whole.ZC + shift, DZ=deep, TONNES=tonnes, DOM=dom, CU=cu)
        for n, (shift, deep, tonnes, dom, cu) in enumerate(
            ((-3.0, 9.0, 6000.0, 3, 0.2), (4.5, 6.0, 4000.0, 1, 1.2))
        )
    ]
    frame = pd.concat([*parts, frame.iloc[1:]], ignore_index=True)
    slopes = pp.Slopes(
        45, by="where(DOM == 3 and CU > 0.55, 'MIX', DOM)", regions={"MIX": 40, "2": 50}
    )
    study = study_of(
        tmp_path, frame, slopes, regularise=True, columns={"dx": "DX", "dy": "DY", "dz": "DZ"}
    )
    assert np.bincount(study.region).tolist() == [0, 1, len(study.model) - 1]
    assert study.priced.grade["copper"][study.region == 1] == pytest.approx(0.6)
