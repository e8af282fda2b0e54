"""The percent of a block's tonnes that is ore: that part alone has grades and goes to the mill; the
rest is dug with it as waste. All figures are added up from the table in loops."""
import dataclasses
import hashlib
import subprocess
import sys

import numpy as np
import pandas as pd
import pytest

import pitplan as pp
from bundles import bundled
from mines import SIZE, STUDY_TOML, costs, study_of, table
from pitplan.model import grade_tonnage
from pitplan.plans import compare, design, risk
from pitplan.study import pit_by_pit
from pitplan.study.reserves import reserves
from realisations import done

FRAME = table(8, 7, 5, 5).assign(OREPCT=lambda f: [(7 * at) % 101 for at in range(len(f))])
READ = {"columns": {"ore": "OREPCT"}}
ECONOMICS = costs(dilution=0.05, mining_recovery=0.95)


def worked(row, grade=None):
    """What a block brings, what treating and digging it cost, its tonnes of ore and of copper."""
    t, cu = row["TONNES"], row["CU"] if grade is None else grade
    ore = t * row["OREPCT"] / 100
    copper = ore * 0.95 * cu / 100 * 0.85
    treating = ore * 0.95 * 1.05 * (7.5 if row["ROCK"] == "OXI" else 9.0)
    return round(copper * 8500), round(treating), round(2.0 * t), ore, copper


def sums(rows):
    """Rock, ore, its grade, copper, worth."""
    rock = ore = graded = copper = worth = 0.0
    for row in rows:
        brings, treating, digging, of_ore, metal = worked(row)
        rock += row["TONNES"]
        worth += max(0, brings - treating) - digging
        if brings > treating:
            ore, graded, copper = ore + of_ore, graded + of_ore * row["CU"], copper + metal
    return rock, ore, graded / ore if ore else np.nan, copper, worth


@pytest.fixture(scope="module")
def study(tmp_path_factory):
    return study_of(tmp_path_factory.mktemp("ore"), FRAME, economics=ECONOMICS, **READ)


def test_amounts_of_each_block(study):
    for at, row in enumerate(FRAME.to_dict("records")):
        brings, treating, digging, _, copper = worked(row)
        assert study.priced.ways[0].revenue[at] == brings
        assert study.priced.ways[0].processing[at] == treating
        assert study.priced.mining[at] == digging
        assert study.priced.ways[0].metal["copper"][at] == pytest.approx(copper)


def test_tables_have_the_ore_of_the_part_alone(study):
    shells = study.shells([600, 1000, 1200])
    found = shells.table()
    rows = FRAME.to_dict("records")
    for i, line in enumerate(found.to_dict("records")):
        inside = [row for row, dug in zip(rows, shells.holds(i)) if dug]
        rock, ore, grade, copper, worth = sums(inside)
        assert line["rock_t"] == pytest.approx(rock)
        assert line["ore_t"] == pytest.approx(ore)
        assert line["waste_t"] == pytest.approx(rock - ore)
        assert line["feed_t"] == pytest.approx(ore * 0.95 * 1.05)
        assert line["grade_copper"] == pytest.approx(grade)
        assert line["metal_copper"] == pytest.approx(copper)
        assert line["worth_at_base"] == worth
        (page,) = pit_by_pit.amounts_of(study, [shells.holds(i)], 1000).to_dict("records")
        assert page["ore_t"] == pytest.approx(ore)
        assert page["grade_copper"] == pytest.approx(grade)
    benches = shells.benches()
    assert benches.ore_t.sum() == pytest.approx(found.ore_t.iloc[-1])
    lines = grade_tonnage.by_rock(study.model, study.priced, study.manifest["metals"])
    for name in ("OXI", "SUL"):
        _, ore, grade, copper, _ = sums(row for row in rows if row["ROCK"] == name)
        line = lines[lines.rock == name].iloc[0]
        assert line["ore Mt"] == pytest.approx(ore / 1e6)
        assert line["copper %"] == pytest.approx(grade)
        assert line["copper t"] == pytest.approx(copper)


def test_reserves_part_the_ore_from_what_is_dug_with_it(study):
    """By rock and way: the part that is ore goes to the mill, the rest of its block is waste
    without metal."""
    shells = study.shells([600, 1000, 1200])
    inside = [row for row, dug in zip(FRAME.to_dict("records"), shells.holds(1)) if dug]
    found = reserves(study, {"pit": shells.holds(1).astype(int)})
    for rock in ("OXI", "SUL"):
        mill = waste = graded = copper = poor = 0.0
        blocks = {"mill": 0, "waste": 0}
        for row in (row for row in inside if row["ROCK"] == rock):
            brings, treating, _, ore, metal = worked(row)
            is_ore = brings > treating
            blocks["mill" if is_ore else "waste"] += 1
            mill += ore if is_ore else 0
            waste += row["TONNES"] - (ore if is_ore else 0)
            graded += ore * row["CU"] if is_ore else 0
            poor += 0 if is_ore else ore * row["CU"]
            copper += metal if is_ore else 0
        lines = found[found.rock == rock]
        to = {way: lines[lines.to == way] for way in ("mill", "waste")}
        assert to["mill"].rock_t.sum() == pytest.approx(mill)
        assert to["mill"].feed_t.sum() == pytest.approx(mill * 0.95 * 1.05)
        assert to["waste"].rock_t.sum() == pytest.approx(waste)
        assert (to["mill"].grade_copper * to["mill"].rock_t).sum() == pytest.approx(graded)
        assert (to["waste"].grade_copper * to["waste"].rock_t).sum() == pytest.approx(poor)
        assert lines.metal_copper.sum() == pytest.approx(copper)
        assert {way: int(part.blocks.sum()) for way, part in to.items()} == blocks
    assert found.worth.sum() == sums(inside)[4]
    assert found.rock_t.sum() == pytest.approx(sums(inside)[0])


def test_classes_have_the_ore_of_the_part_alone(tmp_path):
    frame = FRAME.assign(CLASS=[("MEA", "IND", "INF")[at % 3] for at in range(len(FRAME))])
    costing = dataclasses.replace(ECONOMICS, waste_classes=("INF",))
    shells = study_of(tmp_path, frame, economics=costing, **READ).shells([600, 1000])
    whole = shells.table().iloc[1]
    for name in ("MEA", "IND"):
        inside = zip(frame.to_dict("records"), shells.holds(1))
        _, ore, grade, copper, _ = sums(r for r, dug in inside if dug and r["CLASS"] == name)
        assert whole[f"class_{name}_ore_t"] == pytest.approx(ore)
        assert ore > 0
        assert whole[f"class_{name}_grade_copper"] == pytest.approx(grade)
        assert whole[f"class_{name}_metal_copper"] == pytest.approx(copper)
    assert whole["class_INF_ore_t"] == 0 < whole["class_INF_rock_t"]


def test_a_design_beside_it(study):
    """What a design leaves is ore by its part."""
    best = study.pit(1.0).mask
    ids = study.model.blocks["id"][best & (study.model.blocks.iz.to_numpy() > 1)]
    drawn = design.by_ids(study.model, [str(name) for name in ids], "top")
    found = compare.compare(study, drawn, 1000).benches
    left = best & ~drawn.held
    rows = [row for row, there in zip(FRAME.to_dict("records"), left) if there]
    assert found.left_ore_t.sum() == pytest.approx(sums(rows)[1])
    assert len(rows) > 0


def test_realisations_keep_the_part(tmp_path):
    study = study_of(tmp_path, FRAME, economics=ECONOMICS, **READ)
    grades = (FRAME.CU.to_numpy() * 1.5).astype(np.float32)
    np.save(tmp_path / "sims.npy", grades[None])
    risk.prepare(study, ECONOMICS, tmp_path / "sims.npy", [1000])
    found = done(study)
    mask = risk.realisation(study, 0).mask(1000)
    total = 0
    for row, grade, dug in zip(FRAME.to_dict("records"), grades, mask):
        brings, treating, digging, _, _ = worked(row, float(grade))
        total += (max(0, brings - treating) - digging) if dug else 0
    assert found.runs.worth[0] == total
    assert found.runs.blocks[0] > 0


@pytest.mark.parametrize(
    "cells, more, words",
    [
        (FRAME.OREPCT / 100, {}, "no cell is above 1, and percents go to 100"),
        (FRAME.OREPCT + 1, {}, "101 is no percent"),
        (FRAME.OREPCT - 1, {"absent": ["-1"]}, "-1 is no percent"),
        (FRAME.OREPCT.astype(str).where(FRAME.index != 3, "x"), {}, "row 5, column OREPCT"),
        (
            FRAME.OREPCT,
            {"regularise": True},
            r"ore = .OREPCT. isn't taken with regularise.*\n.*grades of all tonnes of a sub-block",
        ),
    ],
)
def test_what_is_no_percent_is_told(tmp_path, cells, more, words):
    FRAME.assign(OREPCT=cells).to_csv(tmp_path / "t.csv", index=False)
    with pytest.raises(pp.PlanError, match=words) as error:
        pp.read_table(tmp_path / "t.csv", size=SIZE, **READ, **more)
    assert error.value.key[0] == "model"


TOML = STUDY_TOML.replace('table = "t.csv"', 'table = "t.csv"\ncolumns = { ore = "OREPCT" }')


def test_a_bundle_is_worked_out_again(tmp_path, program):
    folder = bundled(tmp_path, TOML, FRAME)
    words = [sys.executable, folder / "recheck.py", program]
    found = subprocess.run(words, capture_output=True, text=True)
    assert found.returncode == 0, found.stdout
    cells = pd.read_csv(folder / "table/t.csv")
    cells["OREPCT"] = 100 - cells["OREPCT"]
    cells.to_csv(folder / "table/t.csv", index=False)
    digest = hashlib.sha256((folder / "table/t.csv").read_bytes()).hexdigest()
    for name in ("facts.json", "model/manifest.json", "SHA256SUMS"):
        text = (folder / name).read_text()
        (folder / name).write_text(text.replace(hashlib_of(FRAME), digest))
    sums_again(folder)
    found = subprocess.run(words, capture_output=True, text=True)
    assert found.returncode == 1
    assert "not so for" in found.stdout


def hashlib_of(frame):
    """The digest of a table as `written_study` writes it."""
    return hashlib.sha256(frame.to_csv(index=False).encode()).hexdigest()


def sums_again(folder):
    """The digests of a bundle, made again."""
    names = [line.split("  ", 1)[1] for line in (folder / "SHA256SUMS").read_text().splitlines()]
    lines = [f"{hashlib.sha256((folder / n).read_bytes()).hexdigest()}  {n}\n" for n in names]
    (folder / "SHA256SUMS").write_text("".join(lines))
