"""Tonnes by a formula and by the percent of a block that is rock: each study is the one whose
tonnes were worked out in loops."""
import hashlib
import json
import re
import subprocess
import sys
import tomllib

import numpy as np
import pandas as pd
import pytest

import pitplan as pp
from bundles import bundled
from mines import SIZE, STUDY_TOML, costs, study_of, table
from pitplan.model import weights

FRAME = table(8, 7, 5, 5).assign(
    SG=lambda f: 2.0 + (np.arange(len(f)) % 7) / 10,
    TOPO=lambda f: np.where(f.ZC >= 145, 37.5, 100.0),
)
BARE = FRAME.drop(columns="TONNES")


def by_hand(rule):
    """The table with a column of tonnes by a rule, row by row."""
    return FRAME.assign(TONNES=[rule(row) for row in FRAME.to_dict("records")])


@pytest.mark.parametrize(
    "frame, keys, rule",
    [
        (FRAME, {"tonnes": "SG * 6000"}, lambda row: row["SG"] * 6000),
        (
            BARE,
            {"tonnes": "where(ROCK == 'OXI', 2.1, SG) * 20 * 20 * 15"},
            lambda row: (2.1 if row["ROCK"] == "OXI" else row["SG"]) * 6000,
        ),
        (FRAME, {"tonnes": 12500}, lambda row: 12500),
        (
            FRAME,
            {"columns": {"topography": "TOPO"}},
            lambda row: row["TONNES"] * row["TOPO"] / 100,
        ),
        (
            BARE,
            {"columns": {"topography": "TOPO"}},
            lambda row: row["SG"] * 6000 * row["TOPO"] / 100,
        ),
        (
            FRAME,
            {"columns": {"topography": "TOPO"}, "tonnes": "SG * 6000"},
            lambda row: row["SG"] * 6000 * row["TOPO"] / 100,
        ),
    ],
)
def test_a_study_is_that_of_tonnes_written_by_hand(tmp_path, frame, keys, rule):
    (tmp_path / "own").mkdir()
    own = study_of(tmp_path / "own", by_hand(rule))
    found = study_of(tmp_path, frame, **keys)
    assert found.model.blocks.tonnes.tolist() == pytest.approx(own.model.blocks.tonnes.tolist())
    ours, theirs = found.pit(1.0), own.pit(1.0)
    assert (ours.count, ours.worth) == (theirs.count, theirs.worth)
    assert weights.WEIGHT not in found.model.blocks.columns


def test_formulas_of_costs_see_the_columns_as_they_stand(tmp_path):
    """Topography takes its part of the tonnes alone: a formula over SG has the density of the table."""
    model = study_of(tmp_path, BARE, columns={"topography": "TOPO"}).model
    assert model.blocks.SG.tolist() == pytest.approx(BARE.SG.tolist())
    priced = costs(mining="SG").priced(model)
    for row, cost in zip(BARE.to_dict("records"), priced.mining):
        assert cost == round(row["SG"] * row["SG"] * 6000 * row["TOPO"] / 100)


@pytest.mark.parametrize(
    "frame, keys, words",
    [
        (FRAME, {"tonnes": "SGG * 6000"}, r"\[model\] tonnes = .*no column 'SGG'; is 'SG' meant"),
        (FRAME, {"tonnes": "SG *"}, "is no formula"),
        (FRAME, {"tonnes": "SG - 2.3"}, r"row \d+.*less than nothing"),
        (FRAME, {"tonnes": "1 / (ZC - 100)"}, r"gives no number here"),
        (
            FRAME.assign(TOPO=FRAME.TOPO / 100),
            {"columns": {"topography": "TOPO"}},
            "no cell is above 1, and percents go to 100",
        ),
        (
            FRAME.assign(TOPO=np.where(FRAME.index == 3, 101.0, 100.0)),
            {"columns": {"topography": "TOPO"}},
            "row 5, column TOPO: 101 is no percent",
        ),
        (
            FRAME.assign(TOPO=np.where(FRAME.index == 3, -99.0, 100.0)),
            {"columns": {"topography": "TOPO"}, "absent": ["-99"]},
            "row 5, column TOPO: -99 is no percent",
        ),
        (
            BARE.drop(columns="SG"),
            {"columns": {"topography": "TOPO"}},
            "no column is known as tonnes or density",
        ),
    ],
)
def test_what_weighs_nothing_known_is_told(tmp_path, frame, keys, words):
    frame.to_csv(tmp_path / "t.csv", index=False)
    with pytest.raises(pp.PlanError, match=words) as error:
        pp.read_table(tmp_path / "t.csv", size=SIZE, **keys)
    assert error.value.key[0] == "model"


def test_a_hint_of_a_column_names_those_that_are_known_too(tmp_path):
    """It comes in place of the table that stands there, so that x, y and z aren't lost."""
    BARE.drop(columns="SG").rename(columns={"XC": "este"}).to_csv(tmp_path / "t.csv", index=False)
    with pytest.raises(pp.PlanError) as error:
        pp.read_table(tmp_path / "t.csv", size=SIZE, columns={"x": "este"})
    found = re.search(r"(columns = .*) in \[model\]", str(error.value))[1]
    facts = tomllib.loads(found.replace("...", "weight"))["columns"]
    assert facts == {**facts, "x": "este", "y": "YC", "z": "ZC", "tonnes": "weight"}


def test_a_mark_counts_only_where_the_formula_reads_it(tmp_path):
    frame = FRAME.assign(SG=np.where(FRAME.index == 3, -99, FRAME.SG))
    frame.drop(columns="TONNES").to_csv(tmp_path / "t.csv", index=False)
    read = {"size": SIZE, "absent": ["-99"]}
    assert pp.read_table(tmp_path / "t.csv", tonnes=9000, **read).unweighed == {}
    found = pp.read_table(tmp_path / "t.csv", tonnes="SG * 6000", **read)
    assert sum(found.unweighed.values()) == 1
    assert found.blocks.tonnes[3] == 0


WEIGHED = STUDY_TOML.replace(
    'table = "t.csv"',
    'table = "t.csv"\ncolumns = { topography = "TOPO" }\ntonnes = "where(ROCK == \'OXI\', 2.1, SG) * 6000"',
)


def rechecked(folder, pit):
    words = [sys.executable, folder / "recheck.py", pit]
    return subprocess.run(words, capture_output=True, text=True)


def test_a_bundle_is_weighed_again(tmp_path, program):
    folder = bundled(tmp_path, WEIGHED, BARE)
    found = rechecked(folder, program)
    assert found.returncode == 0, found.stdout
    assert "the tonnage of each block is that of its row" in found.stdout
    study = folder / "study.toml"
    text = study.read_text()
    for old, new, words in (
        ("2.1, SG", "2.2, SG", "the tonnage of each block is that of its row: not so for"),
        ("* 6000", "* NO", "which is no column of"),
        ("* 6000", "* tonnes", "tonnes, which is no column of"),
        ('topography = "TOPO"', "", "the tonnage of each block is that of its row: not so for"),
    ):
        study.write_text(text.replace(old, new))
        if not new:
            forget(folder / "facts.json")
        sums(folder)
        found = rechecked(folder, program)
        assert found.returncode == 1
        assert words in re.sub("[\"']", "", found.stdout), found.stdout


def forget(facts):
    """Takes the column of topography out of what a bundle says of its table."""
    kept = json.loads(facts.read_text())
    assert kept["columns"].pop("topography") == "TOPO"
    facts.write_text(json.dumps(kept))


def sums(folder):
    """The digests of a bundle, made again."""
    lines = []
    for line in (folder / "SHA256SUMS").read_text().splitlines():
        name = line.split("  ", 1)[1]
        lines.append(f"{hashlib.sha256((folder / name).read_bytes()).hexdigest()}  {name}\n")
    (folder / "SHA256SUMS").write_text("".join(lines))


def in_parts():
    """A mine whose blocks of the lower benches are cut into two sub-blocks of 9 and 6 m, each with
    a density, a grade and a part that is rock."""
    r = np.random.default_rng(7)
    whole = table(6, 5, 4, 3).drop(columns="TONNES").assign(XINC=20.0, YINC=20.0, ZINC=15.0)
    cut = whole[whole.ZC < 120]
    lower, upper = cut.assign(ZC=cut.ZC - 3, ZINC=9.0), cut.assign(ZC=cut.ZC + 4.5, ZINC=6.0)
    frame = pd.concat([whole[whole.ZC >= 120], lower, upper], ignore_index=True)
    frame["SG"], frame["TOPO"] = r.uniform(2, 3, len(frame)).round(2), r.integers(
        20, 101, len(frame)
    )
    frame["CU"] = r.uniform(0, 2, len(frame)).round(3)
    return frame


@pytest.mark.parametrize(
    "keys, weigh",
    [
        ({"tonnes": "SG * XINC * YINC * ZINC"}, lambda f: f.SG * 400 * f.ZINC),
        (
            {"tonnes": "SG * XINC * YINC * ZINC", "columns": {"topography": "TOPO"}},
            lambda f: f.SG * 4 * f.ZINC * f.TOPO,
        ),
        (
            {"columns": {"topography": "TOPO", "density": "SG"}},
            lambda f: f.SG * 4 * f.ZINC * f.TOPO,
        ),
    ],
)
def test_sub_blocks_are_weighed_and_added_up(tmp_path, keys, weigh):
    """By pandas: the tonnes of each block are the sum of those of its parts, its grade their mean
    by tonnes."""
    frame = in_parts()
    frame.to_csv(tmp_path / "t.csv", index=False)
    model = pp.read_table(tmp_path / "t.csv", size=SIZE, regularise=True, **keys)
    frame["T"] = weigh(frame)
    frame["of"] = list(zip(frame.XC, frame.YC, ((frame.ZC - 92.5) // 15).astype(int)))
    groups = frame.assign(metal=frame["T"] * frame.CU).groupby("of")
    wanted = groups[["T", "metal"]].sum()
    x, y, z = model.xyz()
    found = list(zip(x, y, ((z - 92.5) // 15).astype(int)))
    assert len(found) == len(wanted) < len(frame)
    assert model.blocks.tonnes.to_numpy() == pytest.approx(wanted["T"][found].to_numpy())
    grades = (wanted.metal / wanted["T"])[found].to_numpy()
    assert model.numbers("CU", "a grade") == pytest.approx(grades)


IN_PARTS = WEIGHED.replace("2.1, SG) * 6000", "2.1, SG) * XINC * YINC * ZINC").replace(
    "size = [20, 20, 15]", "size = [20, 20, 15]\nregularise = true"
)


def test_a_bundle_of_weighed_sub_blocks_is_worked_out_again(tmp_path, program):
    """What is changed in one part, its density, its share of rock or its grade, is found."""
    folder = bundled(tmp_path, IN_PARTS, in_parts())
    found = rechecked(folder, program)
    assert found.returncode == 0, found.stdout
    path = folder / "table" / "t.csv"
    rows = pd.read_csv(path)
    at = int(rows.index[(rows.ZINC == 6) & (rows.ROCK == "SUL")][0])
    for name, value, shown in (
        ("SG", 9.0, "the tonnage of each block"),
        ("TOPO", 3, "the tonnage of each block"),
        ("CU", 2.5, "what each block brings and costs"),
    ):
        rows.assign(**{name: rows[name].where(rows.index != at, value)}).to_csv(path, index=False)
        sums(folder)
        found = rechecked(folder, program)
        assert found.returncode == 1, (name, found.stdout)
        assert shown in found.stdout, (name, found.stdout)
