"""Pushbacks against pandas on the planner's own table."""
import math
from types import SimpleNamespace

import numpy as np
import pandas as pd
import pytest

import pitplan as pp
from mines import STUDY_TOML, TWO_METALS, costs, study_of, table, written_study
from pitplan.plans.phases import Phases
from plain_widths import plain
from served import pitplan

SERIES = [500, 750, 1000, 1250]


@pytest.fixture(scope="module")
def mine(tmp_path_factory):
    economics = costs(**TWO_METALS)
    frame = table(9, 8, 5, 5, rotation=20)
    return (
        Phases(
            study_of(tmp_path_factory.mktemp("m"), frame, economics=economics, rotation=20).shells(
                SERIES
            ),
            mining_width=60,
        ),
        frame,
    )


def told_by_pandas(phases, f, share=1.0):
    """The planner's own table, with what each block's pushback, ore, metal and worth are by the
    formulas of the docs, at a share of the price."""
    f = f.copy()
    first = pd.Series(0, index=f.index)
    for n, factor in reversed(list(enumerate(SERIES))):
        first[phases.shells.study.mask(factor)] = n + 1
    f["pushback"] = first
    revenue = share * np.rint(f.TONNES * 0.9 * (f.CU * 0.01 * 0.85 * 8500 + f.AU * 0.7 * 60))
    processing = np.rint(f.TONNES * 0.9 * 1.1 * f.ROCK.map({"OXI": 7.5, "SUL": 9.0}))
    f["ore"] = f.TONNES.where(revenue > processing, 0.0)
    f["worth"] = np.maximum(revenue - processing, 0) - np.rint(f.TONNES * 2)
    f["copper"] = (f.ore * f.CU, f.ore * 0.9 * f.CU * 0.01 * 0.85)[1]
    f["cu_ore"], f["gold"] = f.ore * f.CU, f.ore * 0.9 * f.AU * 0.7
    return f[f.pushback > 0]


def test_pushbacks_by_bench(mine):
    phases, frame = mine
    f = told_by_pandas(phases, frame)
    found = phases.benches()
    groups = dict(list(f.groupby(["pushback", f.ZC.round(6)])))
    assert len(found) == len(groups) > 8
    assert list(zip(found.pushback, -found.bench)) == sorted(zip(found.pushback, -found.bench))
    for row in found.itertuples():
        part = groups[row.pushback, round(row.bench, 6)]
        assert row.factor == SERIES[row.pushback - 1] / 1000
        assert row.blocks == len(part)
        assert (row.toe, row.crest) == (row.bench - 7.5, row.bench + 7.5)
        assert row.rock_t == pytest.approx(part.TONNES.sum())
        assert row.ore_t == pytest.approx(part.ore.sum())
        assert row.waste_t == pytest.approx(row.rock_t - row.ore_t)
        assert row.feed_t == pytest.approx(part.ore.sum() * 0.99)
        assert row.worth == part.worth.sum()
        assert row.metal_copper == pytest.approx(part.copper.sum())
        assert row.metal_gold == pytest.approx(part.gold.sum())
        if part.ore.sum():
            assert row.strip == pytest.approx(row.waste_t / row.ore_t)
            assert row.grade_copper == pytest.approx(part.cu_ore.sum() / part.ore.sum())
        else:
            assert math.isnan(row.strip)
            assert math.isnan(row.grade_copper)


def test_pushbacks_add_up_to_the_pits(mine):
    phases, frame = mine
    f, found, pits = told_by_pandas(phases, frame), phases.table(), phases.shells.table()
    assert found.pushback.tolist() == [1, 2, 3, 4]
    for column, pit in (
        ("blocks", "blocks"),
        ("rock_t", "rock_t"),
        ("ore_t", "ore_t"),
        ("waste_t", "waste_t"),
        ("feed_t", "feed_t"),
        ("worth", "worth_at_base"),
        ("metal_copper", "metal_copper"),
        ("metal_gold", "metal_gold"),
    ):
        assert np.allclose(found[column].cumsum(), pits[pit]), column
    for row in found.itertuples():
        part = f[f.pushback == row.pushback]
        assert row.grade_copper == pytest.approx(part.cu_ore.sum() / part.ore.sum())
        assert row.strip == pytest.approx(row.waste_t / row.ore_t)
        assert row.top == pytest.approx(part.ZC.max() + 7.5)
        assert row.bottom == pytest.approx(part.ZC.min() - 7.5)
        assert row.benches == part.ZC.round(6).nunique()
    blocks = phases.of_blocks()
    assert blocks.id.tolist() == frame.IJK.tolist()
    assert (blocks.pushback[f.index] == f.pushback).all()
    assert (blocks.pushback > 0).sum() == len(f)


def test_the_thinnest_bench_is_named(mine):
    phases, frame = mine
    f, benches, found = told_by_pandas(phases, frame), phases.benches(), phases.table()
    model = phases.shells.study.model
    for row in benches.itertuples():
        part = f[(f.pushback == row.pushback) & np.isclose(f.ZC, row.bench)]
        plane = np.zeros(model.grid.shape[:2], bool)
        plane[model.blocks.ix[part.index], model.blocks.iy[part.index]] = True
        room = plain(plane, (20, 20))
        narrow = plane & (room < 60)
        assert row.width == room[plane].min()
        assert row.narrow_blocks == narrow.sum()
        tonnes = {
            (x, y): t
            for x, y, t in zip(
                model.blocks.ix[part.index], model.blocks.iy[part.index], part.TONNES
            )
        }
        assert row.narrow_t == pytest.approx(sum(tonnes[tuple(at)] for at in np.argwhere(narrow)))
    for row in found.itertuples():
        part = benches[benches.pushback == row.pushback]
        assert row.width == part.width.min()
        assert part.width[part.bench == row.width_bench].iloc[0] == row.width
        assert row.narrow_blocks == part.narrow_blocks.sum()


def test_reserves_are_those_at_the_factor_that_is_asked_for(mine):
    phases, frame = mine
    f, found = told_by_pandas(phases, frame, 0.6), phases.reserves(600)
    for pushback, part in found.groupby("pushback"):
        wanted = f[f.pushback == pushback]
        assert part.worth.sum() == pytest.approx(wanted.worth.sum())
        assert part.rock_t[part.to == "mill"].sum() == pytest.approx(wanted.ore.sum())
    assert found.pushback.nunique() == 4


def test_pits_that_are_the_same_are_no_pushbacks(tmp_path):
    study = study_of(tmp_path, table(5, 4, 3, 3))
    with pytest.raises(pp.PlanError, match="the pit at 1.001 is that at 1: there is no pushback 2"):
        Phases(study.shells([1000, 1001]))
    with pytest.raises(pp.PlanError, match="the pit at 0 is empty"):
        Phases(study.shells([0, 1000]))
    with pytest.raises(pp.PlanError, match="mining width"):
        Phases(study.shells([1000]), mining_width=-1)


def test_elevations_of_all_have_the_decimals_of_each(tmp_path):
    """Benches of 7.5 m between 97.5 and 135: the second pushback begins a bench below the first."""
    frame = table(9, 8, 5, 4, size=(20, 20, 7.5))
    text = STUDY_TOML.replace("size = [20, 20, 15]", "size = [20, 20, 7.5]")
    folder = written_study(tmp_path / "s", frame.assign(ZC=frame.ZC + 1.25), text)
    for words in (("build", folder), ("shells", folder)):
        assert pitplan(*words).returncode == 0
    ran = pitplan("phases", folder, "0.6,1.0")
    rows = [line.split() for line in ran.stdout.splitlines()]
    tops = [row[2] for row in rows if row[:1] in (["1"], ["2"]) and row[1] in ("0.6", "1.0", "1")]
    assert sorted(tops) == ["127.5", "135.0"], ran.stdout + ran.stderr
    assert [row[1:3] for row in rows if row[:1] == ["all"]] == [["135.0", "97.5"]]


def test_no_figure_of_the_table_is_cut_off(tmp_path):
    """Of three metals, of which there is much: a table that is wider than what a screen of 160
    letters takes with gaps."""
    more = "".join(
        f'{{ name = "{name}", grade = "CU", grade_unit = "kg/t", price = 0.01, price_unit = "g", recovery = 0.85 }}, '
        for name in ("antimony", "tellurium", "ytterbium")
    )
    text = STUDY_TOML.replace("metals = [ ", "metals = [ " + more)
    study = written_study(tmp_path / "s", text=text)
    assert pitplan("build", study).returncode == 0
    assert pitplan("shells", study).returncode == 0
    ran = pitplan("phases", study, "0.6,1.2")
    every = pd.read_csv(study / "out/phases.csv")
    assert ran.returncode == 0
    assert "…" not in ran.stdout
    for name in ("antimony", "tellurium", "ytterbium"):
        assert all(
            f"{amount:,.0f}" in ran.stdout
            for amount in [*every[f"metal_{name}"], every[f"metal_{name}"].sum()]
        )


def test_floor_beside_a_widened_pushback_is_what_was_dug_before_and_not_below():
    """By hand, five cells of a bench: one of the second pushback, and four of the first, below which
    nothing, the first, the second and the third dig."""
    cube = np.array([[[0, 2]], [[0, 1]], [[1, 1]], [[2, 1]], [[3, 1]]])
    widened, cut = SimpleNamespace(mines=[]), SimpleNamespace(mines=None)
    found = Phases.floor(widened, cube, 2, 1)
    assert found[:, 0].tolist() == [False, True, False, True, True]
    assert not Phases.floor(cut, cube, 2, 1).any()
