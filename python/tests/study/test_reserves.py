"""Reserves as one table: each row is what a loop over the planner's own rows comes to."""
from collections import defaultdict

import numpy as np
import pytest

from mines import study_of, table
from pitplan.study.reserves import reserves

COST = {"OXI": 7.5, "SUL": 9.0}


@pytest.fixture(scope="module")
def frame():
    return table(7, 6, 4, 3)


@pytest.fixture(scope="module")
def study(frame, tmp_path_factory):
    return study_of(tmp_path_factory.mktemp("m"), frame)


def parts_of(study):
    """Two parts, and some blocks in neither."""
    return (study.model.blocks["ix"].to_numpy() + study.model.blocks["iy"].to_numpy()) % 3


def sums(frame, part, factor):
    """By part, bench, rock and way: blocks, tonnes, tonnes times grade, copper and dollars."""
    found = defaultdict(lambda: np.zeros(5))
    for row in frame.itertuples():
        copper = row.TONNES * row.CU / 100 * 0.85
        brings, treating = round(copper * 8500), round(row.TONNES * COST[row.ROCK])
        is_ore = brings * factor > treating
        worth = (brings * factor - treating) * is_ore - round(row.TONNES * 2.0)
        key = (part[row.IJK], row.ZC, row.ROCK, "mill" if is_ore else "waste")
        if part[row.IJK]:
            found[key] += (1, row.TONNES, row.TONNES * row.CU, copper * is_ore, worth)
    return found


@pytest.mark.parametrize("thousandths", [1000, 800])
def test_every_row_is_what_the_table_comes_to(frame, study, thousandths):
    part = parts_of(study)
    rows = reserves(study, {"part": part}, thousandths)
    wanted = sums(frame, dict(zip(study.model.blocks["id"], part)), thousandths / 1000)
    assert len(rows) == len(wanted) > 12
    for row in rows.to_dict("records"):
        blocks, tonnes, graded, copper, worth = wanted[
            row["part"], row["bench"], row["rock"], row["to"]
        ]
        assert row["blocks"] == blocks
        assert row["rock_t"] == pytest.approx(tonnes)
        assert row["feed_t"] == pytest.approx(tonnes if row["to"] == "mill" else 0)
        assert row["grade_copper"] == pytest.approx(graded / tonnes)
        assert row["metal_copper"] == pytest.approx(copper)
        assert row["worth"] == pytest.approx(worth, abs=0.01)


def test_benches_come_from_the_top_within_each_part(study):
    rows = reserves(study, {"part": parts_of(study)})
    assert rows.part.tolist() == sorted(rows.part)
    for _, each in rows.groupby("part"):
        assert each.bench.tolist() == sorted(each.bench, reverse=True)
    assert "class" not in rows


def test_of_two_columns_a_block_has_to_be_in_both(frame, study):
    one, other = parts_of(study), (study.model.blocks["iz"].to_numpy() > 0).astype(int)
    rows = reserves(study, {"part": one, "upper": other})
    assert list(rows)[:5] == ["part", "upper", "bench", "rock", "to"]
    assert rows.blocks.sum() == ((one != 0) & (other != 0)).sum()
    assert rows.bench.min() == frame.ZC.min() + 15
