"""What a comparison says of a design, in words."""
import dataclasses

import numpy as np
import pytest

from mines import costs, study_of, table
from pitplan.cli import compare as commands_compare
from pitplan.plans import compare, compare_words, design


def test_a_design_that_digs_what_may_not_be_dug_is_told(tmp_path):
    made = study_of(tmp_path, table(6, 5, 4, 3), economics=costs(forbid=["XC < 5010"]))
    x = made.model.blocks["XC"].to_numpy(float)
    lines = compare_words.forbidden_lines(made, x < 5030)
    first = made.model.blocks["id"].to_numpy()[x < 5010][0]
    weight = made.model.blocks.tonnes[x < 5010].sum() / 1e3  # the design has less than 1 Mt
    assert len(lines) == 1
    assert (
        f"digs {int((x < 5010).sum())} blocks that forbid keeps from being dug, as {first}: {weight:.2f} kt,"
        in lines[0]
    )
    assert compare_words.forbidden_lines(made, x > 5010) == []


def test_what_may_not_be_dug_is_left_out_of_a_designs_worth(tmp_path):
    """The design is the whole mine: its worth is that of the blocks which may be dug, worked out
    here from the table."""
    made = study_of(tmp_path, table(6, 5, 4, 3), economics=costs(forbid=["XC < 5010"]))
    made.shells([1000])
    b = made.model.blocks
    found = compare.compare(
        made, design.Design("all", np.ones(len(b), bool), np.zeros(len(b), bool))
    )
    revenue, treating, digging = (
        np.rint(b.tonnes * b.CU / 100 * 0.85 * 8500),
        np.rint(b.tonnes * np.where(b.rock == "OXI", 7.5, 9)),
        np.rint(b.tonnes * 2),
    )
    worth = int((np.maximum(revenue - treating, 0) - digging)[b.XC >= 5010].sum())
    assert found.is_closed
    assert int(found.worth) == worth
    assert int(found.gap) == int(found.bound) - worth
    assert (
        round(int(found.bound) - found.benches.left_worth.sum() + found.benches.over_worth.sum())
        == worth
    )
    assert int(found.gap) < 0
    assert (
        "above the proved bound, which holds for pits that dig none of the blocks left out"
        in compare_words.verdict_lines(found, "$")[1]
    )
    assert (
        compare_words.distance(dataclasses.replace(found, bound="200"), "50", "$")
        == "$ 50 (25.00%) below the proved bound"
    )
    summary = commands_compare.summary(made, found)
    assert summary["worth"] == str(worth)
    assert summary["forbidden_tonnes"] == pytest.approx(b.tonnes[b.XC < 5010].sum())


@pytest.mark.parametrize(
    "steepest, built, said",
    [
        (45.04, 45.01, " where less than 45.0 may stand"),
        (44.96, 45.04, " where less than 45.0 may stand"),
        (43.2, 45.0, " where less than 43.2 may stand"),
        (45.0, 39.8, " where 39.8 may stand"),
        (90.0, float("nan"), ""),
    ],
)
def test_what_may_stand_is_less_than_what_stands(steepest, built, said):
    assert compare_words._may_stand({"steepest": steepest, "built": built}) == said
