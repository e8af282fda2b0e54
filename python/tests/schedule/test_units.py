"""`pushbacks` and `lead`: what waits for what, worked out from the planner's own table and the pits
alone."""
import subprocess
import sys

import numpy as np
import pandas as pd
import pytest

import mines
from pitplan import PlanError, Study
from planned import PITPLAN, RICH, built, of_table, run, scheduled

SMALL = """
[schedule]
years = 8
mining_rate = 500e3
mill_rate = 400e3
"""
NEVER = 99
TEXT = RICH.replace("[0.6, 1.0, 1.2]", "[0.25, 1.0]")


def study(folder, more):
    """A study of a mine whose east is poorer, so that its second pushback lies there and has good
    blocks near the surface."""
    frame = mines.table(9, 8, 5, 5)
    frame["CU"] = (frame.CU * np.where(frame.XC > 5070, 0.35, 1.0)).round(3)
    return built(folder, SMALL + more, TEXT, frame)


def rows_with_pushback(folder):
    """The rows of the pit at the full price: their bench, year, and pushback from 1."""
    shells = Study(folder).shells([250, 1000])
    block = shells.study.model.row_block
    rows = of_table(folder).assign(
        pushback=[2 if not shells.holds(0)[b] else 1 for b in block],
        is_in=shells.holds(1)[block],
    )
    rows["year"] = rows.year.fillna(NEVER)
    return rows[rows.is_in]


@pytest.fixture(scope="module")
def mine(tmp_path_factory):
    folder = study(tmp_path_factory.mktemp("mine") / "s", "pushbacks = [0.25]\nlead = 4\n")
    return folder, run("schedule", folder, "--minutes", "10")


@pytest.mark.parametrize("lead", [0, 4])
def test_a_block_waits_for_the_pushback_before_it(mine, tmp_path, lead):
    folder = mine[0]
    if not lead:
        folder = study(tmp_path / "s", "pushbacks = [0.25]\n")
        run("schedule", folder, "--minutes", "10")
    rows = rows_with_pushback(folder)
    first, second = rows[rows.pushback == 1], rows[(rows.pushback == 2) & (rows.year < NEVER)]
    checked = 0
    for bench, year in zip(second.ZC, second.year):
        ahead = first[first.ZC >= bench - 15 * lead - 1]
        assert (ahead.year <= year).all()
        checked += len(ahead)
    assert checked > 50


def test_the_order_costs_worth_and_its_bound_is_its_own(mine, tmp_path):
    free = scheduled(study(tmp_path / "s", ""))
    found = scheduled(mine[0])
    assert found.npv <= found.bound < free.bound
    assert "the order of the 2 pushbacks is checked by pitplan" in mine[1]


def test_benches_have_their_pushback(mine):
    folder = mine[0]
    benches = pd.read_csv(folder / "out" / "schedule_benches.csv")
    dug = rows_with_pushback(folder)
    dug = dug[dug.year < NEVER]
    sums = dug.groupby(["year", "ZC", "pushback"]).TONNES.sum()
    table = benches.groupby(["year", "bench", "pushback"]).rock_t.sum()
    assert table.index.tolist() == sums.index.tolist()
    assert table.to_numpy() == pytest.approx(sums.to_numpy())


@pytest.mark.parametrize(
    "line, words",
    [
        ("pushbacks = [0.7]", "0.7"),
        ("pushbacks = [0.6, 0.6]", "don't ascend"),
        ("pushbacks = [1.0]", "below 1"),
        ("pushbacks = 0.6", "a list of numbers"),
    ],
)
def test_what_is_refused_names_the_key(mine, line, words):
    folder, text = mine[0], (mine[0] / "study.toml").read_text()
    (folder / "study.toml").write_text(text.replace("pushbacks = [0.25]", line))
    try:
        with pytest.raises(PlanError, match=words) as refused:
            scheduled(folder)
    finally:
        (folder / "study.toml").write_text(text)
    assert refused.value.key == ("schedule", "pushbacks")


def test_check_says_in_which_order_pushbacks_will_be_dug(tmp_path):
    mines.written_study(
        tmp_path / "s", mines.table(5, 5, 3, 3), TEXT + SMALL + "pushbacks = [0.25]\nlead = 4\n"
    )
    lines = run("check", tmp_path / "s").splitlines()
    at = lines.index(
        "pushbacks, dug in this order by [schedule], each 4 benches ahead of those after it:"
    )
    assert lines[at + 1 : at + 3] == [
        "  1: the pit of factor 0.25",
        "  2: the rest of the best pit",
    ]


@pytest.mark.parametrize(
    "pushbacks, words",
    [
        ("[0.55, 0.7]", "[schedule] pushbacks has 0.55, and [shells] factors has no 0.55"),
        ("[0.8, 0.6]", "[schedule] pushbacks = [0.8, 0.6] don't ascend"),
        ("[0.8, 0.6]", "try: pushbacks = [0.6, 0.8]"),
        ("[0.55, 0.7]", ": nearest are 0.25 and 1"),
    ],
)
def test_check_refuses_what_schedule_would(tmp_path, pushbacks, words):
    text = f"{TEXT}{SMALL}pushbacks = {pushbacks}\n"
    folder = mines.written_study(tmp_path / "s", mines.table(5, 5, 3, 3), text)
    found = subprocess.run(
        [sys.executable, PITPLAN, "check", folder], capture_output=True, text=True
    )
    assert words in found.stderr
    assert found.returncode == 3
