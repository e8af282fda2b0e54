"""What commands print of a mine of a few thousand tonnes: in units in which its figures aren't all
0.00. Each figure is held against the files, which have plain tonnes and dollars."""
import os
import re
import subprocess
import sys
from pathlib import Path

import mines
import pandas as pd
import pytest

PITPLAN = Path(__file__).resolve().parents[3] / "bin" / "pitplan"
TEXT = mines.STUDY_TOML.replace("price = 8500", "price = 24000").replace(
    "mining_rate = 1e6\nmill_rate = 5e5", "mining_rate = 1.5e3\nmill_rate = 1e3"
)


def run(*words):
    ran = subprocess.run(
        [sys.executable, PITPLAN, *map(str, words)],
        capture_output=True,
        text=True,
        env={**os.environ, "COLUMNS": "160"},  # so that headings stand on one line
    )
    assert ran.returncode == 0, ran.stderr + ran.stdout
    return ran.stdout + ran.stderr


@pytest.fixture(scope="module")
def mine(tmp_path_factory):
    """A mine of 3 kt, in which no block has 20 t."""
    frame = mines.table(9, 8, 5, 5)
    frame["TONNES"] = (frame.TONNES / 1000).round(2)
    folder = mines.written_study(tmp_path_factory.mktemp("small") / "s", frame, TEXT)
    run("build", folder)
    return folder, run("shells", folder)


def figures(said, first):
    """The figures of the printed row that begins with a word."""
    row = next(line for line in said.splitlines() if line.split()[:1] == [first])
    return [float(word.replace(",", "")) for word in re.findall(r"(?<=\s)[-+]?[\d,]+\.\d+", row)]


def test_pits_have_kilotonnes_and_thousands(mine):
    folder, said = mine
    assert "worths in thousand $" in said
    assert "ore kt" in said
    assert "waste kt" in said
    table = pd.read_csv(folder / "out" / "pit_by_pit.csv").set_index("factor")
    for factor, row in table.iterrows():
        found = figures(said, f"{factor:.3f}")
        wanted = [row.ore_t / 1e3, row.waste_t / 1e3, row.strip, row.worth_at_base / 1e3]
        assert [v for v in wanted if v == v]
        for value in (
            row.ore_t / 1e3,
            row.waste_t / 1e3,
            row.worth_at_base / 1e3,
            row.npv_best / 1e3,
        ):
            assert round(value, 2) in found


def test_pushbacks_and_what_ifs(mine):
    folder, _ = mine
    said = run("phases", folder, "0.6,1.0", "--mining-width", "60")
    assert "worths in thousand $" in said
    assert "ore kt" in said
    assert re.search(r"blocks?, \d+\.\d\d kt:", said)
    table = pd.read_csv(folder / "out" / "phases.csv")
    assert round(table.ore_t.sum() / 1e3, 2) in figures(said, "all")
    assert round(table.worth.sum() / 1e3, 2) in figures(said, "all")
    said = run("vary", folder, "recovery=-5")
    assert "worths in thousand $" in said
    assert "rock kt" in said
    row = pd.read_csv(folder / "out" / "vary.csv").iloc[1]
    found = figures(said, "recovery")
    for value in (row.rock_t, row.worth, row.difference, row.npv):
        assert round(value / 1e3, 2) in found


def test_years(mine):
    folder, _ = mine
    said = run("schedule", folder, "--gap", "1")
    assert "by year, in thousand $" in said
    assert "rock kt" in said
    assert "feed kt" in said
    years = pd.read_csv(folder / "out" / "schedule.csv")
    for row in years.itertuples():
        found = figures(said.partition("by year")[2], str(row.period))
        for value in (row.rock_t, row.ore_t, row.feed_t, row.cash_flow, row.npv):
            assert round(value / 1e3, 2) in found


def test_a_mine_in_which_nothing_pays_says_so(tmp_path):
    text = mines.STUDY_TOML.replace("price = 8500", "price = 1")
    frame = mines.table(9, 8, 5, 5).assign(CLASS="IND")
    folder = mines.written_study(tmp_path / "s", frame, text)
    assert "by resource class" in run("build", folder)
    said = run("shells", folder)
    assert "by resource class" not in said
    for words in (said, run("plot", folder), run("page", folder)):
        assert words.count("look: no pit has a block, up to factor") == 1
