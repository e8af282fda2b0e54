"""The command `phases`."""
import math

import pandas as pd

from mines import written_study
from pitplan.cli.phases import _total_of
from served import pitplan


def test_the_command(tmp_path):
    study = written_study(tmp_path / "s")
    assert pitplan("build", study).returncode == 0
    assert pitplan("shells", study).returncode == 0
    ran = pitplan("phases", study, "0.6,1.0", "--mining-width", "60")
    assert ran.returncode == 0, ran.stderr
    assert "pushbacks" in ran.stdout, ran.stderr
    phases, benches = pd.read_csv(study / "out/phases.csv"), pd.read_csv(
        study / "out/phase_benches.csv"
    )
    pits = pd.read_csv(study / "out/pit_by_pit.csv")
    assert phases.factor.tolist() == [0.6, 1.0]
    assert phases.worth.sum() == pits.worth_at_base[1]
    assert benches.blocks.sum() == pits.blocks[1]
    thin = benches[benches.narrow_blocks > 0]
    lines = ran.stderr.splitlines()
    for pushback, part in thin.groupby("pushback"):
        found = next(
            lines[i + 1]
            for i, line in enumerate(lines)
            if line.startswith(f"look: pushback {pushback} ")
        )
        order = sorted(part.itertuples(), key=lambda row: (row.width, -row.narrow_blocks))
        for i, row in enumerate(order):
            assert (
                f"{row.bench:g} ({row.width:g} m, {row.narrow_blocks:,} block{'s' if row.narrow_blocks > 1 else ''})"
                in found
            ) == (i < 3)
        assert (f"are the worst; {study}/out/phase_benches.csv has all" in found) == (
            len(order) > 3
        )
    assert thin.pushback.value_counts().max() > 3
    assert (
        pd.read_csv(study / "out/phase_blocks.csv").pushback.value_counts().sort_index().tolist()
        == phases.blocks.tolist()
    )
    wide = pitplan("phases", study, "0.6,1.0", "--mining-width", "1")
    assert "at least 1 m wide" in wide.stdout
    assert wide.stderr == ""
    for words, said in (
        (("1.0,0.6",), "ascending"),
        (("0.6,0.7",), "the nearest that have are 0.6, 1"),
        (("0.6;1",), "no factor"),
    ):
        wrong = pitplan("phases", study, *words)
        assert wrong.returncode == 3, wrong.stderr
        assert said in wrong.stderr, wrong.stderr


def test_all_pushbacks_together_are_weighed_by_their_ore():
    """100 t of ore at 1 % with 50 t of waste, 300 t at 2 % with 550 t, and 200 t of waste alone."""
    grades = [1.0, 2.0, math.nan]
    found = _total_of(
        pd.DataFrame(
            {
                "ore_t": [100.0, 300.0, 0.0],
                "waste_t": [50.0, 550.0, 200.0],
                "worth": [7.0, 5.0, -2.0],
                "grade_copper": grades,
                "metal_copper": [0.8, 4.8, 0.0],
            }
        ),
        {"copper": {}},
    )
    assert (found["ore_t"], found["waste_t"], found["strip"]) == (400, 800, 2)
    assert (found["worth"], found["grade_copper"]) == (10, 1.75)
    assert math.isclose(found["metal_copper"], 5.6)
