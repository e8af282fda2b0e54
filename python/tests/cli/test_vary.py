"""The command `vary`, and what it says of pits that reach the floor."""
from types import SimpleNamespace

import numpy as np
import pandas as pd
import pytest

import pitplan as pp
from mines import written_study
from pitplan.cli.vary import _rates_of, _warn_of_edges as edges_told
from pitplan.plans import vary
from pitplan.study import edges
from processes import command


@pytest.mark.parametrize(
    "touching, words",
    [
        (
            2,
            "the pit of the study itself, price -20% reaches the model's floor (up to 9 blocks there)",
        ),
        (4, "the pit in 4 of these 5 what-ifs reaches the model's floor (up to 9 blocks there)"),
        (5, "the pit of each of these 5 what-ifs reaches the model's floor (up to 9 blocks there)"),
    ],
)
def test_which_what_ifs_reach_the_floor_is_said(capsys, touching, words):
    changes = [("base", 0.0), ("price", -20.0), ("price", 20.0), ("slope", -3.0), ("slope", 3.0)]
    found = pd.DataFrame(changes, columns=["what", "by"])
    found["side_blocks"] = 0
    found["floor_blocks"] = [9] * touching + [0] * (5 - touching)
    edges_told(found)
    assert words in " ".join(capsys.readouterr().err.split())


def test_what_ifs_are_discounted_by_the_rates_of_study_toml():
    """Each rate is that of its own name, and money loses 10 % a year where nothing is told."""
    told = _rates_of(
        SimpleNamespace(rates={"mining_rate": 6e5, "mill_rate": 4e5, "discount": 0.08})
    )
    assert (told.mining, told.mill, told.discount) == (6e5, 4e5, 0.08)
    ways = _rates_of(SimpleNamespace(rates={"process_rates": {"mill": 3e5, "leach": 1e5}}))
    assert (ways.processes, ways.mill, ways.discount) == ({"mill": 3e5, "leach": 1e5}, None, 0.1)


def test_the_command_and_its_chart(tmp_path):
    folder = written_study(tmp_path / "s")
    assert command("build", folder).wait() == 0
    run = command("vary", folder, "price=-10..10", "mining=-10..10", "slope=-5..5", "--workers", 2)
    said, faults = run.communicate(timeout=600)
    assert run.returncode == 0, faults
    begun = [line for line in faults.splitlines() if line.startswith("the model of ")]
    assert [line.split(":")[1].split(" begun")[0].strip() for line in begun] == [
        f"{at} of 6" for at in range(1, 7)
    ]
    assert "the model of mining -10" in begun[2]
    frame = pd.read_csv(folder / "out/vary.csv")
    assert len(frame) == 7
    assert list(frame.what.unique()) == ["base", "price", "mining", "slope"]
    study = pp.Study(folder)
    for column, there, what in (
        ("side_blocks", edges.touching(study), "touches the side of the model"),
        ("floor_blocks", edges.on_floor(study.model), "reaches the model's floor"),
    ):
        assert frame[column].iloc[0] == (study.mask(1000) & there).sum()
        assert frame[column].max() > 0
        assert f"{what} (up to {frame[column].max():,} blocks there)" in faults
    for row in frame.iloc[1:].itertuples():
        assert f"{row.difference / 1e6:+,.2f}" in said
    assert (folder / "out/tornado.png").read_bytes().startswith(b"\x89PNG")
    axes = vary.tornado(frame).axes[0]
    assert sorted(label.get_text() for label in axes.get_yticklabels()) == [
        "mining",
        "price",
        "slope",
    ]
    assert len(axes.patches) == 6
    base, unit = frame.worth.iloc[0], 1e6 if "million" in axes.get_xlabel() else 1e3
    ends = sorted(
        tuple(sorted((bar.get_x(), bar.get_x() + bar.get_width()))) for bar in axes.patches
    )
    assert np.allclose(
        ends, sorted(tuple(sorted((base / unit, worth / unit))) for worth in frame.worth.iloc[1:])
    )
    widths = sorted(abs(bar.get_width()) for bar in axes.patches)
    expected = sorted(abs(frame.difference.iloc[1:]))
    assert (
        widths[-1] / widths[0] == pytest.approx(expected[-1] / expected[0]) if expected[0] else True
    )
