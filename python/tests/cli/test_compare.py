"""The command `compare`."""
import json
import re

import pandas as pd
import pytest

import pitplan as pp
from designs import HALVES, HALVES_TOML
from mines import table, written_study
from served import pitplan


def test_the_command_ends_with_status_1_where_a_design_digs_what_may_not_be_dug(tmp_path):
    text = HALVES_TOML.replace("[economics]", '[economics]\nforbid = ["LAKE == 1"]')
    folder = written_study(tmp_path / "s", HALVES, text)
    for command in ("build", "shells"):
        assert pitplan(command, folder).returncode == 0
    fine = pitplan("compare", folder, "--column", "CUT")
    assert fine.returncode == 0, fine.stderr
    assert "look: 1 block is only partly" in fine.stdout, fine.stderr
    shut = pitplan("compare", folder, "--column", "LAKE")
    assert shut.returncode == 1, shut.stderr
    assert "CLOSED" in shut.stdout, shut.stderr
    assert "look: the design digs 1 block that forbid keeps" in shut.stdout
    assert "so the status is 1" in shut.stdout


def rock_and_ore(blocks):
    """The tonnes of some blocks, and of those that pay for their treatment at the full price."""
    brings = (blocks.TONNES * blocks.CU / 100 * 0.85 * 8500).round()
    treating = (blocks.TONNES * blocks.ROCK.map({"OXI": 7.5, "SUL": 9.0})).round()
    return blocks.TONNES.sum(), blocks.TONNES[brings > treating].sum()


def said_of(text):
    """The tonnes that are told to be left by the design, and beyond the best pit; of each the ore."""
    line = re.search(r"left by the design (.*)", " ".join(text.split()))[1]
    amounts = re.findall(r"([\d,.]+) ([Mk]?)t\b", line)[:4]
    return [float(text.replace(",", "")) * {"M": 1e6, "k": 1e3, "": 1}[m] for text, m in amounts]


def test_the_command(tmp_path):
    folder = written_study(tmp_path / "s", table(7, 6, 4, 3).assign(WHICH=1))
    assert pitplan("build", folder).returncode == 0
    early = pitplan("compare", folder, "--column", "WHICH")
    assert early.returncode == 3
    assert "hasn't been run" in early.stderr
    assert pitplan("shells", folder).returncode == 0
    made = pp.Study(folder)
    best = made.mask(1000)
    ids = made.model.blocks["id"]
    pd.DataFrame({"IJK": ids[best]}).to_csv(tmp_path / "best.csv", index=False)
    ran = pitplan("compare", folder, "--ids", tmp_path / "best.csv")
    assert ran.returncode == 0, ran.stderr
    assert "the design is the best pit" in ran.stdout, ran.stderr
    assert "pit value says of the design: CLOSED" in ran.stdout, ran.stderr
    pd.DataFrame({"IJK": ids[made.mask(600)]}).to_csv(tmp_path / "small.csv", index=False)
    small = pitplan("compare", folder, "--ids", tmp_path / "small.csv", "--bench", "130")
    summary = json.loads((folder / "out/compare-small/summary.json").read_text())
    assert small.returncode == 0
    assert "below the proved bound" in small.stdout
    assert summary["is_closed"]
    assert summary["certificate"] == made.verdict(1000)["certificate"]
    assert f"{int(summary['gap']):,}" in small.stdout
    assert said_of(small.stdout) == pytest.approx(
        [*rock_and_ore(made.model.blocks[best & ~made.mask(600)]), 0, 0], abs=6e3
    )
    assert (folder / "out/compare-small/plan-130.png").stat().st_size > 5000
    whole = pitplan("compare", folder, "--column", "WHICH", "--factor", "1.2")
    assert whole.returncode == 0
    assert "factor 1.2" in whole.stdout
    lowest = made.model.blocks.iz == 0
    pd.DataFrame({"IJK": ids[lowest]}).to_csv(tmp_path / "low.csv", index=False)
    low = pitplan("compare", folder, "--ids", tmp_path / "low.csv")
    assert low.returncode == 1
    assert "breaks the slopes at" in low.stdout
    assert "to keep them it has to dig" in low.stdout
    assert "degrees" in low.stdout
    before = low.stdout.split("to keep them")[0]
    assert "below" not in before  # no distance of a design that breaks slopes
    where = folder / "out/compare-low"
    summary = json.loads((where / "summary.json").read_text())
    assert summary["gap"] is None
    assert summary["broken_pairs"] == len(pd.read_csv(where / "pairs.csv"))
    assert summary["repair"]["blocks"] == len(pd.read_csv(where / "repair.csv")) > 0
    assert pd.read_csv(where / "walls.csv").pairs.sum() == summary["broken_pairs"]
    assert len(pd.read_csv(where / "benches.csv")) > 0
    for words, said in (
        ((), "one of --ids FILE"),
        (("--column", "WHICH", "--ids", tmp_path / "low.csv"), "one of --ids FILE"),
        (("--column", "WHICH", "--factor", "0.7"), "nearest that have are 0.6, 1"),
    ):
        wrong = pitplan("compare", folder, *words)
        assert wrong.returncode == 3, wrong.stderr
        assert said in wrong.stderr, wrong.stderr
