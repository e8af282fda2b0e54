"""Factors and designs that are named on a command line: which pits they are, and what is said where one
isn't there."""
from pathlib import Path
from types import SimpleNamespace

import pytest

from pitplan import PlanError
from pitplan.cli import chosen_pits
from pitplan.cli.chosen_pits import DesignOptions, shares_of
from pitplan.plans import design


@pytest.mark.parametrize(
    "text, found", [("0.5, 0.75,1", [500, 750, 1000]), ("1", [1000]), ("0.4,1.0", [400, 1000])]
)
def test_factors_are_thousandths(text, found):
    assert shares_of(text) == found


@pytest.mark.parametrize("text", ["0.5;1", "", "0.5,x"])
def test_what_is_no_factor_is_refused_with_an_example(text):
    with pytest.raises(PlanError, match="is no factor") as refused:
        shares_of(text)
    assert "0.5,0.75,1.0" in str(refused.value.try_this)


def test_factors_that_do_not_ascend_are_refused():
    with pytest.raises(PlanError, match="ascending"):
        shares_of("1.0,0.6")


class Run:
    """A study of which the pits at some factors were run."""

    def __init__(self, folder, there):
        self.folder = self.named = folder
        self.there = there
        for factor in (*there, 999):  # of the last one nothing is known
            (folder / "runs" / "base" / f"f{factor}").mkdir(parents=True, exist_ok=True)
        (folder / "runs" / "base" / "fx").mkdir(parents=True, exist_ok=True)

    def verdict(self, factor):
        return {"factor": factor} if factor in self.there else None


@pytest.mark.parametrize(
    "there, words",
    [([600, 700, 1000, 1200], "the nearest that have are 0.7, 1"), ([], "hasn't been run")],
)
def test_a_pit_that_was_not_run_comes_with_the_nearest(tmp_path, monkeypatch, there, words):
    study = Run(tmp_path, there)
    monkeypatch.setattr(chosen_pits, "open_study", lambda folder: study)
    with pytest.raises(PlanError, match=words) as refused:
        chosen_pits.pits_at(tmp_path, [850])
    assert "the pit at factor 0.85" in str(refused.value)
    assert "shells" in str(refused.value.try_this)


def test_only_pits_without_a_certificate_get_one(monkeypatch):
    asked = []

    def with_certificates(count, listener):
        asked.append(count)
        for factor in (600, 1000):
            listener(factor, "done", 1.0)
        return "certified"

    shells = SimpleNamespace(
        verdicts=[{"factor": 600, "certificate": "x"}, {"factor": 1000, "certificate": None}],
        study=None,
        with_certificates=with_certificates,
    )
    monkeypatch.setattr(chosen_pits, "workers_for", lambda study: 3)
    assert chosen_pits.with_certificates(shells) == "certified"
    assert asked == [3]
    shells.verdicts[1]["certificate"] = "y"
    assert chosen_pits.with_certificates(shells) is shells
    assert asked == [3]


@pytest.mark.parametrize(
    "options, reader",
    [
        (DesignOptions(ids=Path("a.txt")), "by_ids_of"),
        (DesignOptions(surface=Path("a.csv")), "by_surface"),
        (DesignOptions(file=Path("a.DXF")), "by_file"),
        (DesignOptions(file=Path("a.txt")), "by_file"),
        (DesignOptions(column="PIT", value="PB1"), "by_column"),
    ],
)
def test_a_design_is_read_by_what_its_option_says(monkeypatch, options, reader):
    """Surfaces by the model as it is, ids and columns by the rows of sub-blocks."""
    asked = []
    for name in ("by_ids_of", "by_surface", "by_file", "by_column"):
        monkeypatch.setattr(design, name, lambda model, *_, name=name: asked.append((name, model)))
    monkeypatch.setattr(design, "with_sub_blocks", lambda study: "of rows")
    chosen_pits.design_of(SimpleNamespace(model="of blocks"), options, None)
    is_surface = reader == "by_surface" or options.file == Path("a.DXF")
    assert asked == [(reader, "of blocks" if is_surface else "of rows")]
