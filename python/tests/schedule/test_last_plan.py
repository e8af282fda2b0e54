"""What `pitplan status` and the desk's list of studies say of a plan by years."""
import json
import re
import subprocess
import sys
from decimal import Decimal

import pytest

from pitplan.base import events
from pitplan.base.kept_json import Damaged
from pitplan.desk.work import overview
from pitplan.schedule.last_plan import basis_of, last_plan
from pitplan.study import study_lock
from planned import PITPLAN, built, run

MODEL, VALUES, RATES = "0" * 64, {"years": 6, "mill_rate": [0, 4e5]}, {"discount": 0.08}
LEACHED = {"process_rates": {"leach": [0, 1e5]}}  # of one of several processes


def written(folder, **facts):
    """A study with such a schedule.json, of the model and the terms above."""
    (folder / "out").mkdir()
    found = {"is_judged": True, "npv": "94571123.25", "gap_percent": 0.0391}
    text = json.dumps({**found, **basis_of(MODEL, VALUES, RATES), **facts})
    (folder / "out" / "schedule.json").write_text(text)
    return folder


def test_what_a_plan_is_worth_and_how_far_it_is_from_the_best(tmp_path):
    found = last_plan(written(tmp_path), MODEL, VALUES, RATES)
    assert (found.npv, found.gap, found.is_stale) == (Decimal("94571123.25"), 0.0391, False)
    assert found.words("$") == "net present value $ 94,571,123, at most 0.0391 % below its bound"


@pytest.mark.parametrize(
    "model, values, rates",
    [
        ("1" * 64, VALUES, RATES),
        (MODEL, {**VALUES, "mill_rate": [0, 5e5]}, RATES),
        (MODEL, VALUES, {"discount": 0.1}),
    ],
)
def test_of_another_model_or_other_terms_it_is_stale(tmp_path, model, values, rates):
    found = last_plan(written(tmp_path), model, values, rates)
    assert found.is_stale
    assert found.words("$").endswith(", but of other terms or prices than study.toml has now")


@pytest.mark.parametrize(
    "values, rates",
    [
        ({"mill_rate": [0.0, 400_000]}, RATES),
        ({"mill_rate": [0, 4e5, 4e5]}, RATES),
        ({}, {**RATES, "mill_rate": 1.0}),
    ],
)
def test_of_the_same_terms_in_other_words_it_is_not(tmp_path, values, rates):
    assert not last_plan(written(tmp_path), MODEL, {**VALUES, **values}, rates).is_stale


@pytest.mark.parametrize(
    "values, rates, later, is_other",
    [
        ({"mill_rate": None}, {"mill_rate": 4e5}, {"mill_rate": 5e5}, True),
        ({"mill_rate": 3e5}, {"mill_rate": 4e5}, {"mill_rate": 5e5}, False),
        (LEACHED, {"process_rates": {"leach": 1e5}}, {"process_rates": {"leach": 9e4}}, False),
        (
            LEACHED,
            {"process_rates": {"mill": 4e5, "leach": 1e5}},
            {"process_rates": {"mill": 5e5, "leach": 1e5}},
            True,
        ),
    ],
    ids=["none of its own", "its own", "its own of a process", "that of another process"],
)
def test_a_rate_of_another_section_counts_where_schedule_has_none(values, rates, later, is_other):
    assert (basis_of(MODEL, values, rates) != basis_of(MODEL, values, later)) == is_other


def test_a_study_with_a_mistake_is_not_one_that_was_changed(tmp_path):
    folder = built(tmp_path / "s")
    text = (folder / "study.toml").read_text()
    (folder / "study.toml").write_text(text.replace("[schedule]", '[schedule]\nwhen = "endd"'))
    said = overview(folder)["said"]
    assert said[:2] == ["bad", "study.toml has a mistake"]
    assert "when" in said[2]


def test_a_stopped_search_is_told(tmp_path):
    found = last_plan(
        written(tmp_path, npv=None, gap_percent=None, is_judged=False), MODEL, VALUES, RATES
    )
    assert found.words("$") == "its search was stopped before it had one"
    assert found.short("$") == "none yet, of a search that was stopped"


def test_without_a_file_there_is_none_and_a_damaged_one_is_told(tmp_path):
    assert last_plan(tmp_path, MODEL, VALUES, RATES) is None
    written(tmp_path, npv="much")
    with pytest.raises(Damaged, match='schedule.json is damaged: npv is "much"'):
        last_plan(tmp_path, MODEL, VALUES, RATES)


def test_a_folder_in_its_place_is_told(tmp_path):
    place = tmp_path / "out" / "schedule.json"
    place.mkdir(parents=True)
    with pytest.raises(Damaged, match="schedule.json is a folder, and has to be a file") as told:
        last_plan(tmp_path, MODEL, VALUES, RATES)
    assert told.value.try_this == f"rm -r {place}"


def test_how_far_the_first_search_is_while_it_runs(tmp_path, monkeypatch):
    folder, words = built(tmp_path / "s"), ["pitplan", "schedule", "s"]
    monkeypatch.setattr(sys, "argv", words)
    far = "its search runs: the bound: a schedule of 3 periods"
    with study_lock.turn(folder, words), events.of_study(folder):
        events.event("step", what="the bound", far="a schedule of 3 periods")
        assert overview(folder)["plan"] == ["", "its search runs", far]
        assert "plan by years: none yet; its search runs now: pitplan schedule s" in said(folder)
        assert said(folder).endswith("the bound: a schedule of 3 periods")
    assert overview(folder)["plan"] is None


def test_status_and_the_desk_say_whether_there_is_a_plan(tmp_path):
    folder = built(tmp_path / "s")
    assert re.search(
        f"plan by years: none yet; \\S*pitplan schedule {folder} finds one", said(folder)
    )
    assert overview(folder)["plan"] is None
    run("schedule", folder, "--gap", "5", "--minutes", "1")
    facts = json.loads((folder / "out" / "schedule.json").read_text())
    worth = int(Decimal(facts["npv"]))
    line = re.search("plan by years: (.*?) % below its bound", said(folder))[1]
    assert line.startswith(f"net present value $ {worth:,}, at most ")
    assert float(line.split()[-1]) == pytest.approx(facts["gap_percent"], abs=0.01)
    plan = overview(folder)["plan"]
    assert plan[0] == "good"
    assert plan[1].startswith(f"{worth / 1e6:,.1f} million $, at most ")
    text = (folder / "study.toml").read_text()
    (folder / "study.toml").write_text(text.replace("mill_rate = 400e3", "mill_rate = 300e3"))
    assert "of other terms or prices than study.toml has now" in said(folder)
    plan = overview(folder)["plan"]
    assert plan[:2] == ["warn", f"{worth / 1e6:,.1f} million $, of older terms"]
    (folder / "study.toml").write_text(text.replace("price = 24000", "price = 23000"))
    words = [sys.executable, PITPLAN, "status", folder]
    changed = subprocess.run(words, capture_output=True, text=True)
    assert changed.returncode == 3
    assert f"plan by years: net present value $ {worth:,}, at most " in changed.stdout
    assert "but of other terms or prices" in changed.stdout
    (folder / "out" / "schedule.json").write_text("{}")
    assert overview(folder)["plan"][:2] == ["bad", "its file is damaged"]


def said(folder):
    """What `pitplan status` prints, in one line."""
    return " ".join(run("status", folder).split())
