"""The study.toml that `init` writes is one, once its comments are none."""
import re
import tomllib

import numpy as np
import pytest

from mines import table
from pitplan.schedule.terms import wrong_terms
from pitplan.study import first_look
from pitplan.study.study_file import read_study_file
from pitplan.table import study_keys
from pitplan.table.formula import worked_out
from planned import run


def test_every_key_that_init_writes_is_known_and_explained(tmp_path):
    table(6, 5, 3, 3).to_csv(tmp_path / "t.csv", index=False)
    text = first_look.written(first_look.look_at(tmp_path / "t.csv"), "t.csv")
    lines = text.splitlines()
    for before, line in zip(lines, lines[1:]):
        if " = " in line and not line.startswith(("#", " ", "table", "currency")):
            assert "#" in line or before.startswith("#"), line
    from dataclasses import fields
    from pitplan.model.economics import Economics, Metal
    from pitplan.model.model import TableKeys

    written = {key.name for key in study_keys.KEYS if key.is_written}
    for f in (*fields(TableKeys), *fields(Economics), *fields(Metal)):
        assert f.name in text or f.name not in written, f.name


@pytest.mark.parametrize("name", ["ZC", "Cota (m)", "Elevação m", "RL'0", "class"])
def test_the_formulas_that_init_shows_name_the_table_s_own_columns(tmp_path, name):
    f = table(5, 4, 3, 1).rename(columns={"ZC": name, "XC": "x " + name})
    f.to_csv(tmp_path / "t.csv", index=False)
    text = first_look.written(
        first_look.look_at(tmp_path / "t.csv", {"z": name, "x": "x " + name}), "t.csv"
    )
    shown = [
        re.search(pattern, text)[1]
        for pattern in (
            r'a formula as ("2\.2 .*? / 10")',
            r'may not be dug, as \[(".*? > 12000")\]',
        )
    ]
    facts = tomllib.loads("formulas = [" + ", ".join(shown) + "]")["formulas"]
    height, beyond = (worked_out(formula, f, "shown") for formula in facts)
    assert np.allclose(height, 2.2 + 0.02 * (1500 - f[name]) / 10)
    assert (beyond == (f["x " + name] > 12000)).all()


def test_the_processes_that_init_offers_are_a_study_once_they_are_no_comment(tmp_path):
    table(6, 5, 3, 3).to_csv(tmp_path / "t.csv", index=False)
    text = first_look.written(first_look.look_at(tmp_path / "t.csv"), "t.csv")
    lines = text.split("\n")
    at = next(i for i, line in enumerate(lines) if "in place of processing and mill" in line)
    end = next(i for i in range(at, len(lines)) if not lines[i].startswith("#"))
    lines[at + 1 : end] = [line[2:] for line in lines[at + 1 : end]]
    kept = [line for line in lines if not re.match(r"(processing|mill_rate) =", line)]
    (tmp_path / "study.toml").write_text("\n".join(kept))
    file = read_study_file(tmp_path)
    (mill, leach) = file.economics.processes
    assert (mill.name, sorted(mill.rocks), mill.cost) == ("mill", ["OXI", "SUL"], 9.0)
    assert (leach.name, leach.rocks, leach.recovery) == ("leach", ["OXI"], {"copper": 0.6})
    goes = file.economics.priced(file.read_model()).destinations(1000)
    assert set(goes) == {"mill", "leach", "waste"}


# Each key of [schedule] that a study without processes may have, as the text of `init` has it.
PLAN_BY_YEARS = {
    "years": 15,
    "per_year": 1,
    "when": "mid",
    "mining_rate": [15e6, 20e6],
    "mill_rate": [4e6, 8e6],
    "discount": 0.08,
    "cutoff": "fixed",
    "sink": 8,
    "panel": 1,
    "pushbacks": [0.5, 0.75],
    "lead": 0,
    "fixed_cost": 0,
}
NOTHING_ASKED = {
    "per_year": 1,
    "when": "mid",
    "cutoff": "fixed",
    "panel": 1,
    "lead": 0,
    "fixed_cost": 0,
}


def of_plan(folder, is_on):
    """A study that `init` writes, with some keys of [schedule] that are no comment."""
    table(6, 5, 3, 3).to_csv(folder / "t.csv", index=False)
    text = first_look.written(first_look.look_at(folder / "t.csv"), "t.csv")
    before, head, after = text.partition("\n[schedule]\n")
    assert re.findall(r"^# (\w+) = ", after, re.M) == list(PLAN_BY_YEARS)
    for name in is_on:
        after = after.replace(f"\n# {name} = ", f"\n{name} = ")
    (folder / "study.toml").write_text(before + head + after)
    return read_study_file(folder)


def asked(file):
    """What its section [schedule] says."""
    return {key: value for key, value in file.values["schedule"].items() if value is not None}


def test_the_plan_by_years_that_init_offers_asks_for_nothing_while_it_is_a_comment(tmp_path):
    file = of_plan(tmp_path, ())
    assert asked(file) == NOTHING_ASKED
    assert tomllib.loads(file.path.read_text())["schedule"] == {}


@pytest.mark.parametrize("name", PLAN_BY_YEARS)
def test_each_key_of_the_plan_by_years_that_init_offers_may_stand_alone(tmp_path, name):
    file = of_plan(tmp_path, [name])
    assert asked(file) == {**NOTHING_ASKED, name: PLAN_BY_YEARS[name]}
    assert not wrong_terms(file, "shells")


def test_the_plan_by_years_that_init_offers_is_one_once_it_is_no_comment(tmp_path):
    assert asked(of_plan(tmp_path, PLAN_BY_YEARS)) == PLAN_BY_YEARS
    assert "nothing is wrong" in run("check", tmp_path)
    run("build", tmp_path)
    run("shells", tmp_path)
    assert "pit schedule says: feasible" in run("schedule", tmp_path, "--gap", "5")
