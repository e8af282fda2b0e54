"""Columns that say how much of a block is rock or ore: what `build` looks at, and what `init` takes
for no grade."""
import numpy as np
import pandas as pd
import pytest

from mines import costs, table
import pitplan as pp
from pitplan.study import first_look
from pitplan.study.strange_inputs import of_unread
from types import SimpleNamespace


def with_part(name, most=100):
    """A mine whose highest blocks are cut by the ground, in a column of what is left of each."""
    frame = table(8, 7, 5, 5)
    top = frame.groupby(["XC", "YC"])["ZC"].transform("max")
    left = np.random.default_rng(3).integers(1, 100, len(frame))
    return frame.assign(**{name: np.where(frame.ZC == top, left, 100) * most / 100})


def looks_at(folder, frame, **keys):
    frame.to_csv(folder / "t.csv", index=False)
    model = pp.read_table(folder / "t.csv", size=(20, 20, 15), **keys)
    return list(of_unread(model, SimpleNamespace(economics=costs(), slopes=pp.Slopes(45))))


@pytest.mark.parametrize(
    "name, first",
    [
        ("TOPO", "topography"),
        ("topo", "topography"),
        ("TOPO%", "topography"),
        ("PARTIAL_PERC", "topography"),
        ("ROCK_IN_ORE_PCT", "topography"),
        ("ORE", "ore"),
        ("ORE_PCT", "ore"),
        ("OREPCT", "ore"),
        ("%ore", "ore"),
    ],
)
def test_a_percent_that_nothing_reads_names_the_keys_that_of_its_name_first(tmp_path, name, first):
    (look,) = looks_at(tmp_path, with_part(name))
    assert f"nothing reads the column {name}, which is from 4 to 100" in str(look)
    known = 'columns = { id = "IJK", x = "XC", y = "YC", z = "ZC"'
    assert look.try_this.startswith(known)
    assert f'{first} = "{name}" }} in [model], if' in look.try_this.partition(";")[0]
    assert f'topography = "{name}" }}' in look.try_this
    assert f'ore = "{name}" }}' in look.try_this
    assert look.try_this.count(known) == 2  # what is copied names all columns
    for key in ("topography", "ore"):
        assert not looks_at(tmp_path, with_part(name), columns={key: name})


def test_a_share_is_offered_a_formula(tmp_path):
    (look,) = looks_at(tmp_path, with_part("TOPO", 1))
    assert 'tonnes = "SG * 4000 * TOPO" in [model]' in look.try_this
    (look,) = looks_at(tmp_path, with_part("ORE", 1))
    assert look.try_this.startswith("a column of 100 times as much as ore in columns in [model]")


@pytest.mark.parametrize("name, most", [("CORE", 100), ("AG", 100), ("TOPO", 87), ("ORE", 3.1)])
def test_other_columns_are_no_percents(tmp_path, name, most):
    """By another name, or by what they end at."""
    assert not looks_at(tmp_path, with_part(name, most))


def test_init_takes_a_percent_of_rock_for_no_grade(tmp_path):
    frame = with_part("TOPO").drop(columns=["CU", "AU"]).assign(ZN=lambda f: f.XC % 7 + f.ZC / 90)
    frame.to_csv(tmp_path / "t.csv", index=False)
    look = first_look.look_at(tmp_path / "t.csv")
    assert look.grades == ["ZN"]
    assert look.parts == ["TOPO"]
    (note,) = [note for note in look.notes if "TOPO" in note]
    assert "no grade by its name" in note
    assert 'topography = "TOPO"' in note
    assert "TOPO" not in first_look.written(look, "t.csv")
    assert first_look.look_at(tmp_path / "t.csv").names["x"] == "XC"
    assert pd.read_csv(tmp_path / "t.csv").TOPO.max() == 100
