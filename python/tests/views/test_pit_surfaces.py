"""The surface of a pit: one height for each column, by a model that is drawn by hand."""
import base64
import copy
import zlib
from types import SimpleNamespace

import numpy as np
import pandas as pd
import pytest

import pitplan as pp
from mines import shells_of
from pitplan.views import pit_surfaces

NONE = pit_surfaces.NO_COLUMN
# three columns along x, of four benches from the floor up: "#" rock, "." air with a row, " " no row
DRAWN = ("###.", "## #", "    ")


def drawn(columns=DRAWN):
    """The study of a drawing, and where each block is."""
    places = [
        (i, k) for i, column in enumerate(columns) for k, what in enumerate(column) if what != " "
    ]
    index = np.full((len(columns), 1, 4), -1)
    for number, (i, k) in enumerate(places):
        index[i, 0, k] = number
    model = SimpleNamespace(
        index=index,
        is_rock=np.array([columns[i][k] == "#" for i, k in places]),
        blocks=pd.DataFrame({"id": [f"{i}-{k}" for i, k in places]}),
    )
    return SimpleNamespace(model=model, named="s"), places


def held(places, *wanted):
    return np.array([place in wanted for place in places])


def test_the_ground_is_above_the_highest_rock_and_a_pit_lower():
    study, places = drawn()
    pit = held(places, (0, 2), (0, 1), (0, 3), (1, 3))
    found = pit_surfaces.surfaces(study, [("a", held(places)), ("b", pit)])
    assert found[:, :, 0].tolist() == [[3, 4, NONE], [3, 4, NONE], [1, 3, NONE]]
    assert found.dtype == np.uint16


def test_a_block_below_rock_that_stays_is_refused():
    study, places = drawn()
    for wanted, block, more in (
        ([(0, 1)], "0-1", ""),
        ([(1, 1)], "1-1", ""),
        ([(0, 1), (1, 0), (1, 1)], "0-1", "; 2 columns are so"),
    ):
        with pytest.raises(pp.PlanError) as error:
            pit_surfaces.surfaces(study, [("pit", held(places, *wanted))])
        assert f"pit has block {block} without all that is above it{more}: its" in str(error.value)


def test_rows_of_air_are_no_ground(tmp_path):
    shells = shells_of(tmp_path)
    model = copy.copy(shells.study.model)
    model.blocks = model.blocks.copy()
    top = model.grid.shape[2] - 1
    model.blocks.loc[model.blocks["iz"] == top, "tonnes"] = 0.0
    found = pit_surfaces.surfaces(SimpleNamespace(model=model), [("the pit", shells.holds(3))])
    there = found[0] != pit_surfaces.NO_COLUMN
    assert found[0][there].max() == top
    assert (found[1][there] <= found[0][there]).all()


def test_heights_are_packed_as_what_each_pit_is_lower():
    levels = np.array([[[3, 4], [NONE, 2]], [[3, 2], [NONE, 2]], [[0, 2], [NONE, 1]]], np.uint16)
    data = np.frombuffer(zlib.decompress(base64.b64decode(pit_surfaces.packed(levels))), "<u2")
    assert data.tolist() == [3, 4, NONE, 2, 0, 2, 0, 0, 3, 0, 0, 1]


def test_marks_are_bits_level_by_level_of_each_column():
    study, places = drawn()
    text = pit_surfaces.packed_marks(held(places, (0, 0), (0, 2), (1, 3)), study.model.index)
    assert zlib.decompress(base64.b64decode(text)) == bytes([0b10100001, 0])
    assert pit_surfaces.packed_marks(held(places), study.model.index) == ""
