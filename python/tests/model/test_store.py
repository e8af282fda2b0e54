"""A model as arrays in one file: what comes back, and what is refused."""
import dataclasses
import json

import numpy as np
import pandas as pd
import pytest

import pitplan as pp
from mines import SIZE, costs, study_of, table
from pitplan.model import store


def _arrays(path):
    with np.load(path) as file:
        return {name: file[name] for name in file.files}


def test_a_model_of_an_older_build_has_one_mill(tmp_path):
    study = study_of(tmp_path, table(6, 5, 3, 2))
    path = study.where / "blocks.npz"
    arrays = _arrays(path)
    facts = json.loads(bytes(arrays["told"]).decode())
    del facts["processes"]
    arrays["told"] = np.frombuffer(json.dumps(facts).encode(), np.uint8)
    np.savez(path, **arrays)
    found = store.load_priced(path)
    assert [way.name for way in found.ways] == ["mill"]
    assert (found.ways[0].revenue == study.priced.ways[0].revenue).all()
    assert found.ways[0].feed == study.priced.ways[0].feed


def test_a_model_comes_back_from_its_file(tmp_path):
    study = study_of(tmp_path, table(6, 5, 4, 3, rotation=30), rotation=30, widen=1)
    path = tmp_path / "t.csv"
    model = pp.read_table(path, size=SIZE, rotation=30, widen=1)
    again = study.model
    assert again.grid == model.grid
    assert again.columns == model.columns
    assert (again.row_block == model.row_block).all()
    pd.testing.assert_frame_equal(again.blocks, model.blocks)


def test_an_empty_cell_among_words_comes_back_as_one(tmp_path):
    """What-ifs, designs and risk read the model from its file: where the lease has no name, a block
    may be dug there too."""
    frame = table(6, 5, 4, 3)
    frame["LEASE"] = np.where(frame.XC < 5040, "", "OTHERS")
    frame.to_csv(tmp_path / "t.csv", index=False)
    economics = costs(forbid=["LEASE != ''"])
    study = pp.Study.create(
        tmp_path / "s", pp.read_table(tmp_path / "t.csv", size=SIZE), economics, pp.Slopes(45)
    )
    assert (economics.priced(study.model).forbidden == (frame.LEASE == "OTHERS")).all()
    assert (study.priced.forbidden == (frame.LEASE == "OTHERS")).all()


def test_a_store_takes_no_pickles(tmp_path):
    np.savez(tmp_path / "x.npz", told=np.array([{"a": 1}], dtype=object))
    with pytest.raises(pp.PlanError, match="isn.t a model that pitplan wrote"):
        store.load_model(tmp_path / "x.npz")


def _of_another_type(one):
    return one.astype(np.int8 if one.dtype.kind in "bu" else "U9")


@pytest.mark.parametrize("change", [_of_another_type, lambda one: one[None], lambda one: one[:-1]])
def test_an_array_of_another_type_or_shape_is_no_model(tmp_path, change):
    study = study_of(tmp_path, table(3, 3, 3, 2))
    path = study.where / "blocks.npz"
    sound = _arrays(path)
    of_any_length = {"row_block", "region"} if len(change(np.zeros(2))) == 1 else set()
    names = {name for name in sound if name != "told" and not name.startswith("words ")}
    assert {"revenue", "mining", "metal copper", "forbidden", "column tonnes"} <= names
    for name in sorted(names - of_any_length - {"unfenced"}):
        np.savez(path, **sound | {name: change(sound[name])})
        with pytest.raises(pp.PlanError, match="isn.t a model that pitplan wrote"):
            for read in (store.load_model, store.load_priced, store.load_region):
                read(path)


@pytest.mark.parametrize("name", ["column ix", "column iz", "column row", "row_block"])
@pytest.mark.parametrize("index", [-2, 100])
def test_an_index_outside_the_grid_is_no_model(tmp_path, name, index):
    study = study_of(tmp_path, table(3, 3, 3, 2))
    path = study.where / "blocks.npz"
    arrays = _arrays(path)
    arrays[name][-1] = index
    np.savez(path, **arrays)
    with pytest.raises(pp.PlanError, match="isn.t a model that pitplan wrote"):
        store.load_model(path)


def test_the_lean_model_has_what_pricing_asks_for(tmp_path):
    frame = table(6, 5, 4, 3).rename(columns={"AU": "ley é", "TONNES": "T"})
    frame = frame.assign(**{"it's": 1.5, "spare": 1.0, "CLAY_\u00b5": 0.5})
    economics = costs(
        mining="2 + 0.01 * (160 - ZC) + column('ley é') + CLAY_\u03bc",
        processing={"OXI": 7.5, "SUL": 9.0},
        forbid=["SECTOR == 'WEST' and column(\"it's\") > 2"],
    )
    study = study_of(tmp_path, frame, economics=economics, columns={"tonnes": "T"})
    lean = store.load_lean(study.where / "blocks.npz", dataclasses.asdict(economics))
    assert {"ZC", "ley é", "SECTOR", "it's", "CU", "rock"} <= set(lean.blocks.columns)
    assert not {"spare", "id", "IJK", "T", "XC"} & set(lean.blocks.columns)
    assert lean.blocks.rock.tolist() == study.model.blocks.rock.tolist()
    ours = economics.priced(lean)
    for name in ("revenue", "processing"):
        assert (getattr(ours.ways[0], name) == getattr(study.priced.ways[0], name)).all()
    assert (ours.mining == study.priced.mining).all()
