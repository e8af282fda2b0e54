"""Sub-blocks are added up to blocks, or refused."""
import math

import numpy as np
import pandas as pd
import pytest
from hypothesis import given, strategies as st

import pitplan as pp
from mines import STUDY_TOML, costs, table, written_study
from pitplan.cli import build as commands_build
from pitplan.study.first_look import look_at
from tables import read, refusal


def split(frame, seed, part=0.5):
    """Some of the blocks cut in two along x."""
    whole = frame.assign(XINC=20.0, YINC=20.0, ZINC=15.0)
    cut = whole.sample(frac=part, random_state=seed)
    halves = [
        cut.assign(XC=cut.XC + side * 5, XINC=10.0, TONNES=cut.TONNES / 2) for side in (-1, 1)
    ]
    return pd.concat([whole.drop(cut.index), *halves], ignore_index=True)


@given(st.integers(0, 10**6), st.sampled_from([0.3, 1.0]))
def test_sub_blocks_are_refused_or_add_up(tmp_path_factory, seed, part):
    f = table(3, 3, 2, seed)
    g = split(f, seed, part)
    folder = tmp_path_factory.mktemp("s")
    first = int(np.argmax(g.XINC.to_numpy() < 20))
    if (g.XINC < 20).any():
        assert f"row {first + 2}, column XINC: is a sub-block of 10 x 20 x 15" in refusal(folder, g)
    a = read(folder, g, regularise=True)
    b = read(folder, f)
    order = ["ix", "iy", "iz"]
    a_sorted, b_sorted = (m.blocks.sort_values(order).reset_index(drop=True) for m in (a, b))
    for column in ("tonnes", "CU", "AU"):
        assert np.allclose(a_sorted[column], b_sorted[column])
    assert (a_sorted[order] == b_sorted[order]).all(axis=None)
    assert (a_sorted.rock == b_sorted.rock).all()
    assert a.grid == b.grid
    # each sub-block's row knows its whole block
    assert (a.blocks.ix.to_numpy()[a.row_block] == np.rint((g.XC - f.XC.min()) / 20 - 1e-9)).all()


def test_sub_blocks_weigh_by_density_and_size(tmp_path):
    f = pd.DataFrame(
        {
            "XC": [10, 10, 30.0],
            "YC": 10.0,
            "ZC": [2.5, 7.5, 5.0],
            "XINC": 20.0,
            "YINC": 20.0,
            "ZINC": [5, 5, 10.0],
            "DENSITY": [2.0, 3.0, 2.5],
            "CU": [1.0, 0.0, 0.5],
            "ROCK": ["A", "B", "A"],
        }
    )
    model = read(tmp_path, f.assign(ID=["a", "b", "c"]), size=(20, 20, 10), regularise=True)
    assert model.blocks["id"].tolist() == ["a", "c"]
    assert model.blocks["row"].tolist() == [
        0,
        2,
    ]  # both of the first row, whichever is the heaviest
    assert model.blocks.tonnes.tolist() == [10000, 10000]
    assert model.blocks.CU.round(6).tolist() == [0.4, 0.5]
    assert model.blocks.rock.tolist() == ["B", "A"]


CODED = pd.DataFrame(
    {
        "XC": [10, 30, 30, 50, 50, 50.0],
        "YC": 10.0,
        "ZC": [5, 2.5, 7.5, 2, 5.5, 8.5],
        "XINC": 20.0,
        "YINC": 20.0,
        "ZINC": [10, 5, 5, 4, 3, 3.0],
        "DENSITY": 1.9,
        "CU": [1, 0.5, 0.5, 0, 1, 1.0],
        "SECTOR": [3, 3, 3, 1, 2, 2],
        "LAKE": [0, 0, 0, 1, 0, 0],
        "ROCK": ["A", "A", "A", "B", "A", "A "],
    }
)


def test_codes_of_sub_blocks_stay_codes(tmp_path):
    """1.9 times 3 by 1.9 is 2.9999999999999996; the third block has 4 m of sector 1 under the lake,
    and twice 3 m of sector 2."""
    model = read(tmp_path, CODED, size=(20, 20, 10), regularise=True, widen=1)
    assert model.blocks.SECTOR[:2].tolist() == [3, 3]
    assert model.blocks.rock[:3].tolist() == ["A", "A", "A"]
    assert model.blocks.CU[2].round(9) == 0.6
    by, found = pp.Slopes(45, by="SECTOR", regions={"3": 40, "2": 42}), costs(
        mining="where(SECTOR == 3, 1, where(SECTOR == 2, 2, 9))",
        processing="where(CU > 0.7, 5, 6)",
        forbid=["LAKE == 1"],
    )
    for now in (model, pp.Study.create(tmp_path / "s", model, found, by).model):
        priced = found.priced(now)
        assert (
            by.region_of(now).tolist() == [1, 1, 2] + [1] * 7 + [2] * 5
        )  # a copy beside the model has its block's
        assert priced.forbidden.tolist() == [False, False, True] + [False] * 12
        assert priced.mining[:2].tolist() == [7600, 7600]
        assert priced.ways[0].processing[:3].tolist() == [38000, 45600, 45600]
        assert now.blocks.SECTOR[2] == (1.6 if now is model else 2)  # by the mean grade, 0.6
    assert found.partly_forbidden(model)[:3].tolist() == [False, False, True]
    assert any("SECTOR is taken as a code: of 1 blocks" in note for note in now.notes)


def test_build_says_which_codes_are_mixed_and_what_forbid_keeps_in_part(tmp_path, capsys):
    text = STUDY_TOML.replace(
        "size = [20, 20, 15]", "size = [20, 20, 10]\nregularise = true"
    ).replace("mining = 2.0", "mining = 2.0\nforbid = ['LAKE == 1', 'XC < 20']")
    text = text.replace("angles = 45", "angles = 45\nby = 'SECTOR'\nregions = { 3 = 40 }").replace(
        "processing = { OXI = 7.5, SUL = 9.0 }", "processing = 9"
    )
    commands_build.build(written_study(tmp_path / "s", CODED, text))
    said = capsys.readouterr().out
    assert (
        "SECTOR is taken as a code: of 1 blocks with several values each has that of the most tonnes"
        in said
    )
    assert (
        "2 of 3 blocks may not be dug, by forbid; of 1 of them it holds for some sub-blocks alone"
        in said
    )


@pytest.mark.parametrize("rotation", [0, 33])
def test_coordinates_of_sub_blocks_may_be_rounded(tmp_path, rotation):
    """To a millimetre, as packages write them; and the look of the table tells how it is turned, by
    whole blocks alone."""
    size, t = (12.5, 12.5, 6), math.radians(rotation)
    f = table(9, 8, 3, 4, rotation, size).assign(XINC=12.5, YINC=12.5, ZINC=6.0)
    cut = f.sample(frac=0.4, random_state=1)
    parts = [
        cut.assign(
            XC=cut.XC + off * math.sin(t),
            YC=cut.YC + off * math.cos(t),
            YINC=long,
            TONNES=cut.TONNES * long / 12.5,
        )
        for off, long in ((-1.5625, 9.375), (4.6875, 3.125))
    ]
    g = pd.concat([f.drop(cut.index), *parts]).round({"XC": 3, "YC": 3})
    found, whole = (
        read(tmp_path, g, size=size, rotation=rotation, regularise=True).blocks,
        read(tmp_path, f, size=size, rotation=rotation).blocks,
    )
    order = ["ix", "iy", "iz"]
    found, whole = found.sort_values(order), whole.sort_values(order)
    assert (found[order].to_numpy() == whole[order].to_numpy()).all()
    assert np.allclose(found.tonnes, whole.tonnes)
    g.to_csv(tmp_path / "u.csv", index=False)
    assert look_at(tmp_path / "u.csv").rotation == rotation
    off = g.assign(
        XC=g.XC.where(g.YINC > 4, g.XC + 0.2 * math.sin(t)),
        YC=g.YC.where(g.YINC > 4, g.YC + 0.2 * math.cos(t)),
    )
    assert "the sub-block lies over a side of a whole block" in refusal(
        tmp_path, off, size=size, rotation=rotation, regularise=True
    )


def test_a_bad_cell_among_sub_blocks_isnt_lost(tmp_path):
    g = split(table(4, 3, 2, 1), 1)
    g["AU"] = g["AU"].astype(object)
    g.loc[len(g) - 1, "AU"] = "<0.01"
    assert f"row {len(g) + 1}, column AU" in refusal(tmp_path, g, regularise=True)
