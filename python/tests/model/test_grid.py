"""The grid of a table's blocks: one block at a place, each on the grid."""
import numpy as np
import pandas as pd

from mines import table
from tables import read, refusal


def test_depths_count_downward(tmp_path):
    f = table(4, 4, 4, 3)
    plain = read(tmp_path, f)
    deep = read(tmp_path, f.assign(ZC=500 - f.ZC), z="depth")
    assert (plain.blocks.iz == deep.blocks.iz).all()
    x, y, z = deep.xyz()
    assert np.allclose(z, f.ZC - 500)


def test_two_blocks_at_one_place(tmp_path):
    f = table(4, 3, 2, 1)
    g = pd.concat([f, f.iloc[[4]]], ignore_index=True)
    assert f"row {len(g) + 1}, column XC: is at the place of row 6" in refusal(tmp_path, g)


def test_a_centre_off_the_grid_is_told_by_its_row(tmp_path):
    f = table(5, 5, 3, 1)
    lowest = int(f.XC.idxmin())
    f.loc[lowest, "XC"] -= 4
    said = refusal(tmp_path, f)
    assert f"row {lowest + 2}, column XC" in said
    assert "0.20 of a block of 20 off the grid" in said
    assert "rotation" in refusal(tmp_path, table(5, 5, 3, 1, rotation=20))
    assert "no two blocks are neighbours" in refusal(tmp_path, table(5, 5, 3, 1), size=(10, 20, 15))
    far = table(5, 5, 3, 1)
    far.loc[9, "XC"] += 20 * 10**6
    assert "row 11, column XC" in refusal(tmp_path, far)
