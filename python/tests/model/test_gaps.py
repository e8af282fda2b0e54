"""Blocks that a table lacks, and what stands in their place."""
import numpy as np

from mines import costs, table
from tables import read, refusal


def hole_in(frame, height=115.0):
    """The row of a block with others above and below it, in the middle of the model."""
    for x, y in frame[["XC", "YC"]].drop_duplicates().itertuples(index=False):
        column = frame[(frame.XC == x) & (frame.YC == y)]
        if column.ZC.max() > height > column.ZC.min():
            return column.index[column.ZC == height]
    raise AssertionError("no such column")


def test_missing_rows_are_told_apart(tmp_path):
    f = table(5, 5, 4, 8)
    assert any("above the highest block" in note for note in read(tmp_path, f).notes)
    hole = hole_in(f)
    at = f.loc[hole[0]]
    said = refusal(tmp_path, f.drop(hole))
    assert f"({at.XC:g}, {at.YC:g}, {at.ZC:g}) has no row, with blocks above and below it" in said
    kept = f.drop(hole)
    like = f'fill = {{ tonnes = {kept.TONNES.mean():.0f}, rock = "{kept.ROCK.mode()[0]}" }}'
    assert like in said  # a block of this mine
    assert like in refusal(tmp_path, kept, missing="rock")
    inside = f.index[(f.XC == 5040) & (f.YC == 9040)]
    assert "the whole column at (5040, 9040) is missing" in refusal(tmp_path, f.drop(inside))
    air = read(tmp_path, f.drop(hole), missing="air")
    assert len(air) == len(f)
    assert air.blocks.tonnes.iloc[-1] == 0
    assert air.blocks.rock.iloc[-1] == "air"
    assert "fill" in refusal(tmp_path, f.drop(hole), missing="rock")
    rock = read(tmp_path, f.drop(hole), missing="rock", fill={"tonnes": 15000.0, "rock": "SUL"})
    last = rock.blocks.iloc[-1]
    assert (last.tonnes, last.rock, last["row"], last.XC, last.YC, last.ZC) == (
        15000,
        "SUL",
        -1,
        at.XC,
        at.YC,
        at.ZC,
    )
    assert costs().priced(rock).ways[0].revenue[-1] == 0  # what was filled in is never ore
    assert len(read(tmp_path, f.drop(inside), missing="air")) == len(f) - len(inside)


def test_what_fills_a_hole_has_the_columns_of_the_block_above(tmp_path):
    f = table(5, 5, 4, 8)
    hole = hole_in(f)
    at = f.loc[hole[0]]
    column = f[(f.XC == at.XC) & (f.YC == at.YC)].set_index("ZC")
    above, below = (column.loc[at.ZC + step] for step in (15, -15))
    last = read(
        tmp_path, f.drop(hole), missing="rock", fill={"tonnes": 15000.0, "rock": "SUL"}
    ).blocks.iloc[-1]
    assert (last.CU, last.AU, last.SECTOR) == (above.CU, above.AU, above.SECTOR)
    assert last.CU != below.CU
    assert last.CU == above.CU
    assert last.TONNES == above.TONNES != last.tonnes == 15000


def test_blocks_that_are_added_to_a_table_of_depths_have_depths_there(tmp_path):
    """Else a cost by depth, as a formula has it, would be that of another level."""
    f = table(5, 5, 4, 8)
    deep = f.assign(ZC=500 - f.ZC).drop(hole_in(f))
    model = read(
        tmp_path, deep, z="depth", missing="rock", fill={"tonnes": 15000.0, "rock": "SUL"}, widen=1
    )
    added = model.blocks["row"] < 0
    assert added.sum() > 20
    assert (
        model.blocks.ZC == 400 - 15 * model.blocks.iz
    ).all()  # the lowest centre is 100 up: 400 down
    mining = costs(mining="1 + 0.01 * ZC").priced(model).mining
    assert (
        np.abs(mining - model.blocks.tonnes * (1 + 0.01 * (400 - 15 * model.blocks.iz))).max()
        <= 0.501
    )


def test_added_columns_are_those_of_the_nearest_column(tmp_path):
    f = table(6, 5, 4, 4)
    model = read(tmp_path, f, widen=2)
    added = model.blocks[model.blocks["row"] < 0]
    source = f.assign(place=list(zip(f.XC, f.YC, f.ZC))).set_index("place")
    near = list(
        zip(added.XC.clip(f.XC.min(), f.XC.max()), added.YC.clip(f.YC.min(), f.YC.max()), added.ZC)
    )
    for column, own in (("TONNES", "tonnes"), ("ROCK", "rock"), ("SECTOR", "SECTOR")):
        assert source[column][near].tolist() == added[own].tolist()
    high = f.groupby(["XC", "YC"]).size()
    around = [
        (x, y) for x in 5000 + 20.0 * np.arange(-2, 8) for y in 9000 + 20.0 * np.arange(-2, 7)
    ]
    assert len(added) == sum(
        high[float(np.clip(x, f.XC.min(), f.XC.max())), float(np.clip(y, f.YC.min(), f.YC.max()))]
        for x, y in around
    ) - len(f)


def test_widened(tmp_path):
    f = table(6, 5, 4, 4, rotation=20)
    model = read(tmp_path, f, rotation=20, widen=3)
    assert model.grid.shape[:2] == (12, 11)
    added = model.blocks[model.blocks["row"] < 0]
    x, y, z = model.xyz()
    assert np.allclose(x, model.blocks.XC)
    assert np.allclose(y, model.blocks.YC)
    assert np.allclose(x[: len(f)], f.XC)
    assert len(added) == len(model) - len(f) > 0
    assert (costs().priced(model).ways[0].revenue[len(f) :] == 0).all()
    assert set(zip(added.ix, added.iy)) == {(i, j) for i in range(12) for j in range(11)} - {
        (i, j) for i in range(3, 9) for j in range(3, 8)
    }
