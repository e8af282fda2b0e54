"""Where a pit touches the model's side and its floor, against pairs that are worked out by hand."""
from types import SimpleNamespace

import numpy as np
import pandas as pd
import pytest
from scipy import ndimage

import pitplan as pp
from mines import costs, study_of
from pitplan.cli import shells as commands_shells
from pitplan.study import edges


def leading_out(study, only=None):
    """Whether each block has an offset that leads out of the sides of a box that is full up to a
    flat ground; by the slopes of its region, or of one for all."""
    b, (nx, ny, nz), offsets = study.model.blocks, study.model.grid.shape, study.offsets
    for x, y, z, name in zip(
        b.ix, b.iy, b.iz, b["SECTOR"] if "SECTOR" in b else ["default"] * len(b)
    ):
        own = offsets.get(only or name, offsets["default"])
        yield any(z + c < nz and not (0 <= x + a < nx and 0 <= y + b < ny) for a, b, c in own)


def touched_by_hand(shells, i):
    """Blocks of a pit whose offsets lead out of such a box."""
    return int(np.count_nonzero(shells.holds(i) & np.array(list(leading_out(shells.study)))))


def flat(nx, ny, nz, rich):
    """A full box of waste with one rich block."""
    i, j, k = (
        v.ravel() for v in np.meshgrid(np.arange(nx), np.arange(ny), np.arange(nz), indexing="ij")
    )
    return pd.DataFrame(
        {
            "XC": 20.0 * i,
            "YC": 20.0 * j,
            "ZC": 15.0 * k,
            "TONNES": 15000.0,
            "CU": np.where((i == rich[0]) & (j == rich[1]) & (k == rich[2]), 90.0, 0.0),
            "ROCK": "SUL",
        }
    )


def test_where_a_pit_touches_the_side_of_the_model(tmp_path):
    for name, rich, touches in (
        ("middle", (6, 6, 2), False),
        ("side", (1, 6, 0), True),
        ("corner", (0, 0, 1), True),
    ):
        shells = study_of(tmp_path, flat(13, 13, 5, rich)).shells([1000])
        assert shells.holds(0).sum() > 1
        assert shells.touches_edge(0) == touched_by_hand(shells, 0), name
        assert (shells.touches_edge(0) > 0) == touches, name


def test_the_side_is_looked_at_by_the_slopes_of_each_block_s_region(tmp_path):
    """Of each block of a full box, of which one half has flat slopes: these lead out of the box
    from further within."""
    frame = flat(9, 8, 4, (4, 4, 0)).assign(SECTOR=lambda f: np.where(f.XC < 80, "WEST", "EAST"))
    study = study_of(tmp_path, frame, pp.Slopes(50, by="SECTOR", regions={"EAST": 25}))
    steep, low = (np.array(list(leading_out(study, only=name))) for name in ("default", "EAST"))
    assert (edges.touching(study) == np.array(list(leading_out(study)))).all()
    assert (low > steep).any()
    assert (low >= steep).all()


def test_a_notch_in_the_side_and_low_ground_beside_a_pit(tmp_path):
    f = flat(13, 13, 5, (6, 6, 0))
    notch = f[
        ~((f.XC <= 80) & (f.YC.between(100, 140)))
    ]  # columns that are missing from the west side up to the pit
    assert study_of(tmp_path, notch).shells([1000]).touches_edge(0) > 0
    valley = f[
        ~((f.XC <= 100) & (f.ZC > 30))
    ]  # the ground is low there: a place above it is air, and no wall is missing
    assert study_of(tmp_path, valley).shells([1000]).touches_edge(0) == 0
    bottom = f[~((f.XC <= 100) & (f.ZC < 50))]  # no rows below: a wall would need them
    assert study_of(tmp_path, bottom).shells([1000]).touches_edge(0) > 0


def asks_for(place, where, offsets, top, low):
    """Whether one of a block's offsets leads to a place that isn't in the model and isn't air,
    place by place.

    `where` says what a column is: "rows", "shaft", or nothing where it has no row and the way out
    is free; there and beyond the sides the ground goes on as in the nearest column.
    """
    (nx, ny), found = top.shape, False
    for offset in offsets:
        x, y, z = (a + b for a, b in zip(place, offset))
        near = min(max(x, 0), nx - 1), min(max(y, 0), ny - 1)
        if near != (x, y) or not where[near]:
            found |= z <= top[near]
        elif where[near] == "rows":
            found |= z < low[near]
    return found


@pytest.mark.parametrize("seed", range(80))
def test_each_block_that_touches_the_side(seed):
    r = np.random.default_rng(seed)
    shape = tuple(map(int, r.integers(1, 8, 3)))
    there = (r.random(shape) < r.choice([0.6, 0.9, 1])) & (
        r.random(shape[:2]) < r.choice([0.7, 0.9, 1])
    )[:, :, None]
    there[0, 0, 0] = True
    places = np.argwhere(there)
    r.shuffle(places)
    n = len(places)
    blocks = pd.DataFrame(
        {
            **dict(zip(("ix", "iy", "iz"), places.T.astype(np.int32))),
            "tonnes": r.choice([0.0, 5.0], n, p=[0.2, 0.8]),
        }
    )
    model = pp.Model(blocks, pp.Grid((0.0, 0.0, 0.0), (1.0, 1.0, 1.0), shape))
    offsets = [
        [[*map(int, r.integers(-2, 3, 2)), int(r.integers(1, 4))] for _ in range(r.integers(1, 6))]
        for _ in range(2)
    ]
    region = r.integers(0, 2, n)
    free, _ = ndimage.label(np.pad(~there.any(axis=2), 1, constant_values=True))
    where = np.where(
        there.any(axis=2), "rows", np.where(free[1:-1, 1:-1] == free[0, 0], "", "shaft")
    )
    top, low = edges.ground(model)
    study = SimpleNamespace(
        model=model, region=region, sides=list(edges.highest_touching(model, offsets))
    )
    rock = blocks["tonnes"].to_numpy() > 0
    wanted = [
        bool(rock[b] and asks_for(places[b], where, offsets[region[b]], top, low)) for b in range(n)
    ]
    assert edges.touching(study).tolist() == wanted


def with_air(f, levels):
    """A flat model with rows of air on top, as packages export a whole box."""
    top = f[f.ZC == f.ZC.max()]
    return pd.concat(
        [
            f,
            *(
                top.assign(ZC=top.ZC + 15.0 * (k + 1), TONNES=0.0, CU=0.0, ROCK="AIR")
                for k in range(levels)
            ),
        ],
        ignore_index=True,
    )


def test_rows_of_air_are_no_ground_beyond_the_side(tmp_path):
    """The pit comes to the side on the highest bench: its slope asks for places of air there, with
    rows of air in the table or without."""
    costs_of_rock = costs(processing={"SUL": 9.0, "AIR": 0.0})
    for x, touches in ((3, False), (2, True)):
        bare = flat(13, 13, 5, (x, 6, 0))
        places = []
        for frame in (bare, with_air(bare, 3)):
            shells = study_of(
                tmp_path, frame, economics=costs_of_rock if len(frame) > len(bare) else None
            ).shells([1000])
            b = shells.study.model.blocks
            places.append(set(map(tuple, b[shells.touching][["ix", "iy", "iz"]].to_numpy())))
        assert places[0] == places[1], x
        assert (len(places[0]) > 0) == touches, x


def test_where_a_pit_reaches_the_floor_of_the_model(tmp_path):
    f = flat(13, 13, 5, (6, 6, 1))
    below = (f.XC == 120) & (f.YC == 120) & (f.ZC == 0)
    for name, frame, count in (
        ("a level above", f, 0),
        ("the lowest level", f.assign(CU=np.where(below, 90.0, 0.0)), 1),
        ("no row below", f[~below], 1),
        ("air below", f.assign(TONNES=np.where(below, 0.0, f.TONNES)), 0),
    ):
        shells = study_of(tmp_path, frame).shells([0, 1000])
        assert shells.holds(1).sum() > 1, name
        assert [shells.reaches_floor(i) for i in (0, 1)] == [0, count], name


def test_what_is_said_of_the_side_and_of_the_floor(tmp_path, capsys):
    for rich, words in (
        ((6, 6, 1), []),
        ((6, 6, 0), ["reaches the model's floor (1 block there)"]),
        ((1, 6, 1), ["touches the side of the model ("]),
        (
            (1, 6, 0),
            [
                "touches the side of the model (",
                "reaches the model's floor (1 block there, 1 at factor 1.2)",
            ],
        ),
    ):
        found = study_of(tmp_path, flat(13, 13, 5, rich)).shells(
            [0, 1000, 1200] if len(words) > 1 else [0, 1000]
        )
        commands_shells.warn_of_edges(found)
        said = capsys.readouterr().err
        assert said.count("look: from factor 1 on") == len(words), (rich, said)
        assert all(word in said for word in words), (rich, said)
