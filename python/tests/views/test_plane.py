"""A bench or a section as arrays: each block where it is, at any rotation."""
import numpy as np
from hypothesis import given, strategies as st

from mines import table
from pitplan.model.grid import Grid
from pitplan.model.model import Model
from pitplan.views import plane


@st.composite
def models(draw):
    shape = tuple(draw(st.integers(1, 5)) for _ in range(3))
    size = tuple(draw(st.sampled_from([5.0, 10.0, 12.5])) for _ in range(3))
    frame = table(*shape, draw(st.integers(0, 99)), size=size)
    step = [
        np.rint((frame[c] - o) / s).astype(int)
        for c, o, s in (("XC", 5000, size[0]), ("YC", 9000, size[1]), ("ZC", 100, size[2]))
    ]
    blocks = frame.assign(
        ix=step[0], iy=step[1], iz=step[2], row=range(len(frame)), tonnes=frame.TONNES
    )
    return Model(
        blocks,
        Grid(
            (5000.0, 9000.0, 100.0), size, shape, draw(st.sampled_from([0.0, 30.0, -72.5, 190.0]))
        ),
        "mine",
    )


def centres(cut):
    """The middle of each cell, as the mean of its corners."""
    return [(c[:-1, :-1] + c[1:, :-1] + c[:-1, 1:] + c[1:, 1:]) / 4 for c in (cut.across, cut.up)]


@given(models())
def test_each_block_is_drawn_where_it_is(model):
    east, north, up = model.xyz()
    seen = []
    for level in range(model.grid.shape[2]):
        cut = plane.bench(model, level)
        there = cut.number >= 0
        x, y = centres(cut)
        assert np.allclose(x[there], east[cut.number[there]])
        assert np.allclose(y[there], north[cut.number[there]])
        seen += cut.number[there].tolist()
    assert sorted(seen) == list(range(len(model)))


@given(models())
def test_sections_have_every_block_at_its_distance_and_elevation(model):
    east, north, up = model.xyz()
    for axis, count in (("y", model.grid.shape[1]), ("x", model.grid.shape[0])):
        seen = []
        for index in range(count):
            cut = plane.section(model, axis, index)
            there = cut.number >= 0
            x, y = centres(cut)
            blocks = cut.number[there]
            assert np.allclose(y[there], up[blocks])
            if model.grid.rotation == 0:
                assert np.allclose(x[there], (east if axis == "y" else north)[blocks])
            elif len(blocks):  # a distance along the section: that between places
                gone = np.hypot(east[blocks] - east[blocks[0]], north[blocks] - north[blocks[0]])
                assert np.allclose(np.abs(x[there] - x[there][0]), gone)
            seen += blocks.tolist()
        assert sorted(seen) == list(range(len(model)))
