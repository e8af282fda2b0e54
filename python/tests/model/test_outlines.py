"""Outlines of cells: as large as they are, with holes, and with their corners cut."""
import numpy as np
from hypothesis import example, given, strategies as st
from hypothesis.extra.numpy import arrays
from scipy import ndimage
from shapely.geometry import Point, Polygon, box
from shapely.ops import unary_union

from pitplan.model import outlines


planes = arrays(bool, st.tuples(st.integers(1, 9), st.integers(1, 9)))


@given(planes)
@example(np.array([[1, 1, 1], [1, 0, 1], [1, 1, 0]], bool))  # meets itself at a corner
@example(np.array([[1, 0], [0, 1]], bool))
def test_an_outline_has_the_cells_and_no_more(plane):
    found = outlines.outline(plane)
    assert found.is_valid
    assert found.area == plane.sum()
    cells = [box(i - 0.5, j - 0.5, i + 0.5, j + 0.5) for i, j in np.argwhere(plane)]
    assert found.equals(unary_union(cells))
    for (i, j), there in np.ndenumerate(plane):
        assert found.contains(Point(i, j)) == there
    _, pieces = ndimage.label(plane)
    assert len(found.geoms) == pieces
    _, gaps = ndimage.label(~np.pad(plane, 1), np.ones((3, 3)))
    assert (
        sum(len(p.interiors) for p in found.geoms) >= gaps - 1
    )  # a gap that is cut off by a corner alone is a hole too
    for points, is_hole in outlines.rings(found):
        ring = Polygon(points)
        assert ring.exterior.is_ccw != is_hole
        ways = np.roll(points, -1, axis=0) - points
        assert ((ways != 0).sum(axis=1) == 1).all()
        assert (ways[:, 0] * np.roll(ways, -1, axis=0)[:, 0] == 0).all()  # each corner turns


def test_corners_are_cut_to_a_straight_line():
    stairs = np.array([[j <= i for j in range(6)] for i in range(6)])
    found = outlines.cut(outlines.outline(stairs))
    assert found.is_valid
    assert len(found.geoms) == 1
    slanting = [p for p in np.asarray(found.geoms[0].exterior.coords) if 1 <= p[0] <= 4]
    upper = [p for p in slanting if p[1] > 0]
    assert upper
    assert all(abs(p[1] - p[0] - 0.0) <= 0.5 for p in upper)
    square = outlines.cut(outlines.outline(np.ones((3, 3), bool)))
    assert square.area == 9 - 4 / 8  # four corners point out
    ring = np.ones((3, 3), bool)
    ring[1, 1] = False
    assert outlines.cut(outlines.outline(ring)).area == 8 - 4 / 8 + 4 / 8
