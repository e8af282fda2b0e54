"""Faces of a DXF, within blocks too, and the heights that many small triangles give."""
import math

import ezdxf
import numpy as np
import pytest
from matplotlib.tri import Triangulation

import pitplan as pp
from designs import bowl, face
from pitplan.plans import surface


def tower(height, times, holds_face):
    """A block that has so many of another, that of the next, and so on down to a face, or to
    nothing."""
    document = ezdxf.new("R2010")
    for level in range(height):
        block = document.blocks.new(f"B{level}")
        for _ in range(times if level else 0):
            block.add_blockref(f"B{level - 1}", (0, 0))
    if holds_face:
        document.blocks.get("B0").add_3dface([(0, 0, 0), (1, 0, 0), (0, 1, 0)])
    document.modelspace().add_blockref(f"B{height - 1}", (0, 0))
    return document


def minsert(rows, columns, **spacing):
    document = tower(1, 0, True)
    document.modelspace().add_blockref(
        "B0", (0, 0), dxfattribs={"row_count": rows, "column_count": columns, **spacing}
    )
    return document


def holding_itself():
    document = tower(2, 1, True)
    document.blocks.get("B0").add_blockref("B1", (0, 0))
    return document


@pytest.mark.parametrize(
    "made, said",
    [
        (lambda: tower(8, 10, True), "its blocks bring more than 3,000 faces"),
        (lambda: tower(8, 10, False), "its blocks bring more than 3,000 faces"),
        (lambda: tower(40, 1, True), "more than 32 deep"),
        (lambda: minsert(30000, 30000, row_spacing=1, column_spacing=1), "bring more than 3,000"),
        (lambda: minsert(2, 10**9, row_spacing=1), "bring more than 3,000"),
        (holding_itself, "the block 'B[01]' holds itself"),
        (lambda: face(1e300, 0, 0), "corners are no places, the first is \\(1e\\+300"),
        (lambda: face(0, math.inf, 0), "are no places"),
    ],
)
def test_a_dxf_whose_blocks_never_end_or_that_leads_to_infinity_is_refused(
    tmp_path, monkeypatch, made, said
):
    monkeypatch.setattr(surface, "MOST_ENTITIES", 3000)
    made().saveas(tmp_path / "d.dxf")
    with pytest.raises(pp.PlanError, match=said):
        surface.of_dxf(tmp_path / "d.dxf")


def test_faces_of_a_dxf_within_blocks_within_blocks_count(tmp_path, monkeypatch):
    """Ten times ten faces of blocks, and more of its own than blocks may bring."""
    document = tower(3, 10, True)
    for i in range(400):
        document.modelspace().add_3dface([(i, 5, 0), (i + 1, 5, 0), (i, 6, 0)])
    document.saveas(tmp_path / "d.dxf")
    monkeypatch.setattr(surface, "MOST_ENTITIES", 350)
    assert len(surface.of_dxf(tmp_path / "d.dxf").triangles) == 500


def test_many_small_triangles_in_several_pieces(monkeypatch, study):
    points = bowl(study.model, 400)
    tri = Triangulation(*(points[:, :2] - points[:, :2].mean(axis=0)).T)
    whole = surface.heights(
        surface.Surface(points, tri.triangles.astype(np.int64)), study.model.grid
    )
    monkeypatch.setattr(surface, "AT_ONCE", 7)
    assert np.array_equal(
        surface.heights(surface.Surface(points, tri.triangles.astype(np.int64)), study.model.grid),
        whole,
        equal_nan=True,
    )


def test_of_points_over_one_another_the_lowest_counts():
    """A berm's edge and the toe below it, at one place."""
    points = np.array([[0, 0, 0], [9, 0, 0], [0, 9, 5], [0, 9, 1], [0, 9, 3], [9, 9, 2.0]])
    kept = surface.of_points(points, "t").points.tolist()
    assert kept == [[0, 0, 0], [0, 9, 1], [9, 0, 0], [9, 9, 2]]
