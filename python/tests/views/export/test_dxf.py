"""Outlines for CAD, read back by ezdxf and held against the planner's own table."""
import math

import ezdxf
import numpy as np
import pandas as pd
import pytest
from shapely.geometry import Point, Polygon

from files_back import BLOCK
from mines import SIZE, study_of
from pitplan.model import outlines
from pitplan.views.export import dxf as export_dxf, gpkg as export_gpkg


def polylines(path, layer):
    """Elevation, polygon, and what it is, of each polyline of a layer."""
    document = ezdxf.readfile(path)
    assert not document.audit().has_errors
    assert not document.audit().fixes
    for line in document.modelspace().query(f'LWPOLYLINE[layer=="{layer}"]'):
        assert line.closed
        yield line.dxf.elevation, Polygon(
            [(x, y) for x, y in line.get_points("xy")]
        ), line.get_xdata("PITPLAN")[-1].value


def test_dxf_outlines_hold_the_blocks_of_the_table(tmp_path, turned):
    shells, f = turned
    count = export_dxf.write(shells, tmp_path / "x.dxf")
    document = ezdxf.readfile(tmp_path / "x.dxf")
    assert len(document.modelspace()) == count
    assert document.units == ezdxf.units.M
    for i, factor in enumerate(shells.factors):
        inside = f[shells.holds(i)]
        assert len(inside)
        for edge, shift in (("TOE", -SIZE[2] / 2), ("CREST", SIZE[2] / 2)):
            found = list(polylines(tmp_path / "x.dxf", f"SHELL_{factor:04d}_{edge}"))
            area = sum(p.area if what == "outline" else -p.area for _, p, what in found)
            assert area * SIZE[2] == pytest.approx(len(inside) * BLOCK)
            assert {round(z, 6) for z, _, _ in found} == {round(z + shift, 6) for z in inside.ZC}
            for block in inside.itertuples():
                around = [
                    what
                    for z, p, what in found
                    if math.isclose(z, block.ZC + shift) and p.contains(Point(block.XC, block.YC))
                ]
                assert around.count("outline") - around.count("hole") == 1


def test_outlines_are_traced_once_for_all_files(tmp_path, turned, monkeypatch):
    shells, f = turned
    shells, traced = shells.study.shells(shells.factors), []
    once = outlines.outline
    monkeypatch.setattr(outlines, "outline", lambda plane: traced.append(1) or once(plane))
    export_dxf.write(shells, tmp_path / "x.dxf")
    export_gpkg.write(shells, tmp_path / "x.gpkg")
    benches = sum(len(set(f[shells.holds(i)].ZC)) for i in range(len(shells)))
    assert len(traced) == benches + len(shells)  # and a rim for each pit


def test_dxf_of_some_pits_with_corners_cut(tmp_path, turned):
    shells, _ = turned
    export_dxf.write(shells, tmp_path / "x.dxf", pits=[2], cuts_corners=True)
    layers = {line.dxf.layer for line in ezdxf.readfile(tmp_path / "x.dxf").modelspace()}
    assert layers == {"SHELL_1000_TOE", "SHELL_1000_CREST"}
    found = list(polylines(tmp_path / "x.dxf", "SHELL_1000_TOE"))
    assert not any(p.exterior.length < 1 for _, p, _ in found)
    assert all(p.is_valid for _, p, _ in found)


def test_dxf_of_holes(tmp_path):
    """A ring of rich blocks on one bench, with waste within that nothing rests on: a hole."""
    i, j, k = (
        v.ravel() for v in np.meshgrid(np.arange(5), np.arange(5), np.arange(1), indexing="ij")
    )
    ring = np.maximum(abs(i - 2), abs(j - 2)) == 1
    frame = pd.DataFrame(
        {
            "XC": 20.0 * i,
            "YC": 20.0 * j,
            "ZC": 15.0 * k,
            "TONNES": 15000.0,
            "CU": np.where(ring, 5.0, 0.0),
            "ROCK": "SUL",
        }
    )
    shells = study_of(tmp_path, frame).shells([1000])
    assert shells.holds(0).sum() == 8
    export_dxf.write(shells, tmp_path / "x.dxf")
    found = {what: p for _, p, what in polylines(tmp_path / "x.dxf", "SHELL_1000_TOE")}
    assert found["hole"].area == pytest.approx(400)
    assert found["outline"].area == pytest.approx(9 * 400)
    assert found["hole"].centroid.coords[0] == pytest.approx((40, 40))
