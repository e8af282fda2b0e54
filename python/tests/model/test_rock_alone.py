"""Rows of air count as air: pushbacks, exported files and pictures are those of a table that has
none."""
import ezdxf
import numpy as np
import pandas as pd
import pytest

import pitplan as pp
from mines import CUBE, WASTE, below, study_of
from pitplan.views.export import (
    csv as export_csv,
    dxf as export_dxf,
    gpkg as export_gpkg,
    vtu as export_vtu,
)
from pitplan.views import plane as planes
from pitplan.plans.phases import Phases


@pytest.fixture(scope="module")
def both(tmp_path_factory):
    """The shells of a gentle hill twice: of a table without rows of air, and of one with rows of
    air up to the model's top."""
    f = below(1, low=6).assign(CU=lambda f: (f.CU / 9).round(2))
    every = []
    for frame in (f[f.TONNES > 0], f):
        study = study_of(tmp_path_factory.mktemp("m"), frame, pp.Slopes(45), WASTE, size=CUBE)
        every.append(study.shells([600, 800, 1000]))
    lean, whole = every
    assert whole.holds(2).sum() > lean.holds(2).sum() > lean.holds(0).sum() > 0
    assert len(lean.study.model) == (f.TONNES > 0).sum()
    return lean, whole


def test_pushbacks_and_tables_are_of_rock(both):
    lean, whole = (Phases(shells, mining_width=30) for shells in both)
    pd.testing.assert_frame_equal(lean.benches(), whole.benches())
    pd.testing.assert_frame_equal(lean.table(), whole.table())
    of = [phases.of_blocks()[phases.pushback > 0] for phases in (lean, whole)]
    assert dict(zip(of[0].id, of[0].pushback)) == dict(zip(of[1].id, of[1].pushback))


def test_exported_files_have_rock_alone(both, tmp_path):
    lines, cells, features, rows = [], [], [], []
    for n, shells in enumerate(both):
        export_dxf.write(shells, tmp_path / f"{n}.dxf")
        lines.append(
            [
                (e.dxf.layer, e.dxf.elevation, [tuple(p) for p in e.get_points("xy")])
                for e in ezdxf.readfile(tmp_path / f"{n}.dxf").modelspace()
            ]
        )
        cells.append(
            {
                tuple(np.round(mesh, 6))
                for mesh in (lambda m: m.points[m.cells[0].data].mean(axis=1))(
                    export_vtu.mesh_of(shells)[0]
                )
            }
        )
        features.append(
            [
                {**row, "geometry": row["geometry"].wkt}
                for part in export_gpkg.features(shells, [0, 1, 2])
                for row in part
            ]
        )
        rows.append(
            export_csv.table_of(shells)[
                ["id", "x", "y", "z", "tonnes", "shell", "worth", "to"]
            ].sort_values("id", ignore_index=True)
        )
    assert lines[0] == lines[1]
    assert cells[0] == cells[1]
    assert features[0] == features[1]
    pd.testing.assert_frame_equal(rows[0], rows[1])


def test_pictures_cut_rock_alone(both):
    lean, whole = (shells.study.model for shells in both)
    cut, high = planes.section(whole, "y", 3).number >= 0, lean.grid.shape[2]
    assert (cut[:high] == (planes.section(lean, "y", 3).number >= 0)).all()
    assert cut.any()
    assert not cut[high:].any()
    assert not (planes.bench(whole, high + 1).number >= 0).any()
