"""Blocks for ParaView, read back by VTK and held against the planner's own table."""
import numpy as np
import pandas as pd
import pytest
from vtkmodules.util.numpy_support import vtk_to_numpy
from vtkmodules.vtkFiltersCore import vtkCellCenters
from vtkmodules.vtkFiltersVerdict import vtkCellSizeFilter

import pitplan as pp
from files_back import BLOCK, read_vtu
from mines import study_of, table
from pitplan.views.export import vtu as export_vtu


@pytest.mark.parametrize("is_whole", [False, True])
def test_vtu_blocks_are_those_of_the_table(tmp_path, turned, is_whole):
    shells, f = turned
    words = export_vtu.write(shells, tmp_path / "x.vtu", is_whole=is_whole)
    grid, data = read_vtu(tmp_path / "x.vtu")
    wanted = f if is_whole else f[shells.shell < 4]
    assert grid.GetNumberOfCells() == len(wanted) > 0
    assert {grid.GetCellType(n) for n in range(len(wanted))} == {12}  # VTK_HEXAHEDRON
    sizes = vtkCellSizeFilter()
    sizes.SetInputData(grid)
    sizes.Update()
    volumes = vtk_to_numpy(sizes.GetOutput().GetCellData().GetArray("Volume"))
    assert np.allclose(volumes, BLOCK)  # and none is inside out: it would be negative
    centres = vtkCellCenters()
    centres.SetInputData(grid)
    centres.Update()
    assert np.allclose(
        vtk_to_numpy(centres.GetOutput().GetPoints().GetData()), wanted[["XC", "YC", "ZC"]]
    )
    for name in ("CU", "AU", "TONNES"):
        assert np.array_equal(data[name], wanted[name])
    assert np.array_equal(data["block"], wanted.index)
    assert np.array_equal(data["SEEN"], wanted.SEEN)
    names = words[words["column"] == "rock"].set_index("number")["word"]
    assert [names[n] for n in data["rock"]] == wanted.ROCK.tolist()
    assert pd.read_csv(tmp_path / "x.vtu.words.csv").equals(words)
    shares = np.array([0.6, 0.8, 1.0, 1.2, np.nan])[shells.shell[wanted.index]]
    assert np.array_equal(data["shell"], shares, equal_nan=True)
    worth = np.maximum(
        np.rint(wanted.TONNES * wanted.CU * 0.01 * 0.85 * 8500)
        - np.rint(wanted.TONNES * wanted.ROCK.map({"OXI": 7.5, "SUL": 9.0})),
        0,
    ) - np.rint(wanted.TONNES * 2)
    assert np.allclose(data["worth"], worth, atol=1e-6, rtol=0)
    corners = vtk_to_numpy(grid.GetPoints().GetData())
    assert len(np.unique(np.round(corners, 3), axis=0)) == len(corners)  # neighbours share theirs


def test_vtu_columns(tmp_path):
    f = table(5, 4, 3, 3).assign(shell=7.0, NOTE=lambda t: [f"n{n}" for n in range(len(t))])
    shells = study_of(tmp_path, f).shells([1200])
    export_vtu.write(shells, tmp_path / "x.vtu", ["shell", "NOTE"], is_whole=True)
    _, data = read_vtu(tmp_path / "x.vtu")
    assert set(data) == {"block", "shell", "worth", "shell of the table", "NOTE"}
    assert (data["shell of the table"] == 7).all()
    with pytest.raises(pp.PlanError, match="no column 'CUU'; is 'CU' meant"):
        export_vtu.write(shells, tmp_path / "y.vtu", ["CUU"])
    assert not (tmp_path / "y.vtu").exists()
