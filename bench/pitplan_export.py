#!/usr/bin/python3
"""What files for CAD, ParaView, GIS and spreadsheets cost, pushbacks and a design's comparison too, beside VTK's own writer.

    bench/pitplan_export.py [--rounds N] [--small]

The mine of about 500,000 blocks of bench/pitplan.py, built once in bench/out, with 19 proved pits; --small takes that of 80,000. The
program as bench/common.py has it, or PIT. Each call runs in a process of its own: processor seconds of the call without the
imports and the shells before it, and the whole process's peak. Of the rounds the fewest seconds count.
"""
import argparse
import os
import subprocess
import sys
import time

from pitplan import FACTORS, OUT, STUDY, TOP, mine, timed

LIMIT = "goal: 20 s and 1,500 MB for dxf, vtu and csv together"
BEFORE = """import pitplan as pp
from pitplan.plans import compare, design, phases
from pitplan.views import compare_plan
from pitplan.views.export import csv as export_csv, dxf as export_dxf, gpkg as export_gpkg, vtu as export_vtu
from pitplan.views.export.gpkg import system_of
import geopandas, ezdxf, meshio, shapely.ops, scipy.ndimage, vtkmodules.all as vtk
from vtkmodules.util.numpy_support import numpy_to_vtk, numpy_to_vtkIdTypeArray
import numpy as np
study = pp.Study({0!r})
shells = pp.Shells(study, {1!r})
study.priced, study.model, study.region
"""
# VTK's own writer, of the same hexahedra and the same columns, from arrays that are there.
VTK = """def with_vtk(path):
    mesh, _ = export_vtu.mesh_of(shells, None, True)
    cells = mesh.cells[0].data
    grid, points, lines = vtk.vtkUnstructuredGrid(), vtk.vtkPoints(), vtk.vtkCellArray()
    points.SetData(numpy_to_vtk(mesh.points))
    lines.SetData(8, numpy_to_vtkIdTypeArray(np.ascontiguousarray(cells).ravel(), deep=1))
    grid.SetPoints(points)
    grid.SetCells(vtk.VTK_HEXAHEDRON, lines)
    for name, (values,) in mesh.cell_data.items():
        array = numpy_to_vtk(np.ascontiguousarray(values), deep=1)
        array.SetName(name)
        grid.GetCellData().AddArray(array)
    writer = vtk.vtkXMLUnstructuredGridWriter()
    writer.SetFileName(path)
    writer.SetInputData(grid)
    writer.Write()
"""
CALLS = [
    (
        "export_dxf.write, 19 pits, toe and crest",
        "export_dxf.write(shells, {0!r} + '/x.dxf')",
        "x.dxf",
    ),
    (
        "export_vtu.write, all blocks and columns",
        "export_vtu.write(shells, {0!r} + '/x.vtu', None, True)",
        "x.vtu",
    ),
    ("the same by VTK's own writer", "with_vtk({0!r} + '/vtk.vtu')", "vtk.vtu"),
    (
        "export_csv.write, all blocks",
        "export_csv.write(shells, {0!r} + '/x.csv', None, True)",
        "x.csv",
    ),
    ("export_gpkg.write, 19 pits", "export_gpkg.write(shells, {0!r} + '/x.gpkg')", "x.gpkg"),
    (
        "Phases of 4 pits, tables and widths",
        "phases.Phases(pp.Shells(study, [400, 600, 800, 1000]), 60.0).table()",
        None,
    ),
    (
        "compare of a pit that is closed",
        "compare.compare(study, design.Design('d', shells.holds(shells.factors.index(800)), np.zeros(len(study.model), bool)))",
        None,
    ),
    (
        "compare of one that breaks slopes, mended",
        "compare.compare(study, design.Design('d', shells.holds(14) & (np.arange(len(study.model)) % 50 > 0), np.zeros(len(study.model), bool)))",
        None,
    ),
]


def study_of(is_small):
    """The study, built and run where it isn't there yet."""
    name, size = ("mine80k", (60, 52, 30)) if is_small else ("mine500k", (110, 108, 48))
    folder = OUT / f"{name}-study"
    folder.mkdir(parents=True, exist_ok=True)
    (folder / "study.toml").write_text(
        STUDY.format(table=str(mine(name, *size)), factors=[factor / 1000 for factor in FACTORS])
    )
    for command in ("build", "shells"):
        subprocess.run(
            [str(TOP / "bin" / "pitplan"), command, str(folder)],
            check=True,
            stdout=subprocess.DEVNULL,
            stderr=subprocess.DEVNULL,
        )
    return folder


def main():
    words = argparse.ArgumentParser(
        description=__doc__, formatter_class=argparse.RawDescriptionHelpFormatter
    )
    words.add_argument("--rounds", type=int, default=2)
    words.add_argument("--small", action="store_true")
    asked = words.parse_args()
    folder = study_of(asked.small)
    before = BEFORE.format(str(folder), FACTORS) + VTK
    blocks = sum(1 for _ in open(folder / "model" / "mine.blocks"))
    print(
        f"{time.strftime('%Y-%m-%d, %H:%M UTC', time.gmtime())}, {os.cpu_count()} logical cores, load {os.getloadavg()[0]:.0f}\n"
    )
    print(
        f"## Files of {blocks:,} blocks and 19 pits ({LIMIT})\n\n| | CPU s | peak MB | file MB |\n|---|---|---|---|",
        flush=True,
    )
    files = OUT / "files"
    files.mkdir(exist_ok=True)
    for name, call, file in CALLS:
        seconds, peak = min(
            (timed(before, call.format(str(files))) for _ in range(asked.rounds)),
            key=lambda t: t[0],
        )
        print(
            f"| {name} | {seconds:.2f} | {peak:.0f} | {(files / file).stat().st_size / 1e6 if file else 0:.1f} |",
            flush=True,
        )


if __name__ == "__main__":
    sys.exit(main())
