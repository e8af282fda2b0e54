"""The mine at the end of each year as files and as a view of the page, read back by other libraries
and held against the planner's own table with its column of years."""
import base64
import json
import re
import subprocess
import sys
import zlib
from pathlib import Path

import ezdxf
import fiona
import numpy as np
import pandas as pd
import pytest
from shapely.geometry import Point, Polygon, shape
from vtkmodules.util.numpy_support import vtk_to_numpy
from vtkmodules.vtkFiltersCore import vtkCellCenters
from vtkmodules.vtkIOXML import vtkXMLUnstructuredGridReader

import mines

PITPLAN = Path(__file__).resolve().parents[3] / "bin" / "pitplan"
RICH = mines.STUDY_TOML.replace("price = 8500", "price = 24000")
TERMS = "\n[schedule]\nyears = 6\nmining_rate = [600e3, 500e3]\nmill_rate = 400e3\n"


def run(*words, status=0):
    ran = subprocess.run(
        [sys.executable, PITPLAN, *map(str, words)], capture_output=True, text=True
    )
    assert ran.returncode == status, ran.stderr + ran.stdout
    return ran.stdout + ran.stderr


@pytest.fixture(scope="module", params=["", "per_year = 2\n"], ids=["years", "half-years"])
def mine(request, tmp_path_factory):
    """A study with its schedule; the column of years, and the table that has it, 0 where a row
    isn't dug. The planner's table has such a column of its own."""
    frame = mines.table(9, 8, 5, 5)
    frame["year"] = 7
    folder = mines.written_study(
        tmp_path_factory.mktemp("years") / "s", frame, RICH + TERMS + request.param
    )
    run("build", folder)
    run("shells", folder)
    assert "no schedule by the terms" in run("export", folder, "--schedule", status=3)
    run("schedule", folder, "--gap", "0.5")
    name = "period" if request.param else "year"
    rows = pd.read_csv(folder / "out" / "schedule_t.csv")
    rows["when"] = rows.iloc[:, -2].fillna(0).astype(int)  # before that of where it is sent
    assert rows.when.nunique() > 4
    return folder, name, rows


def test_outlines_hold_what_is_dug_by_the_end_of_each_year(mine):
    folder, name, rows = mine
    said = run("export", folder, "--schedule", "--to", "dxf")
    assert f"layers {name.upper()}_<{name}>_TOE and _CREST" in said
    space = ezdxf.readfile(folder / "out" / f"{name}s.dxf").modelspace()
    last = rows.when.max()
    layers = {f"{name.upper()}_{t:04d}_{e}" for t in range(1, last + 1) for e in ("TOE", "CREST")}
    assert {line.dxf.layer for line in space} == layers
    for t in range(1, last + 1):
        inside = rows[(rows.when > 0) & (rows.when <= t)]
        for edge, shift in (("TOE", -7.5), ("CREST", 7.5)):
            found = [
                (line.dxf.elevation, Polygon(line.get_points("xy")), line.get_xdata("PITPLAN"))
                for line in space.query(f'LWPOLYLINE[layer=="{name.upper()}_{t:04d}_{edge}"]')
            ]
            assert {data[0].value for _, _, data in found} == {t}
            area = sum(p.area * (1 if data[-1].value == "outline" else -1) for _, p, data in found)
            assert area == pytest.approx(len(inside) * 400)
            for block in inside.itertuples():
                around = [
                    data[-1].value
                    for z, p, data in found
                    if abs(z - block.ZC - shift) < 1e-6 and p.contains(Point(block.XC, block.YC))
                ]
                assert around.count("outline") - around.count("hole") == 1


def test_each_block_has_its_year(mine):
    """In CSV by the id of its row, in VTU by its centre; the planner's own column of that name
    keeps its numbers."""
    folder, name, rows = mine
    run("export", folder, "--schedule", "--to", "csv,vtu", "--columns", "year,CU")
    found = pd.read_csv(folder / "out" / f"{name}s.csv").set_index("id")
    dug = rows[rows.when > 0].set_index("IJK")
    assert found[name].to_dict() == dug.when.to_dict()
    own = "year of the table" if name == "year" else "year"
    assert (found[own] == 7).all()
    reader = vtkXMLUnstructuredGridReader()
    reader.SetFileName(str(folder / "out" / f"{name}s.vtu"))
    reader.Update()
    cells = reader.GetOutput().GetCellData()
    middle = vtkCellCenters()
    middle.SetInputData(reader.GetOutput())
    middle.Update()
    places = vtk_to_numpy(middle.GetOutput().GetPoints().GetData()).round().astype(int)
    years = vtk_to_numpy(cells.GetArray(name)).astype(int)
    by_place = {(int(x), int(y), int(z)): t for x, y, z, t in zip(dug.XC, dug.YC, dug.ZC, dug.when)}
    assert dict(zip(map(tuple, places.tolist()), years.tolist())) == by_place
    assert (vtk_to_numpy(cells.GetArray(own)) == 7).all()


def test_polygons_have_their_year_and_what_all_so_far_is_worth(mine):
    folder, name, rows = mine
    run("export", folder, "--schedule", "--to", "gpkg")
    path = folder / "out" / f"{name}s.gpkg"
    flows = pd.read_csv(folder / "out" / "schedule.csv").set_index("period").cash_flow.cumsum()
    with fiona.open(path, layer="rims") as rims:
        for each in rims:
            facts = each["properties"]
            inside = rows[(rows.when > 0) & (rows.when <= facts[name])]
            assert facts["blocks"] == len(inside)
            assert float(facts["worth"]) == flows[facts[name]]
            outline = shape(each["geometry"])
            assert outline.area == pytest.approx(len(set(zip(inside.XC, inside.YC))) * 400)
        assert [each["properties"][name] for each in rims] == list(flows.index)
    with fiona.open(path, layer="benches") as benches:
        for each in benches:
            facts = each["properties"]
            inside = rows[
                (rows.when > 0)
                & (rows.when <= facts[name])
                & (abs(rows.ZC - (facts["toe"] + facts["crest"]) / 2) < 1e-6)
            ]
            assert facts["blocks"] == len(inside)
            assert facts["rock_t"] == pytest.approx(inside.TONNES.sum())


def test_years_beside_other_pits_are_refused(mine):
    folder, *_ = mine
    assert "one at a time" in run("export", folder, "--schedule", "--factors", "1.0", status=3)
    both = ("--schedule", "--phases", "0.6,1.0")
    assert "one of them at a time" in run("export", folder, *both, status=3)


def test_the_page_of_pits_has_the_years_too(mine):
    """Its heights are those of the planner's table: so many benches less in each column as rows of
    that year."""
    folder, name, rows = mine
    run("page", folder, "--schedule")
    text = (folder / "out" / "pits.html").read_text()
    data = json.loads(
        re.search(r'<script type="application/json" id="data">(.*?)</script>', text)[1]
    )
    assert [view["name"] for view in data["views"]] == ["Pits by factor", f"Schedule by {name}s"]
    view, (nx, ny, _) = data["views"][1], data["shape"]
    last = int(rows.when.max())
    assert view["steps"] == [str(t) for t in range(1, last + 1)]
    assert view["slider"] == f"After {name}"
    assert view["start"] == last
    lower = np.frombuffer(zlib.decompress(base64.b64decode(view["heights"])), "<u2")
    lower = lower.reshape(last + 1, nx, ny)
    for t in range(1, last + 1):
        wanted = np.zeros((nx, ny), int)
        here = rows[rows.when == t]
        np.add.at(
            wanted,
            (((here.XC - 5000) / 20).astype(int), ((here.YC - 9000) / 20).astype(int)),
            1,
        )
        assert np.array_equal(lower[t], wanted)
    run("page", folder)
    assert "Schedule by" not in (folder / "out" / "pits.html").read_text()


def test_a_block_goes_in_files_as_the_schedule_sends_it(tmp_path):
    terms = TERMS.replace("400e3", "150e3") + 'cutoff = "by year"\n'
    folder = mines.written_study(tmp_path / "s", mines.table(9, 8, 5, 5), RICH + terms)
    for words in (["build"], ["shells"], ["schedule", "--gap", "0.5"]):
        run(words[0], folder, *words[1:])
    run("export", folder, "--to", "csv")
    run("export", folder, "--schedule", "--to", "csv,gpkg")
    rows = pd.read_csv(folder / "out" / "schedule_t.csv")
    found = pd.read_csv(folder / "out" / "years.csv").set_index("row")
    dug = found[found.year > 0]
    pays = pd.read_csv(folder / "out" / "shells.csv").set_index("row").to[dug.index]
    assert (dug.to == rows.sent[dug.index - 2].to_numpy()).all()
    assert ((pays == "mill") & (dug.to == "waste")).any()
    years = pd.read_csv(folder / "out" / "schedule.csv")
    assert dug.worth.sum() == pytest.approx(years.cash_flow.sum(), abs=len(dug))
    with fiona.open(folder / "out" / "years.gpkg", layer="benches") as benches:
        facts = [each["properties"] for each in benches]
    ore = sum(each["ore_t"] for each in facts if each["year"] == dug.year.max())
    assert ore == pytest.approx(years.ore_t.sum())
