"""How designs are read: by ids, by a column of the table, by a surface; and what is no design."""
import json

import ezdxf
import numpy as np
import pandas as pd
import pytest
from ezdxf.render import MeshBuilder

import pitplan as pp
from designs import HALVES, HALVES_TOML, above, bowl
from mines import study_of, table, written_study
from pitplan.cli import build as commands_build
from pitplan.plans import design


def test_designs_by_ids(tmp_path, study):
    model, held = study.model, study.mask(1000)
    ids = model.blocks["id"][held]
    assert (design.by_ids(model, ids.tolist()).held == held).all()
    files = {
        "own.csv": pd.DataFrame({"X": 1.5, "IJK": ids}),
        "known.csv": pd.DataFrame({"BlockId": ids, "NOTE": "a"}),
    }
    for name, frame in files.items():
        frame.to_csv(tmp_path / name, index=False)
    (tmp_path / "list.txt").write_text("\n".join(ids) + "\n")
    (tmp_path / "headed.txt").write_text("pit\n" + "\n".join(ids) + "\n\n")
    for name in (*files, "list.txt", "headed.txt"):
        found = design.by_ids_of(model, tmp_path / name)
        assert (found.held == held).all()
        assert found.name == name.split(".")[0]
    for text in (f"{ids.iloc[0]}\n", ids.iloc[0], f"{ids.iloc[0]}\r\n\n"):
        (tmp_path / "one.txt").write_bytes(text.encode())
        assert design.by_ids_of(model, tmp_path / "one.txt").held.sum() == 1
    (tmp_path / "one.txt").write_text("b9999\n")
    with pytest.raises(pp.PlanError, match="has no rows below its header line"):
        design.by_ids_of(model, tmp_path / "one.txt")
    pd.DataFrame({"IJK": ids, "DISEÑO": "sí"}).to_csv(
        tmp_path / "ansi.csv", index=False, sep=";", encoding="cp1252"
    )
    assert (design.by_file(model, tmp_path / "ansi.csv", encoding="cp1252").held == held).all()
    with pytest.raises(pp.PlanError, match="ansi.csv, row 1: isn't text in UTF-8"):
        design.by_ids_of(model, tmp_path / "ansi.csv")
    (tmp_path / "bad.csv").write_text("id\n" + "\n".join([*ids[:3], "b9999", "x"]) + "\n")
    with pytest.raises(
        pp.PlanError, match=r"bad.csv, row 5: 'b9999' is the id of no block; 2 of 5 are so"
    ):
        design.by_ids_of(model, tmp_path / "bad.csv")
    (tmp_path / "which.csv").write_text("a,b\n1,2\n")
    with pytest.raises(pp.PlanError, match="which of its columns has the ids"):
        design.by_ids_of(model, tmp_path / "which.csv")
    with pytest.raises(pp.PlanError, match="no such file"):
        design.by_ids_of(model, tmp_path / "nowhere.csv")
    assert design.by_ids(model, [ids.iloc[0]] * 2).notes == ["1 ids stand there more than once"]


def test_an_id_of_several_blocks_is_refused(tmp_path):
    f = table(4, 4, 3, 1)
    f.loc[3, "IJK"] = f.IJK[5]
    model = study_of(tmp_path, f).model
    with pytest.raises(pp.PlanError, match="is the id of several blocks"):
        design.by_ids(model, [f.IJK[5]])
    assert design.by_ids(model, [f.IJK[6]]).held.sum() == 1
    rows = study_of(
        tmp_path / "r" if (tmp_path / "r").mkdir() is None else tmp_path, f.drop(columns="IJK")
    ).model
    assert np.flatnonzero(design.by_ids(rows, ["2", 7]).held).tolist() == [0, 5]


def test_designs_by_a_column(tmp_path):
    f = table(5, 5, 3, 2)
    n = np.arange(len(f))
    f = f.assign(
        NUMBER=np.where(n % 3 == 0, n % 2 + 1.0, 0.0),
        WORD=np.where(n % 3 == 0, "Yes", "no"),
        PALABRA=np.where(n % 3 == 0, "Sí", "NO"),
        HOLES=np.where(n % 3 == 0, 1.0, np.nan),
        PHASE=np.where(n % 2, "PB1", "out"),
        MINUS=np.where(n % 3 == 0, 1, -99),
    )
    model = study_of(tmp_path, f, absent=[]).model
    for name in ("NUMBER", "WORD", "PALABRA", "HOLES"):
        assert (design.by_column(model, name).held == (n % 3 == 0)).all()
    assert (design.by_column(model, "PHASE", "PB1").held == (n % 2 == 1)).all()
    assert (design.by_column(model, "NUMBER", "2").held == (f.NUMBER == 2)).all()
    for name, value, said in (
        ("PHASE", None, "column PHASE: 'PB1' says neither yes nor no"),
        ("MINUS", None, "says neither"),
        ("PHASE", "PB2", "there are"),
        ("PHASF", None, "is 'PHASE' meant"),
        ("NUMBER", "x", "no cell is 'x'"),
    ):
        with pytest.raises(pp.PlanError, match=said):
            design.by_column(model, name, value)


@pytest.mark.parametrize("forbid", [None, "CUT == 9"])  # forbid makes CUT a column of codes
def test_a_block_is_in_a_design_where_any_of_its_sub_blocks_is(tmp_path, forbid):
    text = HALVES_TOML.replace(
        "[economics]", f"[economics]\nforbid = {json.dumps([forbid] if forbid else [])}"
    )
    folder = written_study(tmp_path / "s", HALVES, text)
    commands_build.build(folder)
    made = pp.Study(folder)
    model = design.with_sub_blocks(made)
    note = "look: 1 block is only partly in the design: 3,000 t of 8,000 t; all of it counts"
    for found in (
        design.by_column(model, "CUT"),
        design.by_column(model, "CUT", "1"),
        design.by_ids(model, ["b1", "c1"]),
    ):
        assert found.held.tolist() == [False, True, True]
        assert found.notes == [note]
    both = design.by_ids(model, ["b2", "b1"])  # each has a block, also those that aren't its first
    assert both.held.tolist() == [False, True, False]
    assert both.notes == []
    with pytest.raises(pp.PlanError, match=r"(?s)which sub-blocks .*with_sub_blocks"):
        design.by_ids(made.model, ["b2"])


def test_sub_blocks_in_another_order_than_when_they_were_built_are_no_design(tmp_path):
    """As many rows, of which two have changed places: those of a design would be other blocks."""
    folder = written_study(tmp_path / "s", HALVES, HALVES_TOML)
    commands_build.build(folder)
    HALVES.iloc[[0, 3, 2, 1, 4]].to_csv(folder / "t.csv", index=False)
    with pytest.raises(pp.PlanError, match="isn't the table that the study was built from"):
        design.with_sub_blocks(pp.Study(folder))


@pytest.mark.parametrize("apart, is_told", [(14.0, False), (16.0, True)])
def test_a_surface_that_lies_over_itself_by_more_than_a_bench_is_told(
    tmp_path, study, apart, is_told
):
    """Blocks are 20 m wide and long, and 15 m high."""
    document, (x, y, _) = ezdxf.new("R2010"), study.model.xyz()
    east, north = float(x.min()) - 900, float(y.min()) - 900
    for up in (120.0, 120.0 + apart):
        corners = [(east, north, up), (east + 9000, north, up), (east, north + 9000, up)]
        document.modelspace().add_3dface(corners)
    document.saveas(tmp_path / "d.dxf")
    found = design.by_surface(study.model, tmp_path / "d.dxf")
    assert any("lies over itself" in note for note in found.notes) == is_told


@pytest.mark.parametrize("seed", [1, 2, 3])
def test_designs_by_a_surface(tmp_path, study, seed):
    model, points = study.model, bowl(study.model, seed=seed)
    held, triangles = above(model, points)
    assert 20 < held.sum() < len(held) - 20
    pd.DataFrame(points, columns=["EAST", "NORTH", "RL"]).assign(NOTE="a").to_csv(
        tmp_path / "p.csv", index=False
    )
    pd.DataFrame(points).to_csv(tmp_path / "q.csv", index=False, header=["a", "b", "c"], sep=";")
    assert (design.by_surface(model, tmp_path / "p.csv").held == held).all()
    assert (design.by_surface(model, tmp_path / "q.csv").held == held).all()
    document = ezdxf.new("R2010")
    space = document.modelspace()
    half = len(triangles) // 3
    for corners in triangles[:half]:
        space.add_3dface([tuple(points[c]) for c in corners], dxfattribs={"layer": "PIT"})
    for some, kind in ((triangles[half : 2 * half], "MESH"), (triangles[2 * half :], "POLYLINE")):
        mesh = MeshBuilder()
        mesh.vertices, mesh.faces = [tuple(p) for p in points], [tuple(map(int, t)) for t in some]
        (mesh.render_mesh if kind == "MESH" else mesh.render_polyface)(
            space, dxfattribs={"layer": "PIT"}
        )
    x, y = (float(values[0]) for values in model.xyz()[:2])
    space.add_3dface(
        [(x - 900, y - 900, -1000), (x + 5000, y - 900, -1000), (x - 900, y + 5000, -1000)],
        dxfattribs={"layer": "OTHER"},
    )
    space.add_line((0, 0), (1, 1), dxfattribs={"layer": "LINES"})
    document.saveas(tmp_path / "d.dxf")
    assert (design.by_surface(model, tmp_path / "d.dxf", ["PIT"]).held == held).all()
    found = design.by_surface(model, tmp_path / "d.dxf")
    assert found.held.all()
    assert any("lies over itself" in note for note in found.notes)  # a floor far below everything


def test_surfaces_that_are_none(tmp_path, study):
    model = study.model
    document = ezdxf.new("R2010")
    document.modelspace().add_lwpolyline([(0, 0), (1, 1), (2, 0)], dxfattribs={"layer": "TOE"})
    document.saveas(tmp_path / "lines.dxf")
    (tmp_path / "text.dxf").write_text("nothing of the kind\n")
    (tmp_path / "far.csv").write_text("x,y,z\n0,0,0\n1,0,0\n0,1,0\n")
    (tmp_path / "line.csv").write_text("x,y,z\n0,0,0\n1,1,0\n2,2,0\n3,3,1\n")
    (tmp_path / "bare.csv").write_text("0,0,0\n1,1,0\n2,2,0\n")
    (tmp_path / "four.csv").write_text("a,b,c,d\n0,0,0,0\n")
    (tmp_path / "cell.csv").write_text("x,y,z\n0,0,0\n1,a,0\n2,2,0\n")
    for name, layers, said in (
        ("lines.dxf", (), "has no faces, but LWPOLYLINE"),
        ("lines.dxf", ("TOES",), "no layer 'TOES'; is 'TOE' meant"),
        ("text.dxf", (), "can't be read as DXF"),
        ("nowhere.dxf", (), "no such file"),
        ("far.csv", (), "lies beside the model"),
        ("line.csv", (), "don't span a surface"),
        ("bare.csv", (), "no header line"),
        ("four.csv", (), "which of its columns are x, y and z"),
        ("cell.csv", (), "row 3, column y: the cell is no number"),
    ):
        with pytest.raises(pp.PlanError, match=said):
            design.by_surface(model, tmp_path / name, layers)
