"""Pushbacks that were widened, in the report, on the page and beside exports: sums in loops over
the planner's table, by the pushback of each block that `phases` wrote."""
import re
from collections import Counter

import ezdxf
import meshio
import openpyxl
import pytest
from shapely.geometry import Polygon

from mines import rows_of, table, written_study
from processes import said
from served import pitplan

WIDEN = ("0.6,1.0", "--widen", "40")


@pytest.fixture(scope="module")
def folder(tmp_path_factory):
    made = written_study(tmp_path_factory.mktemp("w") / "s", table(11, 10, 5, 1))
    for words in (["build"], ["shells"]):
        said(*words, made)
    return made


def weighed(folder):
    """The rock of each pushback, block by block."""
    of = {row["id"]: row["pushback"] for row in rows_of(folder / "out/phase_blocks.csv")}
    found = {"1": 0.0, "2": 0.0}
    for row in rows_of(folder / "t.csv"):
        if row["IJK"] in of:
            found[of[row["IJK"]]] += float(row["TONNES"])
    return list(found.values())


def pushbacks_in(folder):
    """The rock of each pushback, and what the workbook says of them."""
    book = openpyxl.load_workbook(folder / "out/report.xlsx")
    heads = [cell.value for cell in book["Pushbacks"][1]]
    at = heads.index("Rock (t)")
    rock = [row[at].value for row in book["Pushbacks"].iter_rows(min_row=2)]
    captions = [row[0].value for row in book["What is proved"].iter_rows() if row[0].value]
    facts = {row[0].value: row[1].value for row in book["Report"].iter_rows(min_row=4)}
    (caption,) = [text for text in captions if text.startswith("Pushbacks: ")]
    return rock, caption, facts["Pushbacks"], captions


def test_a_report_shows_the_set_that_phases_cut_last(folder):
    said("phases", folder, "0.6,1.0")
    plain = weighed(folder)
    output = said("report", "--phases", "0.6,1.0", folder)
    assert "pushbacks as cut between proved pits\n" in output
    rock, caption, fact, captions = pushbacks_in(folder)
    assert rock == pytest.approx(plain)
    assert "as cut between proved pits: after each" in caption
    assert fact == "2, as cut between proved pits, at factors 0.60, 1.00"
    assert not any("Widened" in text for text in captions)

    said("phases", folder, *WIDEN)
    wide = weighed(folder)
    assert wide != pytest.approx(plain)
    output = said("report", "--phases", "0.6,1.0", folder)
    assert "pushbacks widened to 40 m, as phases widened them last" in output
    rock, caption, fact, captions = pushbacks_in(folder)
    assert rock == pytest.approx(wide)
    assert "widened to 40 m: after each the mine keeps the slopes" in caption
    assert fact == "2, widened to 40 m, at factors 0.60, 1.00"
    assert any(text.startswith("Widened pushbacks but the last are no best") for text in captions)


def test_other_factors_than_the_widened_are_told(folder):
    said("phases", folder, *WIDEN)
    text = said("report", "--xlsx", "--phases", "0.6,1.2", folder)
    assert "pushbacks as cut between proved pits: those that were widened last end at 0.6,1" in text
    assert "as cut" in pushbacks_in(folder)[1]


def test_a_page_shows_the_widened_set(folder):
    said("phases", folder, *WIDEN)
    output = said("page", "--phases", "0.6,1.0", folder)
    assert "pushbacks widened to 40 m" in output
    text = (folder / "out/pits.html").read_text()
    assert "<h2>Pushbacks, widened to 40 m</h2>" in text
    assert "none of the others is a best one" in text
    part = text[text.index("<h2>Pushbacks, widened") :]
    blocks = re.findall(r'<th scope="row">[12]</th>(?:<td>[^<]*</td>){4}<td>([\d,]+)</td>', part)
    rows = rows_of(folder / "out/phase_blocks.csv")
    rock = {row["IJK"] for row in rows_of(folder / "t.csv")}
    wanted = [sum(r["pushback"] == k and r["id"] in rock for r in rows) for k in "12"]
    assert [int(each.replace(",", "")) for each in blocks] == wanted


def test_an_export_says_where_the_pushbacks_are(folder):
    said("phases", folder, *WIDEN)
    text = said("export", "--to", "csv", folder)
    assert "these are pits by factor; pushbacks, widened to 40 m, are in" in text
    said("phases", folder, "0.6,1.0")
    assert "pushbacks, as cut, are in" in said("export", "--to", "csv", folder)


def test_pushbacks_are_exported_as_they_were_widened(folder):
    """A row for each block with its pushback in csv and in vtu; in dxf the area of each bench of
    the mine after each, by the shoelace."""
    said("phases", folder, *WIDEN)
    text = said("export", "--to", "csv,vtu,dxf", "--phases", "0.6,1.0", folder)
    assert "pushbacks widened to 40 m" in text
    assert "layers PUSHBACK_<factor>_TOE" in text
    of = {row["id"]: row["pushback"] for row in rows_of(folder / "out/phase_blocks.csv")}
    rows = rows_of(folder / "out/pushbacks.csv")
    rock = {row["IJK"] for row in rows_of(folder / "t.csv")}
    assert {row["id"]: row["pushback"] for row in rows} == {k: of[k] for k in of if k in rock}
    mesh = meshio.read(folder / "out/pushbacks.vtu")
    counted = Counter(int(n) for n in mesh.cell_data["pushback"][0])
    assert counted == Counter(int(n) for n in of.values())
    wanted = Counter()
    for row in rows:
        for end, factor in enumerate(("0600", "1000"), 1):
            wanted[factor, float(row["z"]) - 7.5] += 400.0 * (int(row["pushback"]) <= end)
    drawn = Counter()
    for line in ezdxf.readfile(folder / "out/pushbacks.dxf").modelspace():
        word, factor, edge = line.dxf.layer.split("_")
        if edge == "TOE":
            is_hole = line.get_xdata("PITPLAN")[2][1] == "hole"
            area = Polygon([point[:2] for point in line]).area
            drawn[factor, line.dxf.elevation] += -area if is_hole else area
    assert word == "PUSHBACK"
    assert drawn == {k: v for k, v in wanted.items() if v}


def test_exports_that_can_not_be_are_told(folder):
    for words, wanted in (
        (("--to", "gpkg", "--phases", "0.6,1.0"), "pushbacks have none of their own"),
        (("--phases", "0.6,1.0", "--factors", "0.6"), "--factors pits"),
    ):
        ran = pitplan("export", *words, folder)
        assert ran.returncode == 3
        assert wanted in ran.stderr
        assert "try: " in ran.stderr


def test_pushbacks_that_come_out_otherwise_are_no_report(folder):
    """A note that is of other pushbacks, or is damaged, is told, and how it is made again."""
    said("phases", folder, *WIDEN)
    note = folder / "out/phases.json"
    kept = note.read_text()
    note.write_text(
        re.sub('"blocks": ".', '"blocks": "e', kept.replace('"blocks": "e', '"blocks": "0'))
    )
    words = ["report", "--phases", "0.6,1.0", folder]
    ran = pitplan(*words)
    assert ran.returncode == 3
    assert "aren't those that were widened to 40 last" in ran.stderr
    assert re.search(r"try: \S*pitplan phases \S+ 0\.6,1 --widen 40", ran.stderr)
    note.write_text("{}")
    ran = pitplan(*words)
    assert ran.returncode == 3
    assert "phases.json is damaged: it has no factors" in ran.stderr
    note.write_text(kept)
