"""A study as PDF, read back by poppler."""
import io
import re
import subprocess

import pytest
from PIL import Image
from matplotlib.figure import Figure

import pitplan as pp
from pitplan.views.report import pdf
from pitplan.views.report.contents import Column, Report, ReportTable
from report_rows import NASTY, TITLE, book_of, cells_of, of_file, sums

LONG = [(factor, kind) for factor in range(40) for kind in ("measured", "indicated", "inferred")]


def test_a_table_that_goes_on_has_its_name_and_headings_on_each_page(tmp_path):
    """Forty pits by three classes: below a table of some length, so that no page begins with it."""
    filled = ReportTable("First", "Some rows", [Column("A", "", "count", list(range(22)))])
    long = ReportTable(
        "Classes",
        "Pits by class",
        [
            Column("Pit at factor", "", "factor", [factor / 20 for factor, _ in LONG]),
            Column("Class", "", "text", [kind for _, kind in LONG]),
            Column("Tally", "", "count", [7000 + n for n in range(len(LONG))]),
        ],
    )
    few = [Column("Bearing", "", "count", [0])] * 2
    digests = ReportTable("Digests", "-", [Column("Of", "", "text", ["x"])])
    figures = [("a picture", Figure(figsize=(4, 3)))] * 2
    made = Report(
        "T",
        "now",
        [("Table", "x")],
        "",
        [filled, long, ReportTable("Slopes", "-", few), digests],
        figures,
        [],
        ["-"],
    )
    pdf.write(made, tmp_path / "r.pdf")
    words = ["pdftotext", "-layout", tmp_path / "r.pdf", "-"]
    pages = subprocess.run(words, check=True, capture_output=True, text=True).stdout.split("\f")
    with_rows = [page for page in pages if re.search(r"\b7,\d{3}\b", page)]
    assert len(with_rows) >= 3
    for at, page in enumerate(with_rows):
        lines = [line.strip() for line in page.splitlines() if line.strip()]
        name = lines.index("Classes, continued" if at else "Classes")
        assert any(line.split()[-2:] == ["Class", "Tally"] for line in lines[name:])
        rows = [line.split() for line in lines[name:] if re.search(r"\b7,\d{3}$", line)]
        assert rows
        assert all(len(row) == 3 for row in rows)
    found = [
        int(n.replace(",", "")) for page in with_rows for n in re.findall(r"\b7,\d{3}\b", page)
    ]
    assert found == [7000 + n for n in range(len(LONG))]


def test_the_pdf_says_what_was_asked_and_what_is_proved(reported):
    folder, rows = reported
    text = pdf_text(folder)
    for line in (folder / "study.toml").read_text().splitlines():
        assert "".join(line.split()) in "".join(text.split())
    inside = [one for one in rows if one["shell"] <= 1.0]
    blocks, rock, ore, waste, strip, *_, worth = sums(inside)
    assert f"{blocks:,.0f} blocks, {rock / 1e6:,.2f} Mt of rock" in text
    assert f"{ore / 1e6:,.2f} Mt and {waste / 1e6:,.2f} Mt, strip ratio {strip:.2f}" in text
    assert re.search(rf"Worth, proved at factor 1\.00\s+\$ {worth:,.0f}", text)
    assert NASTY in text
    for words in (
        "3 pits are as pit shells states them",
        "Nothing shows that they are true",
        "They are no schedule, and aren't proved",
    ):
        assert words in " ".join(text.split())
    assert "have a certificate" not in text


def pdf_text(folder):
    words = ["pdftotext", "-layout", folder / "out/report.pdf", "-"]
    return subprocess.run(words, check=True, capture_output=True, text=True).stdout


def test_digests_are_those_of_the_files(reported):
    folder, _ = reported
    rows = dict(cells_of(book_of(folder)["Digests"]))
    assert rows["table t.csv"] == of_file(folder / "t.csv")
    assert rows["study.toml"] == of_file(folder / "study.toml")
    for name in ("mine.blocks", "settings.toml"):
        assert rows[f"model/{name}"] == of_file(folder / "model" / name)
    flat = "".join(pdf_text(folder).split())
    assert all(digest in flat for digest in rows.values())
    assert len(rows) >= 2 + 2 + 3


def test_pages_are_numbered_and_pictures_are_drawn(reported):
    folder, _ = reported
    words = ["pdftoppm", "-r", "20", "-png", folder / "out/report.pdf", folder / "page"]
    subprocess.run(words, check=True)
    pages = sorted(folder.glob("page*.png"))
    text = pdf_text(folder)
    assert f"1 of {len(pages)}" in text  # and on the cover
    assert text.count(TITLE) == len(pages) + 1
    shades = [len(Image.open(page).convert("L").getcolors()) for page in pages]
    assert sum(shade > 20 for shade in shades) >= 5, "no pictures"
    for sheet in book_of(folder):
        for image in sheet._images:
            drawn = Image.open(io.BytesIO(image._data()))
            assert len(set(drawn.convert("L").getdata())) > 20


def test_slopes_have_their_errors(reported):
    folder, _ = reported
    for row in cells_of(book_of(folder)["Slopes"]):
        assert row[2] == 45
        assert row[4] == pytest.approx(row[3] - row[2])
    wall = pp.Slopes(45).patterns(pp.Study(folder).model.grid)["default"]
    assert f"default: {wall}" in " ".join(pdf_text(folder).split())


def test_columns_that_a_page_has_no_room_for_stand_below_the_tables_name():
    """Thirty columns of three rows: each part says what a row is of, and which table it belongs to."""
    wide = [Column(f"Quantity {n:02}", "", "count", [n, n, n]) for n in range(30)]
    wide.insert(0, Column("Of", "", "text", ["one", "two", "three"]))
    pdf.register_fonts()
    parts = pdf.laid(ReportTable("Wide", "-", wide))
    heads = [
        each.getPlainText()
        for part in parts
        for each in getattr(part, "_content", [part])
        if hasattr(each, "getPlainText")
    ]
    names = [head for head in heads if head.startswith("Wide")]
    assert names[0] == "Wide"
    assert len(names) >= 2
    assert set(names[1:]) == {"Wide, further columns"}


def test_a_picture_has_all_that_lies_beside_its_axes():
    """Below axes that fill the figure a legend of four rows: the page's picture has each of its
    lines."""
    figure = Figure(figsize=(4, 4))
    axes = figure.add_axes((0.0, 0.0, 1.0, 1.0))
    axes.set_axis_off()
    colours = ["#ff0000", "#00ff00", "#0000ff", "#ff00ff"]
    for colour in colours:
        axes.plot([], [], color=colour, linewidth=8, label="a region")
    axes.legend(loc="upper center", bbox_to_anchor=(0.5, -0.05))
    found = pdf.picture(figure, 300, 200)
    assert found.drawWidth <= 300
    assert found.drawHeight <= 200
    assert found.drawWidth / found.drawHeight == pytest.approx(found.imageWidth / found.imageHeight)
    drawn = found._img.getRGBData()
    seen = set(zip(drawn[0::3], drawn[1::3], drawn[2::3]))
    assert {tuple(bytes.fromhex(colour[1:])) for colour in colours} <= seen
