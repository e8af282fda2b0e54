"""A study as a workbook, read back by openpyxl and pandas; its figures are added up from the
table in loops."""
import hashlib
import subprocess

import pytest

import pitplan as pp
from mines import written_study
from processes import said
from report_rows import NASTY, book_of, cells_of, of_file, sums


def test_factors_are_numbers_and_proved_worths_have_as_many_decimals(reported):
    folder, _ = reported
    book = book_of(folder)
    for name, wanted in (("Pit by pit", {0.6, 1.0, 1.2}), ("Pushbacks", {0.6, 1.0})):
        heads = [cell.value for cell in book[name][1]]
        cells = [row[heads.index("Factor")] for row in book[name].iter_rows(min_row=2)]
        assert {cell.data_type for cell in cells} == {"n"}
        assert {c.value for c in cells} == wanted
        assert {cell.number_format for cell in cells} == {"0.00#"}
    proved = [row[-1] for row in cells_of(book["Pit by pit"])]
    assert len({len(text.partition(".")[2]) for text in proved}) == 1
    assert any("." in text for text in proved)  # else nothing was to be seen


def close(cells, wanted):
    return all(
        a is None and b is None or a == pytest.approx(b, rel=1e-9, abs=1e-6)
        for a, b in zip(cells, wanted, strict=True)
    )


def test_the_workbook_has_what_the_table_adds_up_to(reported):
    folder, rows = reported
    book = book_of(folder)
    pits = cells_of(book["Pit by pit"])
    assert [float(row[0]) for row in pits] == [0.6, 1.0, 1.2]
    for row in pits:
        inside = [one for one in rows if one["shell"] <= float(row[0])]
        assert close(row[1:11], sums(inside))
        assert row[10] > row[11] > 0
    benches = cells_of(book["Benches"])
    inside = [one for one in rows if one["shell"] <= 1.0]
    elevations = sorted({float(one["ZC"]) for one in inside}, reverse=True)
    assert [row[0] for row in benches] == elevations
    for row in benches:
        assert close(row[1:], sums(one for one in inside if float(one["ZC"]) == row[0]))
    for row in cells_of(book["Bench by shell"]):
        assert close(
            row[2:],
            sums(o for o in rows if float(o["ZC"]) == row[0] and o["shell"] == row[1]),
        )
    for row, of in zip(cells_of(book["Pushbacks"]), ((0.0, 0.6), (0.6, 1.0)), strict=True):
        own = [one for one in rows if of[0] < one["shell"] <= of[1]]
        assert close(row[4:14], sums(own))
        centres = [float(one["ZC"]) for one in own]
        assert row[2:4] == [max(centres) + 7.5, min(centres) - 7.5]
    assert len(cells_of(book["Pushback benches"])) >= len(benches)


def test_the_cover_has_the_best_case_before_the_worst(reported):
    """In whole dollars, as the table of pits has them at the full price."""
    book = book_of(reported[0])
    (pit,) = (row for row in cells_of(book["Pit by pit"]) if float(row[0]) == 1.0)
    facts = {row[0]: row[1] for row in cells_of(book["Report"])}
    best, worst = pit[11:13]
    assert best > worst
    said = facts["Discounted, by two simple orders"]
    assert said == f"$ {round(best):,} and {round(worst):,}"


def test_rocks_of_the_whole_model(reported):
    folder, rows = reported
    found = {row[0]: row[1:] for row in cells_of(book_of(folder)["Rocks"])}
    assert set(found) == {NASTY, "SUL", "all"}
    for name, row in found.items():
        blocks, rock, ore, _, _, *metals, _ = sums(
            one for one in rows if name in ("all", one["ROCK"])
        )
        assert close(row, (blocks, rock, ore, *metals))


def test_words_that_look_like_formulas_are_words(reported):
    book = book_of(reported[0])
    kinds = {cell.data_type for sheet in book for row in sheet.iter_rows() for cell in row}
    assert kinds <= {"s", "n", "inlineStr"}  # and none is a formula
    assert sum(len(sheet._images) for sheet in book) == 4


def test_a_workbook_is_read_by_another_program(reported, tmp_path):
    pandas = pytest.importorskip("pandas")
    found = pandas.read_excel(reported[0] / "out/report.xlsx", sheet_name=None)
    assert list(found["Pit by pit"].columns)[:3] == ["Factor", "Blocks", "Rock (t)"]
    assert found["Slopes"]["Error (degrees)"].abs().max() < 20


def test_certificates_are_told(tmp_path):
    folder = written_study(tmp_path / "s")
    for words in (["build"], ["shells", "--certificates"], ["report", "--xlsx"]):
        said(*words, folder)
    assert not (folder / "out/report.pdf").exists()
    book = book_of(folder)
    words = [cell.value for row in book["What is proved"].iter_rows() for cell in row]
    assert any("3 pits have a certificate that pit check has accepted" in str(w) for w in words)
    digests = dict(cells_of(book["Digests"]))
    for factor, name in ((600, "0.6"), (1000, "1"), (1200, "1.2")):
        kept = pp.Study(folder).place(factor) / "best.cert.gz"
        gunzipped = subprocess.run(["gzip", "-dc", kept], capture_output=True, check=True).stdout
        assert digests[f"certificate of the pit at factor {name}"] in (
            of_file(kept),
            hashlib.sha256(gunzipped).hexdigest(),
        )
