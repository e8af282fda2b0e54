"""Blocks as a table, read back by pandas and held against the planner's own table."""
import numpy as np
import pandas as pd

import pitplan as pp
from files_back import read_vtu
from mines import costs, study_of, table
from pitplan.table import spreadsheets
from pitplan.views.export import csv as export_csv, vtu as export_vtu


def test_csv_of_blocks(tmp_path, turned):
    shells, f = turned
    assert export_csv.write(shells, tmp_path / "x.csv", ["CU"], is_whole=True) == len(f)
    found = pd.read_csv(tmp_path / "x.csv")
    assert found.id.tolist() == f.IJK.tolist()
    assert (found.row == f.index + 2).all()
    assert np.allclose(found[["x", "y", "z"]], f[["XC", "YC", "ZC"]])
    assert np.array_equal(found.CU, f.CU)
    assert (found["shell"].notna() == (shells.shell < 4)).all()
    assert (found["to"] == "mill").sum() == shells.study.priced.treated(1000).sum()
    assert (
        found.worth[shells.holds(2)].sum()
        == float(shells.study.mask(1000).dot(shells.study.priced.worth(1000)))
        == float(shells.verdicts[2]["worth"])
    )
    assert export_csv.write(shells, tmp_path / "y.csv") == shells.holds(3).sum()
    plain = spreadsheets.safe(export_csv.table_of(shells, ["CU"], is_whole=True)).to_csv(
        index=False
    )
    assert (
        tmp_path / "x.csv"
    ).read_text() == plain  # numbers that are spelled once are spelled as pandas does


def test_worths_and_ways_of_blocks_are_the_table_s_in_cents_too(tmp_path):
    f = table(6, 5, 4, 3)
    shells = study_of(tmp_path, f, economics=costs(rounding=0.01)).shells([1000])
    export_csv.write(shells, tmp_path / "x.csv", is_whole=True)
    found = pd.read_csv(tmp_path / "x.csv")
    revenue, processing = (
        np.rint(100 * v)
        for v in (
            f.TONNES * f.CU * 0.01 * 0.85 * 8500,
            f.TONNES * f.ROCK.map({"OXI": 7.5, "SUL": 9.0}),
        )
    )
    assert (
        np.abs(
            100 * found.worth - (np.maximum(revenue - processing, 0) - np.rint(200 * f.TONNES))
        ).max()
        < 1e-3
    )
    assert (found["to"] == np.where(revenue > processing, "mill", "waste")).all()
    assert (found.worth % 1 != 0).any()


def test_a_forbidden_block_has_its_own_worth_and_a_code_is_a_whole_number(tmp_path):
    f = table(6, 5, 4, 3)
    f["SECCOD"] = np.where(f.XC < 5010, 1.0, 2.0)
    is_shut = (f.XC < 5010).to_numpy()
    shells = study_of(tmp_path, f, economics=costs(forbid=["SECCOD == 1"])).shells([1000])
    export_csv.write(shells, tmp_path / "x.csv", ["SECCOD", "CU"], is_whole=True)
    found = pd.read_csv(tmp_path / "x.csv")
    revenue, processing = (
        np.rint(v)
        for v in (
            f.TONNES * f.CU * 0.01 * 0.85 * 8500,
            f.TONNES * f.ROCK.map({"OXI": 7.5, "SUL": 9.0}),
        )
    )
    worth = np.maximum(revenue - processing, 0) - np.rint(2 * f.TONNES)
    assert found.worth.tolist() == worth.tolist()
    assert is_shut.any()
    assert (found["to"] == "forbidden").tolist() == is_shut.tolist()
    assert found.SECCOD.dtype.kind == "i"
    assert (found.SECCOD == f.SECCOD).all()
    export_vtu.write(shells, tmp_path / "x.vtu", is_whole=True)
    _, data = read_vtu(tmp_path / "x.vtu")
    assert data["worth"].tolist() == worth.tolist()


def test_words_that_a_spreadsheet_would_run_arent_written_as_formulas(tmp_path):
    bad = ["=1+1", "+B1", "-A2", "@SUM(A1)", "=cmd|' /C calc'!A0"]
    fine = ["-5", "+3.5", "B-1", "", "'x", "1=1"]
    f = table(4, 4, 3, 1)
    f["IJK"] = [
        word + f"#{n}" if (word := (bad + ["b"])[n % 6]) != "b" else f"b{n}" for n in range(len(f))
    ]
    f["ROCK"] = "=SUL"
    shells = study_of(
        tmp_path,
        f,
        economics=pp.Economics(
            metals=(pp.Metal("copper", "CU", price=8500),), mining=2.0, processing=9.0
        ),
    ).shells([1200])
    export_csv.write(shells, tmp_path / "x.csv", is_whole=True)
    import csv

    with open(tmp_path / "x.csv", newline="") as file:
        rows = list(csv.reader(file))[1:]
    risky = [
        cell
        for row in rows
        for cell in row
        if cell[:1] in "=+-@" and cell and not cell[1:].replace(".", "").isdigit()
    ]
    assert len(rows) == len(f)
    assert not risky
    assert [spreadsheets.as_written(row[0]) for row in rows] == f.IJK.tolist()
    assert spreadsheets.harmless(fine).tolist() == fine
    assert spreadsheets.harmless(bad).tolist() == ["'" + word for word in bad]
