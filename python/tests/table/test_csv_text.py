"""A table as text: separators, decimals, marks, rows, and what is said where it is wrong."""
import gzip
import io
import os

import numpy as np
import pandas as pd
import pytest
from hypothesis import given, strategies as st

import pitplan as pp
from mines import SIZE, costs, table
from pitplan.base.errors import PlanError
from pitplan.table import formula
from pitplan.table.csv_text import dialect_of, read_frame, rows_about
from tables import read, refusal


@given(
    st.integers(0, 10**6),
    st.integers(0, 40),
    st.sampled_from(["CU", "TONNES", "XC", "ZC"]),
    st.sampled_from(["<0.01", "1,234", "", "n/a", "0.5%", "nan", "1e999"]),
)
def test_a_bad_cell_is_told_by_row_and_column(tmp_path_factory, seed, row, column, cell):
    f = table(4, 4, 3, seed)
    row %= len(f)
    f[column] = f[column].astype(object)
    f.loc[row, column] = cell
    said = refusal(tmp_path_factory.mktemp("s"), f)
    assert f"row {row + 2}, column {column}" in said
    assert cell == "" or cell == "1e999" or repr(cell) in said


@pytest.mark.parametrize(
    "separator, decimal", [(",", "."), (";", "."), (";", ","), ("\t", "."), ("\t", ",")]
)
@pytest.mark.parametrize("mark", [b"", b"\xef\xbb\xbf"])
@pytest.mark.parametrize("end", ["\n", "\r\n"])
def test_every_way_to_write_a_table_is_read_alike(tmp_path, separator, decimal, mark, end):
    f = table(4, 3, 3, 1)
    text = mark + f.to_csv(index=False, sep=separator, decimal=decimal, lineterminator=end).encode()
    plain = read(tmp_path, f)
    found = read(tmp_path, f, "other.csv", text)
    packed = read(tmp_path, f, "other.csv.gz", gzip.compress(text))
    assert found.blocks.equals(plain.blocks)
    assert packed.blocks.equals(plain.blocks)
    assert packed.name == "other"


def test_ids_and_rock_codes_are_words(tmp_path):
    f = table(3, 3, 2, 1)
    f["IJK"] = [f"{n:05d}" for n in range(len(f))]
    f["ROCK"] = "007"
    model = read(tmp_path, f)
    assert model.blocks["id"].tolist() == f.IJK.tolist()
    assert set(model.blocks.rock) == {"007"}


def test_lines_between_header_and_blocks_and_blank_lines_keep_the_rows_right(tmp_path):
    f = table(4, 3, 3, 1)
    lines = f.to_csv(index=False).splitlines(keepends=True)
    text = "".join(
        [
            lines[0],
            "Variable descriptions:,,,,,,,,\n",
            "Variable types:,double,double,double,double,double,double,name,name\n",
            *lines[1:5],
            "\n",
            *lines[5:],
            "\n\n",
        ]
    )
    model = read(tmp_path, f, text=text.encode())
    assert len(model) == len(f)
    assert model.blocks["row"].tolist()[:5] == [2, 3, 4, 5, 7]
    bad = text.replace(lines[5], lines[5].replace(f"{f.TONNES[4]}", "many", 1))
    assert "row 9, column TONNES: the cell is no number: it is 'many'" in refusal(
        tmp_path, f, text=bad.encode()
    )
    assert model.row_block[7] == 4
    assert model.row_block[6] == -1


@pytest.mark.parametrize("row", [0, 7])
def test_a_row_with_a_cell_too_many_is_told(tmp_path, row):
    lines = table(4, 3, 3, 1).to_csv(index=False).splitlines()
    lines[row + 1] += ",1"
    assert f"row {row + 2}: has 10 cells, and the header line 9" in refusal(
        tmp_path, None, text="\n".join(lines).encode()
    )


def test_separators_at_the_ends_of_lines_do_no_harm(tmp_path):
    f = table(4, 3, 3, 1)
    text = f.to_csv(index=False).replace("\n", ",\n").encode()
    assert read(tmp_path, f, text=text).blocks.equals(read(tmp_path, f).blocks)


@pytest.mark.parametrize(
    "sep, decimal, tonnes, said",
    [
        (";", ",", "14.100", "column TONNES: the cell is '14.100', with a point"),
        ("\t", ",", "14.100", "column TONNES: the cell is '14.100', with a point"),
        (";", ".", "14,100", "column TONNES: 18 cells are no numbers, the first is '14,100'"),
        ("\t", ".", "1,014,100", "take the thousands separators out"),
        (";", ",", "14.100,5", "take the thousands separators out"),
        (",", ".", "14'100", "take the thousands separators out"),
        (",", ".", "14\u00a0100", "take the thousands separators out"),
        (",", ".", "0,000", 'try: decimal = ","'),
        (";", ".", "", "try: its tonnes or density in that cell"),
    ],
)
def test_a_thousands_separator_is_no_decimal(tmp_path, sep, decimal, tonnes, said):
    f = table(4, 3, 3, 1)
    f["TONNES"] = tonnes
    assert said in refusal(
        tmp_path, f, text=f.to_csv(index=False, sep=sep, decimal=decimal).encode()
    )


def test_points_that_must_be_decimals_are_read_beside_commas(tmp_path):
    f = table(4, 3, 3, 1)
    lines = f.assign(CU=f.CU.round(3).astype(object), AU="0,450").to_csv(
        index=False, sep=";", decimal=","
    )
    assert ";0.236;" in lines
    found = read(tmp_path, None, text=lines.encode())
    assert np.allclose(costs().priced(found).grade["copper"], f.CU)
    assert (found.numbers("AU", "") == 0.45).all()


def test_words_with_a_point_stay_in_a_table_with_decimal_commas(tmp_path):
    f = table(4, 3, 3, 1)
    f["DATE"], f["LABEL"] = "31.12.2025", np.where(np.arange(len(f)) % 3, "upper", "1.2")
    assert set(
        read(tmp_path, None, text=f.to_csv(index=False, sep=";", decimal=",").encode()).blocks.LABEL
    ) == {"upper", "1.2"}


def test_a_code_is_one_code_in_all_pieces_of_a_large_table(tmp_path):
    """pandas reads some 65,536 rows at a time: in the first of these pieces are numbers alone."""
    n = 70_000
    f = pd.DataFrame(
        {
            "XC": 10 * (np.arange(n) % 280),
            "YC": 10 * (np.arange(n) // 280),
            "ZC": 0,
            "SG": 2.5,
            "CU": 0.5,
            "ROCK": "SUL",
            "ZONE": np.where(np.arange(n) % 2, "01", "02"),
        }
    )
    f["NOTE"], f["AS"], f["END"] = "", 1, 1
    for _ in range(8):
        f[f"C{_}"] = 0
    f.loc[n - 1, "ZONE"] = "10A"
    found = read(tmp_path, f, size=(10, 10, 10))
    kept = costs(processing=9.0, forbid=["ZONE == '01'"]).priced(found).forbidden
    assert (found.blocks.ZONE == f.ZONE).all()
    assert (kept == (f.ZONE == "01")).all()
    assert (pp.Slopes(45, by="ZONE", regions={"02": 38}).region_of(found) == (f.ZONE == "02")).all()


@pytest.mark.parametrize("more", [[], [""]])
def test_true_and_false_are_the_words_that_they_are_in_the_table(tmp_path, more):
    """As in Excel's spelling; beside empty cells too, of which each is a word of no letter."""
    f = table(4, 3, 3, 1)
    f["MINED"] = (["TRUE", "FALSE", *more] * len(f))[: len(f)]
    model = read(tmp_path, f)
    assert (
        formula.worked_out("MINED == 'TRUE'", model.blocks, "forbid").tolist()
        == (f.MINED == "TRUE").tolist()
    )
    assert (
        pp.Slopes(45, by="MINED", regions={"TRUE": 38}).region_of(model).tolist()
        == (f.MINED == "TRUE").astype(int).tolist()
    )


def test_a_point_in_place_of_a_comma_is_a_number_to_formulas_too(tmp_path):
    f = table(4, 3, 3, 1)
    text = f.to_csv(index=False, sep=";", decimal=",").split("\n")
    at = next(i for i, line in enumerate(text[1:], 1) if line.split(";")[5] not in ("0,0", "0"))
    cells = text[at].split(";")
    text[at] = ";".join([*cells[:5], cells[5].replace(",", "."), *cells[6:]])
    model = read(tmp_path, f, text="\n".join(text).encode())
    assert formula.worked_out("CU > 0.1", model.blocks, "forbid").tolist() == (f.CU > 0.1).tolist()


@pytest.mark.parametrize("column", ["TONNES", "DENSITY"])
def test_less_than_nothing_is_told_also_where_a_point_stands_in_place_of_a_comma(tmp_path, column):
    f = table(4, 3, 3, 1).rename(columns={"TONNES": column}).astype({column: object})
    f[column] = [f"{float(v) % 3 + 1:.2f}".replace(".", ",") for v in f[column]]
    f.loc[4, column] = "-5.5"
    said = refusal(tmp_path, f, text=f.to_csv(index=False, sep=";").encode())
    assert f"row 6, column {column}: -5.5 is less than nothing" in said, said


def test_a_weight_with_a_sign_too_many_may_be_the_number_without_it(tmp_path):
    f = table(4, 3, 3, 1)
    weight = float(f.TONNES[3])
    f.loc[4, "TONNES"] = -weight
    said = refusal(tmp_path, f)
    assert f"row 6, column TONNES: {-weight:g} is less than nothing" in said, said
    assert f"try: {weight:g} in that cell, if the sign is a slip; or absent" in said, said


def test_a_pipe_is_told_as_one(tmp_path):
    os.mkfifo(tmp_path / "ids")
    with pytest.raises(PlanError, match="ids: is a pipe, and a table is read more than once"):
        dialect_of(tmp_path / "ids")


def test_a_row_with_a_cell_too_many_is_told_below_lines_that_hold_no_blocks(tmp_path):
    """Each line ends with a separator, and one has a cell after it."""
    lines = table(4, 3, 3, 1).to_csv(index=False).split("\n")
    lines = [lines[0], "text," * 9, *(line + "," for line in lines[1:6]), lines[6] + ",7"]
    with pytest.raises(pp.PlanError, match="row 8: has 10 cells, and the header line 9"):
        read(tmp_path, None, text="\n".join(lines).encode())


def test_lines_that_were_passed_over_are_told(tmp_path):
    lines = table(4, 3, 3, 1).to_csv(index=False).splitlines(keepends=True)
    assert (
        "1 line below the header holds no block"
        in read(
            tmp_path, None, text="".join([lines[0], "-,m,m,m,t,%,g/t,-,-\n", *lines[1:]]).encode()
        ).notes
    )


@pytest.mark.parametrize("cell", ["", "-"])
def test_a_block_without_a_place_is_not_absent(tmp_path, cell):
    f = table(4, 3, 3, 1)
    f["XC"] = f.XC.astype(object)
    f.loc[3, "XC"] = cell
    said = refusal(tmp_path, f, absent=[cell])
    assert "row 5, column XC" in said
    assert "absent" not in said
    assert "take the row out" in said


@pytest.mark.parametrize(
    "text, said",
    [
        (b"", "no header line"),
        ("XC,YC,ZC,TONNES\n1,2,3,4\n".encode("utf-16-le"), "UTF-16, or no text"),
        (b'XC,YC,ZC,"TON\nNES"\n1,2,3,4\n', "goes on in the next line"),
        (b"XC,YC,ZC,TONNES\n", "no rows"),
        ("XC,YC,ZC,TONNES\n1,2,3,4\n".encode("utf-16"), "UTF-16"),
        (b"PK\x03\x04rest", "spreadsheet"),
        (b"XC,YC,ZC,CU,CU\n1,2,3,4,5\n", "two columns are called CU"),
        (b"XC,YC,ZC,Gr\xf6\xdfe\n1,2,3,4\n", 'encoding = "cp1252"'),
    ],
)
def test_what_is_no_table(tmp_path, text, said):
    assert said in refusal(tmp_path, None, text=text)


@pytest.mark.parametrize(
    "name", ["cp99", "hex", "idna", "undefined", "unicode_escape", "", "\0", "\ud800"]
)
def test_what_is_no_encoding_of_tables(tmp_path, name):
    path = tmp_path / "t.csv"
    path.write_text("X,Y,Z\n1,2,3\n", encoding="utf-8")
    with pytest.raises(PlanError, match="is no encoding that is known\n  try: "):
        dialect_of(path, name)


def test_a_table_that_isnt_there(tmp_path):
    with pytest.raises(pp.PlanError, match="no such file"):
        pp.read_table(tmp_path / "none.csv", size=SIZE)
    (tmp_path / "cut.csv.gz").write_bytes(
        gzip.compress(table(5, 5, 5, 1).to_csv(index=False).encode())[:-200]
    )
    with pytest.raises(pp.PlanError, match="can't be read"):
        pp.read_table(tmp_path / "cut.csv.gz", size=SIZE)


def test_cells_that_stand_for_not_estimated(tmp_path):
    f = table(4, 4, 3, 2)
    f["CU"] = f["CU"].astype(object)
    f.loc[3, "CU"], f.loc[5, "CU"], f.loc[7, "CU"] = -99, "-", ""
    said = refusal(tmp_path, f)
    assert "row 7, column CU" in said
    assert 'absent = ["-"]' in said
    f.loc[5, "CU"] = 0.2
    assert "row 9, column CU: the cell is empty" in refusal(tmp_path, f)
    f.loc[7, "CU"] = 0.3
    f["CU"] = f["CU"].astype(float)
    assert "row 5, column CU: -99 is below 0" in refusal(tmp_path, f)
    f["CU"] = f["CU"].astype(object)
    f.loc[5, "CU"], f.loc[7, "CU"] = "-", ""
    grade = costs().priced(read(tmp_path, f, absent=["-99", "-", ""])).grade["copper"]
    assert grade[3] == grade[5] == grade[7] == 0
    assert grade[1] == f.CU[1]


def test_a_mark_may_have_a_decimal_comma_as_its_table_has(tmp_path):
    f = table(4, 4, 3, 2)
    f.loc[3, "CU"] = -9.5
    f.to_csv(tmp_path / "t.csv", index=False, sep=";", decimal=",")
    for mark in ("-9,5", "-9.5"):
        model = pp.read_table(tmp_path / "t.csv", size=SIZE, absent=[mark])
        assert costs().priced(model).grade["copper"][3] == 0
        assert model.blocks.CU[3] == 0
        assert costs(mining="2 + CU").priced(model).mining[3] == round(
            2 * f.TONNES[3]
        )  # formulas count it as 0 too


def test_rows_that_weigh_nothing_are_told(tmp_path):
    """Air, or rock whose tonnes aren't estimated: digging it would cost nothing."""
    f = table(4, 4, 3, 2)
    assert not any("weigh nothing" in note for note in read(tmp_path, f).notes)
    f.loc[[3, 5, 7], "TONNES"], f.loc[[3, 5], "ROCK"], f.loc[7, "ROCK"] = -99, "SUL", "OXI"
    assert (
        "3 rows weigh nothing, and count as air: SUL 2, OXI 1"
        in read(tmp_path, f, absent=["-99"]).notes
    )
    f.loc[[3, 5, 7], "TONNES"], f.loc[3, "ROCK"] = [-99, 5, 5], ""
    assert (
        "1 row weighs nothing, and counts as air: without a rock 1"
        in read(tmp_path, f, absent=["-99"]).notes
    )


def test_several_grades_below_0_are_no_mark(tmp_path):
    f = table(4, 4, 3, 2)
    f.loc[3, "CU"], f.loc[5, "CU"] = -0.004, -0.003
    said = refusal(tmp_path, f)
    assert "row 5, column CU: -0.004 is below 0; 2 cells are so" in said
    assert "absent" not in said
    assert "0 in their place" in said


RETURNS = [
    ("ID,X,Y\n1,2,3\n4,5\r,6\n", 3, "'4,5'"),
    ("ID,X,Y\r\n1,2,3\r\n4,a\rb,6\r\n", 3, "'4,a'"),
    ('ID,X,Y\n1,"a\rb",3\n4,a\rb,6\n', 3, "'4,a'"),  # quotes keep the first
    ("ID;X;Y\n\n1;2;3\n4;5;6\r7;8;9\n", 4, "'4;5;6'"),
]


@pytest.mark.parametrize("text, row, before", RETURNS)
@pytest.mark.parametrize("ending", ["csv", "csv.gz"])
def test_a_carriage_return_within_a_row_is_told(tmp_path, text, row, before, ending):
    path = tmp_path / f"t.{ending}"
    path.write_bytes(gzip.compress(text.encode()) if ending == "csv.gz" else text.encode())
    with pytest.raises(PlanError) as error:
        read_frame(path, dialect_of(path))
    assert error.value.row is not None
    assert error.value.row + 2 == row
    assert f"a carriage return stands within the row, after {before}" in str(error.value)
    assert "take it out; or quotes around that cell" in str(error.value)


@pytest.mark.parametrize(
    "text", ['ID,X,Y\n1,"a\rb",3\n', "ID,X,Y\r\n1,2,3\r\n4,5,6", "ID,X,Y\n1,2,3\r\r\n4,5,6\r"]
)
def test_a_carriage_return_in_quotes_or_at_an_end_is_none(tmp_path, text):
    (tmp_path / "t.csv").write_text(text, newline="")
    assert list(read_frame(tmp_path / "t.csv", dialect_of(tmp_path / "t.csv"))["Y"].dropna())


def test_a_carriage_return_at_the_end_of_a_piece_is_one_of_two(tmp_path, monkeypatch):
    """A piece of the file may end between the two letters of a line's end."""
    from pitplan.table import csv_text

    for size in range(1, 12):
        monkeypatch.setattr(csv_text, "CHUNK_SIZE", size)
        assert not csv_text.has_lone_return(io.BytesIO(b"a,b\r\n1,2\r\n"))
        assert csv_text.has_lone_return(io.BytesIO(b"a,b\r\n1\r,2\r\n"))


@pytest.mark.parametrize(
    "there, asked, wanted",
    [
        (["mine_2024.csv", "prices.csv"], "mine2024.csv", "/mine_2024.csv"),
        (["Mine.CSV"], "mine.csv", "/Mine.CSV, which is there: large and small letters count"),
        (["blocks.csv.gz"], "blocks.csv", "/blocks.csv.gz"),
        (["a.csv", "b.csv"], "zzzzzz.csv", "one of the tables of that folder: a.csv, b.csv"),
        (["notes.pdf"], "zzzzzz.csv", " has none"),
        (["sub/mine.csv"], "mine.csv", "sub/mine.csv"),
        (["mine.csv"], "sub/mine.csv", "mine.csv"),
        ([], "sub/mine.csv", "another folder: there is no "),
    ],
)
def test_a_table_that_isn_t_there_has_a_remedy(tmp_path, there, asked, wanted):
    for name in there:
        (tmp_path / name).parent.mkdir(exist_ok=True)
        (tmp_path / name).write_text("x\n")
    if asked == "sub/mine.csv" and there:
        (tmp_path / "sub").mkdir()
    with pytest.raises(PlanError, match="there is no such file") as error:
        dialect_of(tmp_path / asked)
    assert wanted in str(error.value.try_this)


def test_a_point_among_decimal_commas_is_told_where_most_cells_are_below_detection(tmp_path):
    """8.200 may be eight thousand, whatever stands in the other rows."""
    lines = ["X;AU", *["1,5;<0,01"] * 6, "1,5;0,35", "1,5;8.200"]
    (tmp_path / "t.csv").write_text("\n".join(lines) + "\n")
    with pytest.raises(PlanError, match="row 9, column AU: the cell is '8.200', with a point"):
        read_frame(tmp_path / "t.csv", dialect_of(tmp_path / "t.csv"))


def test_cells_about_a_row_stand_below_their_names(tmp_path):
    """Also after a cell in quotes that has a comma, or a quote that nothing ends."""
    rows = ["IJK,ROCK,CU", 'b1,"OXI, upper",0.5', "b2,SUL,x", 'b3,"SUL,0.1', "b4,SUL,0.2"]
    (tmp_path / "t.csv").write_text("\n".join(rows) + "\n")
    assert rows_about(tmp_path / "t.csv", "3", "utf-8-sig", 3) == [
        (1, ["IJK", "ROCK", "CU"]),
        (2, ["b1", "OXI, upper", "0.5"]),
        (3, ["b2", "SUL", "x"]),
        (4, ["b3", "SUL,0.1"]),
    ]
