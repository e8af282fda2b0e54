"""Formulas over columns are arithmetic and nothing else."""
import numpy as np
import pytest

from mines import costs, model_of, refusal, table
from pitplan.table.formula import worked_out


@pytest.fixture(scope="module")
def frame():
    return table(5, 4, 4, 6)


@pytest.fixture(scope="module")
def model(frame):
    return model_of(frame)


@pytest.mark.parametrize(
    "text",
    [
        "@os.system('echo x')",
        "__import__('os')",
        "XC.__class__",
        "XC.to_csv('x')",
        "open('x')",
        "[1][0]",
        "(lambda: 1)()",
        "f'{XC}'",
        "1 if 2 else 3",
        "XC @ XC",
        "9**9**9**9 and NO",
        "where(1, 2)",
        "'a' + 1",
        "XC / 0",
        "",
        "XC; XC",
        "XC = 1",
        "column(XC)",
        "column('__class__')",
        "(" * 500 + "1" + ")" * 500,
        "1" * 5000,
        "True",
        "None",
        "XC.values",
        "where(XC > 1, 'a', 'b')",
        "min(*[1, 2])",
        "abs(x=1)",
        "x := 1",
        "ROCK > 3",
    ],
)
def test_a_formula_is_arithmetic_and_nothing_else(text, model, tmp_path):
    refusal(worked_out, text, model.blocks, "mining")


def test_formulas(frame, model):
    b = model.blocks

    def worth(text):
        return worked_out(text, b, "mining")

    assert np.allclose(worth("2.1 + 0.03 * (1420 - ZC) / 15"), 2.1 + 0.03 * (1420 - frame.ZC) / 15)
    assert (
        worth("where(ROCK == 'OXI' and 100 < ZC <= 130, 7.5, -9.5)")
        == np.where((frame.ROCK == "OXI") & (frame.ZC > 100) & (frame.ZC <= 130), 7.5, -9.5)
    ).all()
    assert (worth("not (XC > 5040) or CU < 0.1") == (~(frame.XC > 5040) | (frame.CU < 0.1))).all()
    assert np.allclose(
        worth("max(2, sqrt(abs(column('CU')))) ** 2 - +1"),
        np.maximum(2, np.sqrt(frame.CU)) ** 2 - 1,
    )
    assert (worth("3") == 3).all()
    assert worth("iz").dtype == float


def test_a_formula_compares_words_without_the_blanks_around_them(frame):
    frame = frame.copy()
    frame.loc[3, "SECTOR"], frame.loc[5, "ROCK"] = f" {frame.SECTOR[3]} ", f"{frame.ROCK[5]} "
    found = model_of(frame)
    kept = costs(forbid=["SECTOR == 'WEST '"]).priced(found).forbidden
    assert (kept == (frame.SECTOR.str.strip() == "WEST")).all()
    assert (
        worked_out("ROCK == 'OXI'", found.blocks, "") == (frame.ROCK.str.strip() == "OXI")
    ).all()


def test_yes_counts_as_1(frame, model):
    """Also where it is added to another yes, or taken from it."""
    rich, gold = (frame.CU > 0).to_numpy(), (frame.AU > 0).to_numpy()
    assert (rich & gold).any()
    assert (gold & ~rich).any()
    for text, wanted in (
        ("((CU > 0) + (AU > 0)) * 3", 3 * (rich * 1 + gold)),
        ("(CU > 0) - (AU > 0)", rich * 1 - gold),
        ("-(CU > 0)", -1 * rich),
        ("not (CU > 0)", ~rich),
    ):
        assert worked_out(text, model.blocks, "mining").tolist() == wanted.tolist(), text


@pytest.mark.parametrize("name", ["AU_\u00b5g", "N\u00ba", "\u00c9cart", "E\u0301cart"])
def test_a_column_is_found_whose_letters_python_reads_as_others(frame, name):
    model = model_of(frame.rename(columns={"AU": name}))
    assert worked_out(f"2 * {name}", model.blocks, "mining").tolist() == (2 * frame.AU).tolist()


def test_a_formula_compares_two_columns_of_words_without_the_blanks_around_them(frame):
    """An empty cell is as one of blanks alone."""
    frame = frame.assign(OLD=frame.ROCK + " ", NEW=frame.ROCK)
    frame.loc[[3, 5], "OLD"], frame.loc[5, "NEW"] = ["", "  "], ""
    assert (
        worked_out("OLD == NEW", model_of(frame).blocks, "") == (frame.OLD.str.strip() == frame.NEW)
    ).all()
    assert (frame.OLD.str.strip() != frame.NEW).sum() == 1
    assert (
        worked_out("OLD != NEW", model_of(frame).blocks, "").tolist()
        == (frame.OLD.str.strip() != frame.NEW).tolist()
    )


@pytest.mark.parametrize(
    "text, said",
    [
        ("1 + AU g/t", "try: 1 + column('AU g/t')"),
        ("1 + AU g/t + (2", "try: numbers as 2.5, 'words', columns"),
        ("1,5 * XC", "try: numbers as 2.5, 'words', columns"),
    ],
)
def test_what_is_no_formula_is_told_how_to_be_one(text, said, frame):
    """By a column whose name is no plain word, and by a comma in a decimal."""
    named = frame.rename(columns={"CU": "AU g/t"})
    assert said in refusal(worked_out, text, named, "mining")
