"""A short run of the fuzzer over damaged studies; `python3 python/tests/support/fuzzing.py studies 600`
is a long one."""
import tomllib

import pytest

import fuzz_studies
import fuzzing
import mines
import pitplan as pp
from pitplan.base.errors import PlanError
from pitplan.study import shells
from pitplan.table.study_keys import KEYS, LISTS


def test_each_damaged_study_is_answered():
    found, bad = fuzzing.run(fuzz_studies, 150, 120)
    assert bad is None, bad
    assert found["status 3"] > 20, found
    assert found["read"] > 2, found


def test_each_key_stands_in_a_whole_study():
    said = set()
    for text in fuzz_studies.WHOLE:
        for section, keys in tomllib.loads(text).items():
            said |= {(section, name) for name in keys}
            said |= {(of, name) for of in LISTS for each in keys.get(of, ()) for name in each}
    assert {(key.section, key.name) for key in KEYS} <= said


@pytest.mark.parametrize("text", fuzz_studies.WHOLE)
def test_each_whole_study_is_read(tmp_path, text):
    assert fuzz_studies.answer(tmp_path, (text, fuzz_studies.TABLE, 0)) == "read"


def test_a_sample_that_is_not_answered_is_found(monkeypatch):
    """The fuzzer sees a traceback, and a message of another form."""

    class Odd(PlanError):
        def __str__(self):
            return "two\nlines"

    for error in (KeyError("x"), Odd("x")):

        def failing(*_, error=error):
            raise error

        monkeypatch.setattr(fuzz_studies, "read_study_file", failing)
        assert "again: python3 " in fuzzing.run(fuzz_studies, 1)[1]


@pytest.mark.parametrize("share", [float("nan"), float("inf"), -float("inf")])
def test_a_factor_that_is_no_number_is_refused(share):
    with pytest.raises(PlanError, match="a factor is"):
        shells.thousandths(share)


def test_a_first_row_with_more_cells_than_the_header_is_told(tmp_path):
    frame = mines.table(4, 4, 3, 1)
    lines = frame.to_csv(index=False).splitlines()
    (tmp_path / "t.csv").write_text("\n".join([lines[0], lines[1] + ",,,,", *lines[2:]]) + "\n")
    with pytest.raises(PlanError, match="row 2: has 13 cells, and the header line 9"):
        pp.read_table(tmp_path / "t.csv", size=mines.SIZE)


@pytest.mark.parametrize(
    "change, words",
    [
        (
            lambda text: text.replace(",ZC", ",\rZC", 1),
            "row 1: a carriage return stands within the header line",
        ),
        (
            lambda text: text.replace("\n", "\r"),
            "row 1: a carriage return stands within the header line",
        ),
        (
            lambda text: text.replace("ZC", "ZC," + "Z" * 140_000, 1),
            "row 1: the header line is none: field larger",
        ),
    ],
)
def test_a_header_line_that_is_none_is_told(tmp_path, change, words):
    (tmp_path / "t.csv").write_bytes(change(mines.table(4, 4, 3, 1).to_csv(index=False)).encode())
    with pytest.raises(PlanError, match=words):
        pp.read_table(tmp_path / "t.csv", size=mines.SIZE)


@pytest.mark.filterwarnings("error")
def test_an_amount_that_is_no_number_is_refused(tmp_path):
    frame = mines.table(4, 4, 3, 1)
    frame["TONNES"], frame["CU"] = 1e308, 60.0
    frame.to_csv(tmp_path / "t.csv", index=False)
    costs = mines.costs(
        mill=["OXI"]
    )  # where the mill takes nothing, more than a float holds times 0 is no number
    with pytest.raises(PlanError, match="for one block: is a unit wrong"):
        costs.priced(pp.read_table(tmp_path / "t.csv", size=mines.SIZE))
