"""What a column has, in a line: by counts and means that are worked out by hand."""
import numpy as np
import pandas as pd

from pitplan.table.column_lines import line_of_column


def test_numbers_have_least_mean_and_greatest_without_marks():
    found = line_of_column(pd.Series([2.0, -99.0, 4.0, np.nan, 1500.0]), [-99.0])
    assert found["numbers"] == [2.0, (2 + 4 + 1500) / 3, 1500.0]
    assert found["told"] == ["2", "502", "1,500", "2", ""]
    assert found["words"] == []


def test_numbers_without_a_gap_say_none():
    found = line_of_column(pd.Series([0.123456, 2000.25]), [])
    assert found["told"] == ["0.1235", "1,000.2", "2,000.2", "", ""]


def test_numbers_that_are_text_are_numbers():
    assert line_of_column(pd.Series(["1", "2", "x"]), [])["numbers"] == [1.0, 1.5, 2.0]


def test_words_come_by_how_often_they_stand_there():
    found = line_of_column(pd.Series(["SUL", " OXI ", "SUL", None, "1"]), [])
    assert found["words"][0] == "SUL"
    assert sorted(found["words"][1:]) == ["1", "OXI"]
    assert found["numbers"] == []
    assert found["told"][:4] == ["", "", "", "1"]


def test_of_many_words_their_number_and_the_commonest_are_said():
    words = ["b"] * 3 + ["a"] * 4 + ["c"] * 2 + [f"w{n}" for n in range(10)]
    found = line_of_column(pd.Series(words), [])
    assert found["told"][4] == "13, as a, b, c"
    assert len(found["words"]) == 12
    few = line_of_column(pd.Series(words[:-1]), [])
    assert few["told"][4].startswith("a, b, c, w")
    assert few["told"][4].count(", ") == 11


def test_numbers_most_of_whose_cells_are_below_detection_are_numbers():
    found = line_of_column(pd.Series(["<0.01"] * 5 + ["-", "0.2", "0.6"]), [])
    assert found["told"] == ["0.2", "0.4", "0.6", "6", ""]
    assert found["words"] == []


def test_numbers_most_of_whose_cells_are_empty_are_numbers():
    assert line_of_column(pd.Series([np.nan, np.nan, -9, 3.0]), [-9])["numbers"] == [3, 3, 3]
