"""Which cells stand for "not estimated" or are below detection, and whether a column is one of numbers."""
import pandas as pd
import pytest

from pitplan.table.marks import are_limits, is_of_numbers


@pytest.mark.parametrize(
    "cell, is_limit",
    [("<0.01", True), (" < 0,5 ", True), ("<5", True), ("<LD", False), (">0.01", False)],
)
def test_a_cell_is_below_detection_by_its_sign_and_number(cell, is_limit):
    assert are_limits(pd.Series([cell, "0.35", None])).tolist() == [is_limit, False, False]


def test_numbers_have_no_limits():
    assert not are_limits(pd.Series([0.01, 0.35])).any()


@pytest.mark.parametrize(
    "cells, is_so",
    [
        (["1", "2", "OXI"], True),
        (["1", "OXI", "SUL"], False),
        (["1", "OXI"], False),  # half of them is no majority
        (["<0.01", "<0.01", "-", "0.35"], True),  # limits and marks don't count
        (["<0.01", "<0.01", "-", "OXI", "0.35"], False),
        (["<0.01", "<0.01", "N/D", ""], True),  # nothing is left that is a word
        (["<10", "<10", "<10", "10-20"], False),
    ],
)
def test_a_column_is_one_of_numbers_by_most_of_its_cells(cells, is_so):
    assert is_of_numbers(pd.Series(cells)) is is_so
