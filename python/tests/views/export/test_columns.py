"""Columns of the planner's table in files of blocks."""
import numpy as np
import pandas as pd
import pytest

from pitplan.views.export.columns import free, yes_or_no


@pytest.mark.parametrize(
    "words, numbers",
    [
        (["TRUE", "false", " True ", ""], [1, 0, 1, 0]),
        (["FALSE", np.nan, "FALSE"], [0, 0, 0]),
        (["TRUE", "FALSE", "MAYBE"], None),
        (["SUL", "TRUE"], None),
        (["", ""], None),
    ],
)
def test_a_column_of_true_and_false_is_told_from_other_words(words, numbers):
    found = yes_or_no(pd.Series(words, dtype=object))
    assert (found is None) == (numbers is None)
    assert numbers is None or found.tolist() == numbers


def test_a_column_that_the_file_has_itself_is_named_as_the_tables():
    assert [free(name, "year") for name in ("CU", "worth", "year", "shell")] == [
        "CU",
        "worth of the table",
        "year of the table",
        "shell of the table",
    ]
