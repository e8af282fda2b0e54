"""Cells of a table as texts, the numbers of a column with as many decimals each."""
from __future__ import annotations

from collections.abc import Sequence
from typing import TYPE_CHECKING

from .units_shown import grade_places

if TYPE_CHECKING:
    import pandas as pd


def texts_of(lines: pd.DataFrame, word_columns: int = 1) -> tuple[list[str], list[tuple[str, ...]]]:
    """The names of a table's columns, and its rows as texts. The first `word_columns` columns are
    words."""
    columns = [
        *(list(map(str, lines[name])) for name in lines.columns[:word_columns]),
        *(cells_of(lines[name].tolist()) for name in lines.columns[word_columns:]),
    ]
    return list(map(str, lines.columns)), list(zip(*columns))


def cells_of(values: Sequence[int | float]) -> list[str]:
    """The numbers of a column as a table shows them, all with as many decimals: 3 where the
    greatest is below 100, one less for each digit more, more where it would have less than three
    that count, and none for whole numbers. What is no number is an empty cell.

    >>> cells_of([178.4, 52.12, float("nan")]), cells_of([5041, 12]), cells_of([0.0291])
    (['178.40', '52.12', ''], ['5,041', '12'], ['0.0291'])
    """
    if all(isinstance(value, int) for value in values):
        return [f"{value:,}" for value in values]
    greatest = max((abs(value) for value in values if value == value), default=0.0)
    places = next(
        (
            places
            for places, most in ((grade_places([greatest], 3, 3), 100), (2, 1_000), (1, 10_000))
            if round(greatest, places) < most
        ),
        0,
    )
    return ["" if value != value else f"{value:,.{places}f}" for value in values]
