"""What a column of a table has, in a line."""
from __future__ import annotations

from collections.abc import Sequence
from typing import Any

import pandas as pd

from .marks import is_of_numbers

_MOST_WORDS = 12  # words of a column that are listed
_FEW = 3  # .. of one that has more


def line_of_column(values: pd.Series, marks: Sequence[float]) -> dict[str, Any]:
    """What a column has but for cells that stand for "not estimated".

    Returns
    -------
    dict
        ``numbers``, the least, the mean and the greatest of a column of numbers; ``words``, the
        commonest of another one; and ``told``, a line of texts: those three, how many cells have no
        number, and words.
    """
    numbers = pd.to_numeric(values, errors="coerce")
    numbers = numbers.mask(numbers.isin(marks))
    there = numbers.notna()
    if there.any() and (values.dtype.kind in "iuf" or is_of_numbers(values)):
        found = [float(numbers.min()), float(numbers.mean()), float(numbers.max())]
        return {"numbers": found, "words": [], "told": [*map(_short, found), _some(~there), ""]}
    words = values.dropna().value_counts()
    common = [str(word).strip() for word in words.index[:_MOST_WORDS]]
    said = ", ".join(common)
    if len(words) > _MOST_WORDS:
        said = f"{len(words):,}, as {', '.join(common[:_FEW])}"
    return {"numbers": [], "words": common, "told": ["", "", "", _some(values.isna()), said]}


def _some(are: pd.Series) -> str:
    """How many are so; nothing where none is."""
    return f"{are.sum():,}" if are.any() else ""


def _short(value: float) -> str:
    """A number with the digits that count."""
    if abs(value) >= 1000:
        return f"{value:,.0f}" if value.is_integer() else f"{value:,.1f}"
    return f"{value:.4g}"
