"""Cells that seem to stand for "not estimated", as -99, or "<0.01", below detection; and whether a
column with many of them is one of numbers."""
from __future__ import annotations

import re

import pandas as pd

MARKS = (
    "-9",
    "-99",
    "-999",
    "-9999",
    "-99.0",
    "-999.0",
    "-1",
    "-1.0",
    "-",
    "--",
    "*",
    "N/A",
    "n/a",
    "NA",
    "#N/A",
    "NaN",
    "nan",
    "absent",
    "null",
    "NULL",
    "None",
    "N/D",
    "n/d",
    "ND",
    "nd",
    "N.D.",
    "n.d.",
    "S/D",
    "s/d",
    "SD",
    "s/i",
    "S/I",
    "",
)
LIMIT = re.compile(r"<\s*\d*[.,]?\d+")  # below the limit of an assay


def are_limits(values: pd.Series) -> pd.Series:
    """Which cells of a column are below the limit of an assay.

    >>> are_limits(pd.Series(["<0.01", "0.35", " < 0,5 ", None, "<LD"])).tolist()
    [True, False, True, False, False]
    """
    kinds = [] if values.dtype.kind in "iufb" else values.unique()
    limits = [
        kind
        for kind in kinds
        if isinstance(kind, str) and "<" in kind and LIMIT.fullmatch(kind.strip())
    ]
    return values.isin(limits)


def is_of_numbers(values: pd.Series) -> bool:
    """Whether a column is one of numbers, with words among them: more than half of its cells are
    numbers. Where some are below detection, they and other marks don't count: `<10`, `10-20` and
    `>20` are words, however many are the first.

    >>> is_of_numbers(pd.Series(["<0.01", "<0.01", "-", "0.35"]))
    True
    >>> is_of_numbers(pd.Series(["<10", "<10", "<10", "10-20"]))
    False
    """
    are = pd.to_numeric(values, errors="coerce").notna()
    if float(are.mean()) > 0.5:
        return True
    below = are_limits(values)
    if not below.any():
        return False
    is_mark = values.isna() | values.astype(str).str.strip().isin(MARKS)
    others = are[~below & ~is_mark]
    return not len(others) or float(others.mean()) > 0.5
