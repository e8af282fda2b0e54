"""Columns that say how much of a block is rock, or ore: what they are called, and what to do with
one."""
from __future__ import annotations

import re
from collections.abc import Mapping

import pandas as pd

from .column_names import columns_with

_PART = re.compile(r"topo|ore|rock|air\b|mined|solid|inside|below|parcial|partial", re.IGNORECASE)
_SHARE = re.compile(r"%|pct|perc|frac|prop", re.IGNORECASE)
# so called, a column needs no word of a share: its values say it, which end at 1 or at 100
_ALONE = re.compile(
    r"topo(graphy|grafia|grafía)?|ore|below_?topo(graphy)?|in_?rock|solid", re.IGNORECASE
)
# a name that has the word of ore and none of the ground's
_OF_ORE = re.compile(r"(?!.*(topo|rock|air|solid|inside|below)).*ore", re.IGNORECASE)
_FEWEST = (
    0.5  # of the cells of a column that is called by a word alone: so many are whole blocks or none
)


def is_part(name: str, values: pd.Series) -> bool:
    """Whether a column is one of shares or percents of blocks, by its name and its numbers: some
    block is neither whole nor none."""
    if values.dtype.kind not in "iuf" or not len(values):
        return False
    least, most = float(values.min()), float(values.max())
    if not (0 <= least and most <= 100 and ((values > 0) & (values < most)).any()):
        return False
    if _PART.search(name) and _SHARE.search(name):
        return True
    is_whole = (values == 0) | (values == most)
    return (
        _ALONE.fullmatch(name.strip()) is not None
        and most in (1, 100)
        and float(is_whole.mean()) >= _FEWEST
    )


def remedy_of_part(name: str, most: float, known: Mapping[str, str]) -> str:
    """What to write where a column is one: percents are named in `columns`, beside those that are
    known, and shares stand in a formula. What the name says stands first."""
    if most > 1:
        both = [
            (columns_with(known, topography=name), "if it is the percent of a block that is rock"),
            (columns_with(known, ore=name), "if it is the percent that is ore"),
        ]
    else:
        both = [
            (
                f'tonnes = "SG * 4000 * {name}" in [model]',
                "if it is the share of a block that is rock",
            ),
            (
                "a column of 100 times as much as ore in columns in [model]",
                "if it is the share that is ore",
            ),
        ]
    (first, why), (second, other) = reversed(both) if _OF_ORE.match(name) else both
    return f"{first}, {why}; {second}, {other}"
