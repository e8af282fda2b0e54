"""What a row's block weighs, where study.toml says more of it than which column has it: a formula,
or the percent of the block that is rock."""
from __future__ import annotations

from collections.abc import Mapping
from typing import TYPE_CHECKING

import numpy as np
import pandas as pd

from ..base.arrays import Bools, Floats
from ..base.errors import MOST_CELLS, Cell, PlanError, about, toml_spelled
from ..table.csv_text import NO_WEIGHT, number_column
from ..table.formula import names_in, worked_out

if TYPE_CHECKING:
    from .model import Model, TableKeys

WEIGHT = "\N{GREEK CAPITAL LETTER SIGMA} tonnes"  # a column beside the table's own, for as long as it is read
TOPOGRAPHY, ORE = "topography", "ore"  # columns of percent


def weighed(
    frame: pd.DataFrame, names: Mapping[str, str], keys: TableKeys, table: str
) -> Mapping[str, str]:
    """Adds the column `WEIGHT` to a table where a formula or a column of topography says what
    blocks weigh, and gives the names of the columns with it in the place of tonnes or density; else
    the names as they are.

    Raises
    ------
    PlanError
        Where the formula is none, a weight is below 0, or a cell is no percent: with the row.
    """
    share = names.get(TOPOGRAPHY)
    if keys.regularise and ORE in names:
        raise PlanError(
            (
                f"columns: ore = {toml_spelled(names[ORE])} isn't taken with regularise: of"
                " sub-blocks that are ore in part no grade of the block follows"
            ),
            table=table,
            try_this="grades of all tonnes of a sub-block, and no column of ore",
            key=("model", "columns", ORE),
        )
    if ORE in names:
        _percents(frame[names[ORE]], table, ORE)
    if keys.tonnes is None and share is None:
        return names
    key = "density" if keys.tonnes is None and "tonnes" not in names else "tonnes"
    if keys.tonnes is not None:
        found = _by_formula(frame, keys.tonnes, table)
    else:
        found = number_column(frame[names[key]], table, hint=NO_WEIGHT)
    if share is not None:
        found = found * _percents(frame[share], table, TOPOGRAPHY) / 100
    frame[WEIGHT] = found
    return {k: name for k, name in names.items() if k not in ("tonnes", "density")} | {key: WEIGHT}


def _by_formula(frame: pd.DataFrame, formula: str | float, table: str) -> Floats:
    """What a formula gives for each row, at least 0."""
    at = ("model", "tonnes")
    try:
        found = worked_out(str(formula), frame.assign(row=frame.index), "[model] tonnes")
    except PlanError as error:
        for each in error.each():
            each.table, each.key = each.table or table, each.key or at
        raise
    tonnes: Floats = found.astype(float)
    if (tonnes < 0).any():
        row = int(np.argmax(tonnes < 0))
        raise PlanError(
            f"tonnes = {str(formula)!r} gives {tonnes[row]:g}, which is less than nothing",
            table=table,
            row=int(frame.index[row]),
            try_this="max(0, ..) around it, if so little is none",
            key=at,
        )
    return tonnes


def ore_part(model: Model) -> Floats | None:
    """The part of each block's tonnes that is ore, which alone has grades and may go to the mill; 1
    of blocks that were added. None where no column says it."""
    if ORE not in model.columns:
        return None
    found = model.numbers(model.columns[ORE], "[model] columns, ore") / 100
    found[model.blocks["row"].to_numpy() < 0] = 1.0
    return found


def _percents(values: pd.Series, table: str, of: str) -> Floats:
    """A column of percent, from 0 to 100. One without a cell above 1 has shares, and is refused: a
    hundredth of all rock would be left."""
    with about("model", "columns", of):
        found = number_column(values, table, hint="a percent from 0 to 100 in each row")
    wrong: Bools = (found < 0) | (found > 100 * (1 + 1e-9))
    key = ("model", "columns", of)
    if wrong.any():
        rows = np.flatnonzero(wrong)
        raise PlanError(
            f"{found[rows[0]]:g} is no percent"
            + (f"; {len(rows):,} cells are so" if len(rows) > 1 else ""),
            table=table,
            row=int(values.index[rows[0]]),
            column=values.name,
            try_this='a percent from 0 to 100 in each row: what stands for "not estimated" counts as none here',
            key=key,
        ).with_cells(
            [Cell(int(values.index[row]), f"{found[row]:g}") for row in rows[1:MOST_CELLS]]
        )
    if len(found) and found.max() <= 1:
        raise PlanError(
            f"no cell is above {found.max():g}, and percents go to 100",
            table=table,
            column=values.name,
            try_this=f'tonnes = "SG * 4000 * {values.name}" in [model], if these are shares'
            if of == TOPOGRAPHY
            else "100 times as much, if these are shares",
            key=key,
        )
    return found


def is_read(keys: TableKeys, column: str) -> bool:
    """Whether the weight of a row rests on a column of tonnes or density."""
    return keys.tonnes is None or column in names_in(str(keys.tonnes))
