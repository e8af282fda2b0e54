"""Blocks as a table for any other program: a row for each block with its place, its shell, its
worth and where it goes."""
from __future__ import annotations

import os
from collections.abc import Sequence
from typing import TYPE_CHECKING, Any

import numpy as np
import pandas as pd

from ...base.amounts import THOUSAND, Priced
from ...base.arrays import Array, Floats
from ...table.spreadsheets import write_table
from .columns import columns_of, free

if TYPE_CHECKING:
    from ...study.shells import Shells

_MOST_EXACT = 2**53  # whole numbers below it are floats, to the last digit


def table_of(
    shells: Shells, columns: Sequence[str] | None = None, is_whole: bool = False
) -> pd.DataFrame:
    """A row for each block, in the order of `pit`'s numbers.

    Parameters
    ----------
    columns : sequence of str, optional
        Of the table, written after the others. Default: none.
    is_whole : bool
        Whether all blocks are listed, or the rock of the largest pit alone.

    Returns
    -------
    DataFrame
        ``id``, ``row`` (of the table, as a spreadsheet counts it; 0 for a block that was added),
        ``x``, ``y``, ``z`` (the centre; z is an elevation), ``rock``, ``class`` where the table has
        resource classes, ``tonnes``, ``shell`` (the factor of the first pit that has it, as a share
        of the price; of pushbacks ``pushback`` and of a schedule ``year``, its number), ``worth``
        (at factor 1) and ``to`` (``mill``, or the name of a process where there are some, or
        ``waste``, at factor 1 or as a schedule sends it; ``forbidden`` for a block that may not be
        dug, whose worth is what it would be if it might).
    """
    study, count = shells.study, len(shells.factors)
    kept = np.arange(len(study.model)) if is_whole else np.flatnonzero(shells.dug < count)
    b = study.model.blocks.iloc[kept]
    x, y, z = (np.round(values[kept], 6) for values in study.model.xyz())
    kinds = study.classes
    classes = {"class": np.array(kinds.names, object)[kinds.of_block[kept]]} if kinds else {}
    found = pd.DataFrame(
        {
            "id": b["id"].to_numpy(),
            "row": study.model.table_row[kept],
            "x": x,
            "y": y,
            "z": z,
            "rock": b["rock"].to_numpy(),
            **classes,
            "tonnes": b["tonnes"].to_numpy(),
            shells.called: shells.first[kept],
            "worth": np.round(shells.priced.worth_unfenced(THOUSAND)[kept], 6),
            "to": _ways_of(shells.priced)[kept],
        }
    )
    for name in columns_of(study.model, columns or ()):
        found[
            free(name, shells.called) if name not in found else f"{name} of the table"
        ] = _whole_numbers(b[name])
    return found


def _ways_of(priced: Priced) -> Array:
    """Where each block goes at factor 1."""
    found: Array = priced.destinations(THOUSAND)
    found[priced.forbidden] = "forbidden"
    return found


def _whole_numbers(cells: pd.Series) -> Any:
    """A column as whole numbers where all of it are some, as codes of sub-blocks or beside added
    air: 1 and not 1.0."""
    values = cells.to_numpy()
    if values.dtype.kind != "f":
        return values
    numbers = values[~np.isnan(values)]
    if (np.abs(numbers) < _MOST_EXACT).all() and (numbers == np.rint(numbers)).all():
        return pd.array(values, dtype="Int64")
    return values


def _spelled_once(values: Floats) -> Array:
    """Numbers as CSV has them, where few of them differ, as places on a grid: each is spelled once.
    Other numbers stay."""
    few, which = np.unique(values, return_inverse=True)
    if 4 * len(few) > len(values):
        return values
    found: Array = np.array(
        ["" if value != value else repr(value) for value in few.tolist()], dtype=object
    )[which]
    return found


def write(
    shells: Shells,
    path: str | os.PathLike[str],
    columns: Sequence[str] | None = None,
    is_whole: bool = False,
) -> int:
    """Writes `table_of` as CSV; words that a spreadsheet would run as formulas are `harmless`.

    Returns
    -------
    int
        How many rows were written.

    Raises
    ------
    PlanError
        Where the table has no such column.
    OSError
        Where the file can't be written. What was there stays then.
    """
    found = table_of(shells, columns, is_whole)
    for name in found.columns:
        if found[name].dtype.kind == "f":
            found[name] = _spelled_once(found[name].to_numpy())
    write_table(found, path)
    return len(found)
