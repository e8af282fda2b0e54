"""Columns of the planner's table that a file of blocks has, what they are called there, and which
of them say TRUE and FALSE."""
from __future__ import annotations

from collections.abc import Sequence
from typing import TYPE_CHECKING

import numpy as np
import pandas as pd

from ...base.arrays import Indices
from ...base.errors import PlanError
from ...base.near_words import meant
from ...model.model import OURS

if TYPE_CHECKING:
    from ...model.model import Model

_RESERVED_NAMES = ("block", "shell", "worth")  # columns that files of blocks have by themselves


def columns_of(model: Model, wanted: Sequence[str] | None) -> list[str]:
    """The columns to write: those that are asked for, or all of numbers, those of TRUE and FALSE,
    and the rock.

    Raises PlanError where the table has no such column.
    """
    there = [str(name) for name in model.blocks.columns]
    if wanted is None:
        kinds = model.blocks.dtypes
        return [
            name
            for name in there
            if name == "rock"
            or name == "tonnes"
            or (
                name not in OURS
                and (kinds[name].kind in "iufb" or yes_or_no(model.blocks[name]) is not None)
            )
        ]
    for name in wanted:
        if name not in there:
            raise PlanError(f"the table has no column {name!r}{meant(name, there)}")
    return list(dict.fromkeys(wanted))


def free(name: str, called: str) -> str:
    """The name of a column in the file: the table's own, but for names that this package writes
    itself, one of them what pits are called."""
    return f"{name} of the table" if name in (*_RESERVED_NAMES, called) else name


def yes_or_no(values: pd.Series) -> Indices | None:
    """1 for each TRUE, in any spelling, and 0 for each FALSE or empty cell; None for a column that
    has another word, or neither."""
    code, kinds = pd.factorize(values)
    words = []
    for kind in kinds:
        words.append(str(kind).strip().upper())
        if words[-1] not in ("TRUE", "FALSE", ""):
            return None
    if not any(words):
        return None
    found: Indices = np.array([*(word == "TRUE" for word in words), False], np.int32)[code]
    return found
