"""Resource classes: how well a block is known, as a column of the table says it: measured,
indicated, inferred."""
from __future__ import annotations

from collections.abc import Collection, Sequence
from dataclasses import dataclass

import re

import numpy as np
import pandas as pd

from ..base.arrays import Bools, Floats, Ints
from ..base.errors import PlanError
from ..base.near_words import meant
from ..table.column_names import MOST_CLASSES, columns_with
from ..table.formula import text_of
from .model import Model
from .subblocks import coded

CLASS = "class"  # the key of [model] columns that names the column
# how their words begin, the best known first, in English, Spanish and Portuguese
_KNOWN = (
    "mea",
    "med",
    "ind",
    "inf",
)
_WORD = re.compile(r"[^\W\d_]+")  # letters alone: of a class such as 2_MEA the word is MEA
_NONE = "none"  # what blocks without one are called, as those that the table has no row for


@dataclass(frozen=True)
class Classes:
    """The class of each block.

    Attributes
    ----------
    names : list of str
        Measured, indicated and inferred in this order, where a word in them begins so; then those
        that study.toml lists, in its order, and the others by number or alphabet; last those
        without one.
    of_block : int array of shape (blocks,)
        An index into `names`.
    """

    names: list[str]
    of_block: Ints

    def masks(self) -> dict[str, Bools]:
        """By name, which blocks are of a class: each block is of one."""
        return {name: self.of_block == i for i, name in enumerate(self.names)}

    def rock_of(self, held: Bools, tonnes: Floats) -> dict[str, float]:
        """What some blocks weigh of each class, as columns ``class_<name>_rock_t``."""
        found = np.bincount(self.of_block[held], tonnes[held], len(self.names))
        return {f"class_{name}_rock_t": float(found[i]) for i, name in enumerate(self.names)}


def classes_of(model: Model, listed: Sequence[str] = ()) -> Classes | None:
    """The classes of a model's blocks; None where its table has no such column. `listed` are words
    in the order of study.toml.

    Raises
    ------
    PlanError
        Where the column has more than 12 words.
    """
    column = model.columns.get(CLASS)
    if column is None:
        return None
    blocks = coded(model, [column]).blocks
    code, there = pd.factorize(blocks[column])
    # the last is that of an empty cell, and of a block without a row
    words = np.array([*(text_of(value) or _NONE for value in there), _NONE], object)[
        np.where(blocks["row"].to_numpy() >= 0, code, -1)
    ]
    names = sorted(set(words), key=lambda name: rank(name, listed))
    count = len(set(names) - {_NONE})
    if count > MOST_CLASSES:
        raise PlanError(
            (
                f"[model] columns, class: column {column} has {count:,} words, as"
                f" {', '.join(names[:3])}, and more than {MOST_CLASSES} are no resource classes"
            ),
            table=model.table,
            try_this="the column of measured, indicated and inferred; or leave class out",
            key=("model", "columns", CLASS),
        )
    return Classes(names, pd.Index(names).get_indexer(pd.Index(words)).astype(np.int64))


def rank(name: str, listed: Sequence[str] = ()) -> tuple[int, int, float, str]:
    """Where a class stands among others."""
    words = _WORD.findall(name.lower())
    known = next(
        (i for i, begin in enumerate(_KNOWN) if any(word.startswith(begin) for word in words)),
        len(_KNOWN),
    )
    at = listed.index(name) if name in listed and known == len(_KNOWN) else len(listed)
    number = float(name) if name.replace(".", "", 1).isdigit() else 0.0
    return (len(_KNOWN) + 1 if name == _NONE else known, at, number, name)


def of_waste(model: Model, names: Collection[str]) -> Bools:
    """Which blocks are of a class that counts as waste.

    Raises
    ------
    PlanError
        Where the table has no column of classes, or no block is of one of these.
    """
    if not names:
        return np.zeros(len(model), bool)
    found, key = classes_of(model), ("economics", "waste_classes")
    if found is None:
        raise PlanError(
            "[economics] has waste_classes, and no column of the table is known to say a block's class",
            table=model.table,
            try_this=columns_with(model.columns, **{"class": "CLASS"}),
            key=key,
        )
    for name in names:
        if name not in found.names:
            raise PlanError(
                f"[economics] waste_classes: no block is of class {name!r}{meant(name, found.names)}",
                key=key,
            )
    wasted: Bools = np.isin(found.of_block, [found.names.index(name) for name in names])
    return wasted
