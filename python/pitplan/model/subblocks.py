"""Sub-blocks: refused with their row, or added up into whole blocks."""
from __future__ import annotations

import unicodedata
from collections.abc import Collection, Mapping
from dataclasses import dataclass, field, replace
from typing import TYPE_CHECKING

import numpy as np
import pandas as pd

from ..base.arrays import Floats, Indices, Ints
from ..base.errors import PlanError, Remedy
from ..table.column_names import PLACES, SIZES, columns_with
from ..table.csv_text import NO_WEIGHT, number_column
from ..table.formula import stripped
from ..table.marks import is_of_numbers
from .grid import Grid

if TYPE_CHECKING:
    from .model import Model

OFF = 1e-3  # of a block: how far coordinates and sizes, which tables round, may be off


@dataclass
class Places:
    """The centres of blocks, as the table has them."""

    x: Floats
    y: Floats
    z: Floats


@dataclass(frozen=True)
class Wanted:
    """What the planner says of sub-blocks, and how the model is turned."""

    regularise: bool
    rotation: float
    table: str


@dataclass
class _Whole:
    """Blocks of one size, and for each row of the table that was handed in the number of its
    block."""

    frame: pd.DataFrame
    places: Places
    parent: Indices
    notes: list[str] = field(default_factory=list)
    tonnes: Floats | None = None  # of each row, where rows were added up


@dataclass(frozen=True)
class Parts:
    """The sub-blocks that a model's blocks were added up from.

    Attributes
    ----------
    frame : DataFrame
        As `Model.blocks`, a row for each row of the table: its tonnes are its own, its indices
        those of its block.
    parent : int array of shape (rows,)
        The block of each.
    source : int array of shape (blocks,)
        The block of the table whose columns a block has: itself, or that of which an added block is
        a copy.
    codes : frozenset of str
        Columns of numbers of which blocks have the value of the most tonnes already.
    """

    frame: pd.DataFrame
    parent: Indices
    source: Ints
    codes: frozenset[str] = frozenset()


def whole_blocks(
    frame: pd.DataFrame,
    names: Mapping[str, str],
    places: Places,
    size: tuple[float, float, float],
    wanted: Wanted,
) -> _Whole:
    """The blocks as they are where all have one size; else the whole blocks that the sub-blocks add
    up to.

    Tonnes are summed, other numbers are means weighted by tonnes, and words are those of the most
    tonnes; a value that all sub-blocks of a block share stays exactly. Of columns of codes `coded`
    makes the value of the most tonnes later.

    Raises
    ------
    PlanError
        Where there is a sub-block and the planner didn't ask for whole ones, where a block is
        larger than `size`, or where a sub-block lies over the sides of a whole block: with the row.
    """
    same = _Whole(frame, places, np.arange(len(frame), dtype=np.int32))
    if not any(key in names for key in SIZES):
        if wanted.regularise:
            raise PlanError(
                (
                    "regularise needs the size of each sub-block, and no columns are known as dx,"
                    " dy and dz"
                ),
                table=wanted.table,
                try_this=columns_with(names, dx="XINC", dy="YINC", dz="ZINC"),
            )
        return same
    lengths = [
        (
            number_column(frame[names[key]], wanted.table)
            if key in names
            else np.full(len(frame), length)
        )
        for key, length in zip(SIZES, size)
    ]
    small = np.zeros(len(frame), bool)
    for key, found, length in zip(SIZES, lengths, size):
        small |= np.abs(found - length) > OFF * length
        wrong = (found > length * (1 + OFF)) | (found <= 0)
        if wrong.any():
            row = int(np.argmax(wrong))
            raise PlanError(
                f"a block is {found[row]:g} long, and size says {length:g}",
                table=wanted.table,
                row=int(frame.index[row]),
                column=names[key],
            )
    if not small.any():
        return same
    if not wanted.regularise:
        row = int(np.argmax(small))
        raise PlanError(
            (
                f"is a sub-block of {' x '.join(f'{found[row]:g}' for found in lengths)} in a model"
                f" of {' x '.join(f'{v:g}' for v in size)}; {int(small.sum()):,} of"
                f" {len(frame):,} rows are"
            ),
            table=wanted.table,
            row=int(frame.index[row]),
            column=next(names[key] for key in SIZES if key in names),
            try_this="regularise = true in [model], or regularise in the package",
        ).with_remedy(Remedy(("model", "regularise"), True))
    return _added_up(frame, names, _Parents.of(frame, names, places, lengths, size, wanted))


@dataclass
class _Parents:
    """The whole block of each sub-block: its number, its centre, and the share of it that the
    sub-block fills."""

    number: Ints
    places: Places
    share: Floats
    size: tuple[float, float, float]
    table: str

    @classmethod
    def of(
        cls,
        frame: pd.DataFrame,
        names: Mapping[str, str],
        places: Places,
        lengths: list[Floats],
        size: tuple[float, float, float],
        wanted: Wanted,
    ) -> _Parents:
        """Finds the whole block of each sub-block, along the model's own axes; a sub-block over a
        side is told with its row. Raises PlanError where a sub-block lies over a side of a whole
        block."""
        turned = Grid((0.0, 0.0, 0.0), (1.0, 1.0, 1.0), rotation=wanted.rotation)
        u, v = turned.local(places.x - places.x[0], places.y - places.y[0])
        indices, centres = [], []
        for key, c, d, s in zip(PLACES, (u, v, places.z), lengths, size):
            corner = _corner_of(c, d, s)
            low, high = np.floor((c - d / 2 - corner) / s + OFF), np.ceil(
                (c + d / 2 - corner) / s - OFF
            )
            over = high - low > 1
            if over.any():
                raise PlanError(
                    "the sub-block lies over a side of a whole block",
                    table=wanted.table,
                    row=int(frame.index[int(np.argmax(over))]),
                    column=names[key],
                    try_this="size in [model]",
                )
            indices.append(low.astype(np.int64))
            centres.append(corner + (low + 0.5) * s)
        span = [int(i.max() - i.min()) + 1 for i in indices]
        flat = np.ravel_multi_index(tuple(i - i.min() for i in indices), tuple(span))
        number, first = pd.factorize(flat)
        at = pd.Series(np.arange(len(flat))).groupby(number).first().to_numpy()
        whole = np.logical_and.reduce([np.abs(d - s) <= OFF * s for d, s in zip(lengths, size)])[at]
        x, y, _ = turned.world(centres[0][at], centres[1][at], 0)
        x, y, z = (
            np.where(whole, of_part[at], found)
            for of_part, found in zip(
                (places.x, places.y, places.z), (x + places.x[0], y + places.y[0], centres[2][at])
            )
        )
        share = lengths[0] * lengths[1] * lengths[2] / (size[0] * size[1] * size[2])
        return cls(number.astype(np.int64), Places(x, y, z), share, size, wanted.table)


def _corner_of(centres: Floats, lengths: Floats, length: float) -> float:
    """A side of the whole blocks along an axis: one that most blocks of full length begin at. Where
    no block is of full length, the lowest side of all."""
    lower = centres - lengths / 2
    whole = np.flatnonzero(np.abs(lengths - length) <= OFF * length)
    if not len(whole):
        return float(lower.min())
    share = np.round(lower[whole] / length / OFF) % round(1 / OFF)
    values, counts = np.unique(share, return_counts=True)
    near = (lower[whole] / length - values[np.argmax(counts)] * OFF + 0.5) % 1.0 - 0.5
    off = near[np.abs(near) < 2 * OFF]
    one = lower[whole[np.argmax(np.abs(near) < 2 * OFF)]]
    return float(
        one
        - ((one / length - values[np.argmax(counts)] * OFF + 0.5) % 1.0 - 0.5 - np.median(off))
        * length
    )


def _added_up(frame: pd.DataFrame, names: Mapping[str, str], parents: _Parents) -> _Whole:
    """The table of whole blocks."""
    number, m = parents.number, int(parents.number.max()) + 1
    over = np.bincount(number, parents.share, m)
    if over.max() > 1 + 1e-3:
        row = int(np.argmax(over[number] > 1 + 1e-3))
        raise PlanError(
            f"the sub-blocks of this block fill {over.max():.2f} of it: do some lie over others?",
            table=parents.table,
            row=int(frame.index[row]),
        )
    weighed, weight = _weights(frame, names, parents)
    total = np.bincount(number, weight, m)
    first = pd.Series(np.arange(len(number))).groupby(number).first().to_numpy()
    out = frame.iloc[first].copy()
    for name in frame.columns:
        if frame[name].dtype.kind in "iuf":
            out[name] = means(frame[name], number, weight, first)
        elif name != names.get("id"):
            if name != names.get("rock"):
                _number_column_or_words(frame[name], parents.table)
            out[name] = frame[name].to_numpy()[_of_most(frame[name], number, weight)]
    out[weighed] = total
    for key, values in zip(PLACES, (parents.places.x, parents.places.y, parents.places.z)):
        out[names[key]] = values
    for key, length in zip(SIZES, parents.size):
        if key in names:
            out[names[key]] = length
    note = (
        f"regularised: {len(frame):,} sub-blocks into {m:,} blocks; tonnes summed, other numbers"
        " weighted by tonnes, words those of the most tonnes"
    )
    size = parents.size
    return _Whole(
        out,
        parents.places,
        number.astype(np.int32),
        [note],
        weight if "tonnes" in names else weight * (size[0] * size[1] * size[2]),
    )


def means(values: pd.Series, number: Ints, weight: Floats, first: Ints) -> Floats | Ints:
    """The mean of each block, weighted by tonnes, 0 where it has none; where all its sub-blocks
    have one value, that value, to the last digit: a mean in floating point makes 2.9999999999999996
    of a code of 3."""
    x = values.to_numpy(float)
    is_shared = np.bincount(number, x != x[first][number], len(first)) == 0
    if is_shared.all():
        same: Floats | Ints = values.to_numpy()[first]
        return same
    total = np.bincount(number, weight, len(first))
    mean = np.bincount(number, weight * x, len(first)) / np.where(total > 0, total, 1)
    return np.where(is_shared, x[first], np.where(total > 0, mean, 0.0))


def _of_most(values: pd.Series, number: Ints, weight: Floats) -> Ints:
    """For each block the first of its rows that has the value of the most tonnes; of values of as
    many tonnes that which comes first. Words are the same whatever blanks are around them."""
    # an empty cell is a value too
    code = (
        pd.factorize(values.to_numpy() if values.dtype.kind in "iuf" else stripped(values))[
            0
        ].astype(np.int64)
        + 1
    )
    kinds = int(code.max()) + 1
    pair, first, at = np.unique(number * kinds + code, return_index=True, return_inverse=True)
    block = pair // kinds
    order = np.lexsort((first, -np.bincount(at, weight), block))
    found: Ints = first[order[np.flatnonzero(np.diff(block[order], prepend=-1))]]
    return found


def coded(model: Model, names: Collection[str]) -> Model:
    """The model with the value of the most tonnes in columns of codes, where sub-blocks were added
    up: a region or a sector of 2.5 is none. Blocks that were added have what the block has that
    they are a copy of, unless `fill` says something else.

    Parameters
    ----------
    names : collection of str
        The columns: those that `by`, a comparison or `forbid` names. Places, sizes, tonnes and
        words are left out.
    """
    parts = model.parts
    if parts is None:
        return model
    never = {
        "tonnes",
        "ix",
        "iy",
        "iz",
        "row",
        *parts.codes,
        *(
            model.columns[key]
            for key in (*PLACES, *SIZES, "tonnes", "density")
            if key in model.columns
        ),
    }
    found = [
        str(name)
        for name in parts.frame.columns
        if (name in names or unicodedata.normalize("NFKC", str(name)) in names)
        and name not in never
        and parts.frame[name].dtype.kind in "iuf"
    ]
    blocks, notes, number, weight = (
        model.blocks.copy(deep=False),
        list(model.notes),
        parts.parent.astype(np.int64),
        parts.frame["tonnes"].to_numpy(float),
    )
    for name in found:
        cells = parts.frame[name].to_numpy()
        most = cells[_of_most(parts.frame[name], number, weight)]
        is_mixed = np.bincount(number, cells != most[number]) > 0
        now = blocks[name].to_numpy()
        is_copy = (now == now[parts.source]) | (np.isnan(now) & np.isnan(now[parts.source]))
        blocks[name] = np.where(is_copy, most[parts.source], now)
        if is_mixed.any():
            notes.append(
                f"{name} is taken as a code: of {int(is_mixed.sum()):,} blocks with several values"
                " each has that of the most tonnes"
            )
    return replace(
        model, blocks=blocks, notes=notes, parts=replace(parts, codes=parts.codes | set(found))
    )


def _weights(
    frame: pd.DataFrame, names: Mapping[str, str], parents: _Parents
) -> tuple[str, Floats]:
    """The column that says what a sub-block weighs, and its weight: tonnes, or its density times
    the share that it fills."""
    if "tonnes" in names:
        return names["tonnes"], number_column(frame[names["tonnes"]], parents.table, hint=NO_WEIGHT)
    if "density" in names:
        return (
            names["density"],
            number_column(frame[names["density"]], parents.table, hint=NO_WEIGHT) * parents.share,
        )
    raise PlanError(
        "no column is known as tonnes or density",
        table=parents.table,
        try_this=columns_with(names, tonnes="..."),
    )


def _number_column_or_words(values: pd.Series, table: str) -> None:
    """Tells the cell that makes words of a column of numbers, before it is lost among the
    sub-blocks of a whole block."""
    if is_of_numbers(values):
        number_column(values, table)
