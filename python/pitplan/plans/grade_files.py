"""The grades of realisations: read from a NumPy file or a table, checked, digested, by lines and by
blocks."""
from __future__ import annotations

import hashlib
from collections.abc import Sequence
from pathlib import Path
from typing import Any

import numpy as np
import pandas as pd

from ..base.arrays import Array, Floats, Indices, Singles
from ..base.errors import PlanError
from ..base.within import refuse_outside
from ..model import store
from ..model.model import Model, TableKeys
from ..model.subblocks import means as means_by_weight
from ..study.study import Study
from ..table.column_names import PLACES, columns_with
from ..table.csv_text import dialect_beside, number_column, numbers_among, read_frame

# the correlation below which realisations have nothing to do with the table, and the rows that it
# takes to tell
NOT_ALIKE, _FEWEST = (
    0.1,
    50,
)


def without_marks(grades: Array, absent: Sequence[str]) -> Array:
    """Grades with 0 in place of numbers that stand for "not estimated"."""
    marks = [np.float32(mark) for mark in numbers_among(absent)]
    if not marks or grades.dtype.kind not in "iuf":
        return grades
    hit = np.isin(np.asarray(grades, np.float32), marks)
    return np.where(hit, 0, grades) if hit.any() else grades


def by_block(grades: Array, model: Model) -> Floats:
    """The grade of each block: that of its row, or of its sub-blocks the mean by tonnes, as the
    table's own; 0 of a block that was added.

    Parameters
    ----------
    grades : float array of shape (lines of the table below its header,)
    """
    rows = model.blocks["row"].to_numpy()
    if model.row_tonnes is None:
        return np.where(rows >= 0, grades[np.maximum(rows, 0)], 0).astype(float)
    there = np.flatnonzero(model.row_block >= 0)
    number = model.row_block[there].astype(np.int64)
    first = np.unique(number, return_index=True)[1]
    found = np.zeros(len(model))
    values = pd.Series(grades[there].astype(float))
    found[: len(first)] = means_by_weight(values, number, model.row_tonnes[there], first)
    return found


def by_line(grades: Singles, row_block: Indices) -> Singles:
    """Grades of the rows that have a block as grades of all lines below the header, 0 where a line
    has none; grades of all lines as they are."""
    if len(grades) == len(row_block):
        return grades
    found = np.zeros(len(row_block), np.float32)
    found[row_block >= 0] = grades
    return found


def open_realisations(
    path: Path, work: Path, study: Study | None = None, keys: TableKeys | None = None
) -> tuple[Any, str]:
    """The realisations as an array that is read where it is asked, and the file that has them.
    Raises PlanError where the file isn't there or can't be read as such."""
    refuse_outside(path)
    if path.suffix == ".npy":
        try:
            return np.load(path, mmap_mode="r", allow_pickle=False), str(path.resolve())
        except FileNotFoundError:
            raise PlanError(f"{path} isn't there") from None
        except store.DAMAGED as error:
            raise PlanError(f"can't be read as realisations: {error}", table=path) from None
    grades = of_table(path, study.model if study else None, keys)
    np.save(work / "realisations.npy", grades)
    return grades, "realisations.npy"


def of_table(path: Path, model: Model | None, keys: TableKeys | None) -> Singles:
    """The realisations of a CSV, a column each. The table's own columns of ids and coordinates may
    stand beside them: they are left out, and the ids have to be those of the table, row by row.

    Raises
    ------
    PlanError
        Where a cell is no number, an id isn't the table's, or there is no other column.
    """
    own = (
        {key: model.columns[key] for key in ("id", *PLACES) if key in model.columns}
        if model
        else {}
    )
    frame = read_frame(
        path,
        dialect_beside(path, keys.encoding if keys else None),
        [own["id"]] if "id" in own else [],
    )
    if model is not None and own.get("id") in frame.columns:
        _same_ids(frame[own["id"]], model, path)
    names = [name for name in frame.columns if name not in own.values()]
    if not names:
        raise PlanError("has no column of a realisation", table=path)
    try:
        return np.stack(
            [
                number_column(frame[name], path.name, keys.absent if keys else ()).astype(
                    np.float32
                )
                for name in names
            ]
        )
    except PlanError as error:
        if (
            error.column in names
            and "id" not in own
            and pd.to_numeric(frame[error.column], errors="coerce").isna().all()
        ):
            raise PlanError(
                error.what,
                table=error.table,
                row=error.row,
                column=error.column,
                try_this=(
                    f"{columns_with(model.columns if model else {}, id=str(error.column))} and"
                    " pitplan build, if these are the blocks' ids, or a file without this column"
                ),
            ) from None
        raise


def _same_ids(series: pd.Series, model: Model, path: Path) -> None:
    """Refuses realisations whose rows are of other blocks than the table's."""
    known = (
        model.blocks[model.blocks["row"] >= 0]
        .sort_values("row")["id"]
        .astype(str)
        .str.strip()
        .to_numpy()
    )
    given = series.fillna("").astype(str).str.strip().to_numpy()
    row_block = model.row_block  # of sub-blocks the id of the first alone is kept
    there = row_block[row_block >= 0]
    given = (
        given[np.sort(np.unique(there, return_index=True)[1][: len(known)])]
        if len(given) == len(there)
        else given
    )
    least = min(len(known), len(given))
    wrong = known[:least] != given[:least]
    if wrong.any():
        at = int(np.argmax(wrong))
        raise PlanError(
            f"{given[at]!r} stands where the table has {known[at]!r}",
            table=path,
            row=int(series.index[at]),
            column=series.name,
            try_this="a row for each row of the table, in its order",
        )


def checked(grades: Array, number: int, path: Path) -> Array:
    """A realisation, refused where a cell is no grade. Raises PlanError that names the first such
    cell, or the type where it has no numbers."""
    if grades.dtype.kind not in "iuf":
        raise PlanError(
            f"the realisations are of type {grades.dtype}, and have to be numbers", table=path
        )
    wrong = ~(np.isfinite(grades) & (grades >= 0))
    if wrong.any():
        at = int(np.argmax(wrong))
        raise PlanError(
            f"{grades[at]} is no grade"
            + (f"; {int(wrong.sum()):,} cells are so" if wrong.sum() > 1 else ""),
            table=path,
            row=at,
            column=f"of realisation {number}",
            try_this="0 where a block isn't estimated",
        )
    return grades


def digest_of(grades: Array) -> str:
    """The sha256 of a realisation as 32-bit numbers, which is how it is used."""
    return hashlib.sha256(np.ascontiguousarray(grades, np.float32).tobytes()).hexdigest()


def alike(grades: Array, table: Array) -> bool:
    """Whether grades have to do with those of the table, row by row: not where rows are in another
    order. Few rows tell nothing."""
    there = table > 0
    if int(there.sum()) < _FEWEST or np.ptp(grades[there]) == 0 or np.ptp(table[there]) == 0:
        return True
    return bool(np.corrcoef(grades[there], table[there])[0, 1] >= NOT_ALIKE)
