"""A designed pit, as the blocks of the model that it takes: given by ids, by a column of the table,
or by a surface."""
from __future__ import annotations

from collections.abc import Iterable, Sequence
from dataclasses import dataclass, field, replace
from pathlib import Path
from typing import TYPE_CHECKING, Any

import numpy as np
import pandas as pd

from ..base.arrays import Bools, Ints
from ..base.errors import PlanError
from ..base.near_words import meant
from ..base.next_command import command
from ..model.model import Model
from ..study.study_file import read_study_file
from ..table.column_names import PLACES, USUAL
from ..table.csv_text import PLAIN, dialect_beside, head_of, names_of, number_column, read_frame
from ..table.spreadsheets import as_written
from .surface import Surface, heights, of_dxf, of_points

if TYPE_CHECKING:
    from ..study.study import Study

_YES = (
    "1",
    "yes",
    "y",
    "true",
    "t",
    "in",
    "inside",
    "pit",
    "sí",
    "si",
    "s",
    "sim",
    "oui",
    "dentro",
    "verdadero",
    "verdadeiro",
    "vrai",
)
NO = (
    "",
    "0",
    "no",
    "n",
    "false",
    "f",
    "out",
    "outside",
    "none",
    "-",
    "não",
    "nao",
    "non",
    "fuera",
    "fora",
    "falso",
    "faux",
)


@dataclass(frozen=True)
class Design:
    """A designed pit.

    Attributes
    ----------
    name : str
        For files and tables.
    held : bool array of shape (blocks,)
        Whether a block is in it.
    unnamed : bool array of shape (blocks,)
        Blocks that it couldn't name, whether or not it takes them: those that no row of the table
        is for, of a design by ids or by a column. What it rests on of them counts as its own.
    notes : list of str
        What was found on the way in.
    """

    name: str
    held: Bools
    unnamed: Bools
    notes: list[str] = field(default_factory=list)


def _rowless(model: Model) -> Bools:
    """The blocks that no row of the table is for."""
    found: Bools = model.blocks["row"].to_numpy() < 0
    return found


def with_sub_blocks(study: Study) -> Model:
    """A study's model with its sub-blocks, which a built one doesn't keep: where it has some, the
    study's table is read again.

    Raises
    ------
    PlanError
        Where study.toml or the table is gone, or the table isn't the one that the study was built
        from.
    """
    if not study.model.has_sub_blocks:
        return study.model
    read = read_study_file(study.named).read_model()
    if not np.array_equal(read.row_block, study.model.row_block):
        raise PlanError(
            "isn't the table that the study was built from",
            table=read.table,
            try_this=command("build", study.named),
        )
    return replace(study.model, parts=read.parts)


def _cells_of(model: Model, column: str) -> tuple[pd.Series, Ints]:
    """The cells of a column, by their rows of the table, and the block of each: sub-blocks have
    that which they are part of.

    Raises
    ------
    PlanError
        Where the table has no such column, or the model's sub-blocks aren't at hand.
    """
    if model.parts is None and model.has_sub_blocks:
        raise PlanError(
            (
                "which sub-blocks does the design take? A model that was built doesn't have them"
                " any more"
            ),
            try_this="design.with_sub_blocks(study) in place of study.model",
        )
    if column not in model.blocks.columns:
        raise PlanError(f"the table has no column {column!r}{meant(column, model.table_columns)}")
    if model.parts is not None:
        table, block = model.parts.frame, model.parts.parent.astype(np.int64)
        return pd.Series(table[column].to_numpy(), table["row"].to_numpy()), block
    block = np.flatnonzero(~_rowless(model))
    cells, row = model.blocks[column].to_numpy(), model.blocks["row"].to_numpy()
    return pd.Series(cells[block], row[block]), block


def whole(model: Model, taken: Bools, block: Ints) -> tuple[Bools, list[str]]:
    """The blocks of rows that a design takes, and a note of those that it takes in part: a block is
    in a design where any of its sub-blocks is."""
    held = np.zeros(len(model), bool)
    held[block[taken]] = True
    if model.parts is None:
        return held, []
    tonnes = model.parts.frame["tonnes"].to_numpy(float)
    partly = held & (np.bincount(block, ~taken & (tonnes > 0), len(model)) > 0)
    if not partly.any():
        return held, []
    here, count = partly[block], int(partly.sum())
    return held, [
        f"look: {count:,} {'blocks are' if count > 1 else 'block is'} only partly in the design:"
        f" {tonnes[here & taken].sum():,.0f} t of {tonnes[here].sum():,.0f} t; all of"
        f" {'them count' if count > 1 else 'it counts'}"
    ]


def by_ids(model: Model, ids: Iterable[Any], name: str = "design", table: object = None) -> Design:
    """The blocks of some ids.

    Parameters
    ----------
    ids : iterable
        As text, or a Series whose index is the row of `table` below its header line.
    table : optional
        Where the ids stand, for errors.

    Raises
    ------
    PlanError
        Where an id is none of the model's, or that of several blocks: with its row where `table` is
        told.
    """
    wanted = ids if isinstance(ids, pd.Series) else pd.Series(list(ids), dtype=object)
    words = wanted.astype(str).str.strip().map(as_written)
    cells, block = _cells_of(model, "id")
    known = pd.Index(cells.astype(str).str.strip())
    strange = ~words.isin(known).to_numpy()
    if strange.any():
        at = int(np.argmax(strange))
        raise PlanError(
            f"{words.iloc[at]!r} is the id of no block"
            + (f"; {int(strange.sum()):,} of {len(words):,} are so" if strange.sum() > 1 else ""),
            table=table,
            row=int(wanted.index[at]) if table else None,
            try_this=(
                f"ids as in column {model.columns['id']} of the table"
                if "id" in model.columns
                else (
                    "the table has no column of ids: rows as a spreadsheet counts them, 2 for the"
                    " first"
                )
            ),
        )
    inside = known.isin(pd.Index(words))
    named = pd.DataFrame({"id": known[inside], "block": block[inside]}).drop_duplicates()["id"]
    twice = named[named.duplicated()]
    if len(twice):
        raise PlanError(
            f"{twice.iloc[0]!r} is the id of several blocks of the model",
            table=table,
            try_this="--column, with a column of the table that says which rows the design takes",
        )
    held, notes = whole(model, inside, block)
    if words.duplicated().any():
        notes.append(f"{int(words.duplicated().sum()):,} ids stand there more than once")
    return Design(name, held, _rowless(model), notes)


def by_ids_of(model: Model, path: Path, encoding: str | None = None) -> Design:
    """The blocks whose ids stand in a table, or one in each line of a text; `encoding` is that of
    the table of blocks.

    Raises
    ------
    PlanError
        As `by_ids`; and where no column of the table is known as one of ids.
    """
    dialect = dialect_beside(path, encoding)
    names = names_of(head_of(path, dialect.encoding, 1)[0], dialect.separator)
    folded = {name.lower(): name for name in names}
    own = model.columns.get("id", "")
    usual = [folded[name] for name in USUAL["id"] if name in folded]
    column = own if own in names else usual[0] if usual else None
    if column is None and len(names) > 1:
        raise PlanError(
            "which of its columns has the ids? None is known as one",
            table=path,
            try_this=f"call it {own or 'id'}",
        )
    # no header line: the first is an id too
    is_id = column is None and as_written(names[0]) in set(_cells_of(model, "id")[0].astype(str))
    first = pd.Series([names[0]] if is_id else [], index=[-1] if is_id else [], dtype=object)
    if is_id and not any(line.strip() for line in head_of(path, dialect.encoding)[1:]):
        return by_ids(model, first, path.stem, path.name)
    frame = read_frame(path, dialect, names)
    ids = frame[column or names[0]].fillna("").astype(str)
    ids = ids[ids.str.strip() != ""]
    return by_ids(model, pd.concat([first, ids]), path.stem, path.name)


def by_file(
    model: Model, path: Path, layers: Sequence[str] = (), encoding: str | None = None
) -> Design:
    """The design of a file of any kind: a DXF or a table of points x, y and z as `by_surface`, ids
    as `by_ids_of`.

    Raises
    ------
    PlanError
        As these; and where a table has several columns, and neither ids nor all of x, y and z are
        known among them.
    """
    if path.suffix.lower() == ".dxf":
        return by_surface(model, path, layers)
    if has_points(path, model.columns.get("id", "id"), encoding):
        return by_surface(model, path, encoding=encoding)
    return by_ids_of(model, path, encoding)


def has_points(path: Path, own: str, encoding: str | None = None) -> bool:
    """Whether a table has points of a surface, by the names of its columns, and no ids of blocks;
    `own` is the model's column of ids.

    Raises
    ------
    PlanError
        Where it has several columns, and neither ids nor all of x, y and z are known among them.
    """
    dialect = dialect_beside(path, encoding)
    names = names_of(head_of(path, dialect.encoding, 1)[0], dialect.separator)
    folded = {name.lower() for name in names}
    if own in names or len(names) == 1 or folded & set(USUAL["id"]):
        return False
    if not all(folded & set(USUAL[key]) for key in PLACES):
        raise PlanError(
            f"is it ids of blocks or points of a surface? Its columns are {', '.join(names)}",
            table=path,
            try_this=f"call its column of ids {own}, or its columns of coordinates x, y and z",
        )
    return True


def by_column(model: Model, column: str, value: str | None = None) -> Design:
    """The blocks that a column of the table says.

    Parameters
    ----------
    column : str
        Numbers above 0 are in the design, and 0 or an empty cell isn't; or words, of `_YES` and
        `NO`.
    value : str, optional
        The cell of the blocks that are in it.

    Raises
    ------
    PlanError
        Where the table has no such column, or a cell says neither.
    """
    cells, block = _cells_of(model, column)
    if value is not None:
        taken = said(cells, value)
        if not taken.any():
            there = ", ".join(map(str, cells.drop_duplicates().head(10)))
            raise PlanError(
                f"no cell is {value!r}; there are {there}", table=model.name, column=column
            )
        held, notes = whole(model, taken, block)
        return Design(f"{column}-{value}", held, _rowless(model), notes)
    if cells.dtype.kind in "iufb":
        numbers = np.nan_to_num(cells.to_numpy(float))
        unclear, taken = numbers < 0, numbers > 0
    else:
        words = cells.fillna("").astype(str).str.strip().str.lower()
        taken, out = (words.isin(known).to_numpy() for known in (_YES, NO))
        unclear = ~taken & ~out
    if unclear.any():
        at = int(np.argmax(unclear))
        raise PlanError(
            f"{cells.iloc[at]!r} says neither yes nor no",
            table=model.name,
            row=int(cells.index[at]),
            column=column,
            try_this="--value WORD, the cell of the blocks that the design takes",
        )
    held, notes = whole(model, taken, block)
    return Design(column, held, _rowless(model), notes)


def said(cells: pd.Series, value: str) -> Bools:
    """Whether a cell is a value: as a number, where both are."""
    if cells.dtype.kind in "iufb":
        if not PLAIN.fullmatch(value.strip()):
            return np.zeros(len(cells), bool)
        same: Bools = cells.to_numpy(float) == float(value)
        return same
    found: Bools = (cells.fillna("").astype(str).str.strip() == value.strip()).to_numpy()
    return found


def by_surface(
    model: Model, path: Path, layers: Sequence[str] = (), encoding: str | None = None
) -> Design:
    """The blocks whose centre lies above a surface: triangles of a DXF, or points of a CSV.

    Parameters
    ----------
    path : Path
        ``.dxf`` with 3D faces, meshes or polyface meshes; or a table of points x, y and z, which
        are joined to triangles in plan (Delaunay). z is an elevation. Where a surface lies over
        itself, the lowest counts; beside it nothing is dug.
    layers : sequence of str
        Of the DXF that count. Default: all.
    encoding : str, optional
        Of the table of blocks, which a CSV may share.

    Raises
    ------
    PlanError
        Where the file holds no surface, or it lies beside the model.
    """
    surface = of_dxf(path, layers) if path.suffix.lower() == ".dxf" else _points_of(path, encoding)
    low, high = heights(surface, model.grid)
    covered = np.isfinite(low)
    if not covered.any():
        (x0, y0, _), (x1, y1, _) = surface.points.min(axis=0), surface.points.max(axis=0)
        x, y, _ = model.xyz()
        raise PlanError(
            (
                f"lies beside the model: from ({x0:.10g}, {y0:.10g}) to ({x1:.10g}, {y1:.10g}), and"
                f" the blocks from ({x.min():.10g}, {y.min():.10g}) to ({x.max():.10g},"
                f" {y.max():.10g})"
            ),
            table=path,
            try_this="is it in the same coordinates, east before north?",
        )
    b = model.blocks
    _, _, z = model.xyz()
    height = low[b.ix.to_numpy(), b.iy.to_numpy()]
    notes = [
        f"{len(surface.triangles):,} triangles cover {int(covered.sum()):,} of"
        f" {covered.size:,} columns of the model"
    ]
    over = int((high[covered] - low[covered] > model.grid.size[2]).sum())
    if over:
        notes.append(
            f"the surface lies over itself, by more than a bench, in {over:,} columns: the lowest"
            " counts"
        )
    return Design(path.stem, np.isfinite(height) & (z > height), np.zeros(len(model), bool), notes)


def _points_of(path: Path, encoding: str | None = None) -> Surface:
    """A table of points as a surface.

    Raises PlanError where it has no three columns of numbers, or no three points that span a
    triangle.
    """
    dialect = dialect_beside(path, encoding)
    names = names_of(head_of(path, dialect.encoding, 1)[0], dialect.separator)
    if all(PLAIN.fullmatch(name) for name in names):
        raise PlanError("has no header line", table=path, try_this="a first line x,y,z")
    folded = {name.lower(): name for name in names}
    found = [next((folded[name] for name in USUAL[key] if name in folded), None) for key in PLACES]
    if None in found:
        if len(names) != 3:
            raise PlanError(
                "which of its columns are x, y and z?", table=path, try_this="call them x, y and z"
            )
        found = list(names)
    frame = read_frame(path, dialect)
    return of_points(
        np.column_stack([number_column(frame[name], path.name) for name in found]), path
    )
