"""Blocks for ParaView: VTU with a hexahedron for each block, where it is, with its shell, its worth
and the table's columns."""
from __future__ import annotations

import os
from collections.abc import Sequence
from typing import TYPE_CHECKING, Any

import numpy as np
import pandas as pd

from ...base.amounts import THOUSAND
from ...base.arrays import Array, Floats, Indices, Ints
from ...base.errors import PlanError
from ...base.files import whole_file
from ...table.spreadsheets import write_table
from .columns import columns_of, free, yes_or_no

if TYPE_CHECKING:
    from ...model.model import Model
    from ...study.shells import Shells

# The corners of a hexahedron in the order of VTK_HEXAHEDRON: the lower face counterclockwise, then
# the upper one.
_CORNERS = ((0, 0, 0), (1, 0, 0), (1, 1, 0), (0, 1, 0), (0, 0, 1), (1, 0, 1), (1, 1, 1), (0, 1, 1))
_MOST_WORDS = 10_000  # different words of a column that are numbered


def write(
    shells: Shells,
    path: str | os.PathLike[str],
    columns: Sequence[str] | None = None,
    is_whole: bool = False,
) -> pd.DataFrame:
    """Writes blocks as hexahedra in true coordinates, also of a turned model.

    Each cell has ``shell`` (the factor of the first pit that has it, as a share of the price; not a
    number where none has; of a schedule ``year``, 0 where none digs it), ``worth`` (at factor 1, in
    units of currency), ``block`` (its number in `pit`'s files), and the table's columns. A column
    of TRUE and FALSE has 1 and 0; another one of words is numbered, in the order of the words.

    Parameters
    ----------
    shells : Shells
    path : str or path
    columns : sequence of str, optional
        Of the table. Default: all columns of numbers, of TRUE and FALSE, and the rock.
    is_whole : bool
        Whether all blocks are written, or the rock of the largest pit alone.

    Returns
    -------
    DataFrame
        ``column``, ``number``, ``word``: what the numbers of columns of words stand for. It is
        written too, beside `path`, with the ending ``.words.csv``, where there are such columns.

    Raises
    ------
    PlanError
        Where the table has no such column, or one has more than 10,000 different words.
    OSError
        Where the file can't be written. What was there stays then.
    """
    mesh, words = mesh_of(shells, columns, is_whole)
    with whole_file(path) as part:
        mesh.write(part, file_format="vtu")
    if len(words):
        write_table(words, os.fspath(path) + ".words.csv")
    return words


def mesh_of(
    shells: Shells, columns: Sequence[str] | None = None, is_whole: bool = False
) -> tuple[Any, pd.DataFrame]:
    """The blocks as a `meshio.Mesh`, as PyVista and others take it, and what numbers stand for; see
    `write`."""
    import meshio

    model, count = shells.study.model, len(shells.factors)
    kept = np.arange(len(model)) if is_whole else np.flatnonzero(shells.dug < count)
    points, cells = hexahedra(model, kept)
    data: dict[str, Array] = {
        shells.called: shells.first[kept],
        "worth": shells.priced.worth_unfenced(THOUSAND)[kept],
        "block": kept.astype(np.int32),
    }
    legend = []
    if shells.priced.process_names:
        goes = pd.Series(shells.priced.destinations(THOUSAND)[kept])
        data["to"], words = numbered(goes, "to", model.name)
        legend += [("to", i, word) for i, word in enumerate(words)]
    for name in columns_of(model, columns):
        values, key = model.blocks[name].iloc[kept], free(name, shells.called)
        key = f"{name} of the table" if key in data else key
        if values.dtype.kind in "iufb":
            data[key] = values.to_numpy().astype(
                np.int32 if values.dtype.kind == "b" else values.dtype
            )
            continue
        truths = yes_or_no(values)
        codes, found = (truths, []) if truths is not None else numbered(values, name, model.name)
        data[key] = codes
        legend += [(name, i, word) for i, word in enumerate(found)]
    mesh = meshio.Mesh(
        points, [("hexahedron", cells)], cell_data={name: [values] for name, values in data.items()}
    )
    return mesh, pd.DataFrame(legend, columns=["column", "number", "word"])


def hexahedra(model: Model, kept: Ints) -> tuple[Floats, Ints]:
    """The corners of blocks, each once, of shape (corners, 3); and the eight corners of each block,
    of shape (len(kept), 8)."""
    nx, ny, nz = (n + 1 for n in model.grid.shape)
    b = model.blocks
    ix, iy, iz = (b[name].to_numpy()[kept].astype(np.int64) for name in ("ix", "iy", "iz"))
    key = np.stack([((iz + c) * ny + iy + d) * nx + ix + a for a, d, c in _CORNERS], axis=1)
    used = np.zeros(nx * ny * nz, bool)
    used[key] = True
    number = np.cumsum(used) - 1
    at = np.flatnonzero(used)
    east, north, up = model.grid.world(at % nx - 0.5, at // nx % ny - 0.5, at // (nx * ny) - 0.5)
    return np.column_stack([east, north, up]), number[key]


def numbered(values: pd.Series, name: str, table: str) -> tuple[Indices, list[str]]:
    """Words as numbers from 0, in the order of the words. Raises PlanError where there are too
    many."""
    words = values.fillna("").astype(str)
    codes, found = pd.factorize(words, sort=True)
    if len(found) > _MOST_WORDS:
        raise PlanError(
            f"has {len(found):,} different words, and they are numbered in a file for ParaView",
            table=table,
            column=name,
            try_this="leave that column out",
        )
    return codes.astype(np.int32), [str(word) for word in found]
