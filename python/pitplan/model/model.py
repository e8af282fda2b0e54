"""A block model: the planner's table, on a regular grid."""
from __future__ import annotations

from collections.abc import Iterator, Mapping, Sequence
from contextlib import contextmanager
from dataclasses import dataclass, field, fields
from pathlib import Path
from typing import Any

import numpy as np
import pandas as pd

from ..base.arrays import Array, Bools, Floats, Indices, Ints
from ..base.errors import Gathered, PlanError, Remedy, about
from ..base.near_words import meant
from ..table.column_names import (
    PLACES,
    SIZES,
    columns_found,
    columns_with,
    misnamed,
    said_of_misnamed,
    which_columns,
    with_few_classes,
)
from ..table.csv_text import (
    NO_PLACE,
    NO_WEIGHT,
    Dialect,
    dialect_of,
    head_of,
    names_of,
    not_estimated,
    number_column,
    numbers_among,
    numbers_and_grids,
    read_frame,
    said_of_skipped,
)
from ..base.units import Units
from ..table.wrong_values import refuse_wrong
from . import gaps, subblocks, weights
from .grid import Grid
from .weights import ORE, TOPOGRAPHY

_OFF = 0.05  # of a block: how far a centre may be off the grid
_MOST_STEPS = 10**9  # blocks along an axis, so that their numbers are whole and fit
_SAMPLE = 50_000  # centres, by which the grid that most are on is found
_WEIGHTS = ("tonnes", "density")
OURS = ("id", "ix", "iy", "iz", "tonnes", "rock", "row")


@dataclass
class Model:
    """Blocks on a grid; block b of `pit` is row b of `blocks`.

    Attributes
    ----------
    blocks : DataFrame
        ``id`` (the planner's name of the block, as text), ``ix iy iz`` (whole indices in the
        model's own axes, iz upward), ``tonnes``, ``rock``, ``row`` (of the table, below the header
        line, from 0; -1 for a block that was added), and all other columns of the table under their
        own names.
    grid : Grid
    name : str
        Of the table, without its ending.
    notes : list of str
        What was found and changed on the way in.
    columns : dict
        The table's own names of x, y, z and the others of `column_names.USUAL`.
    row_block : int array of shape (rows of the table,)
        The block of each row, -1 for a blank line. Sub-blocks share their parent's.
    depth : bool
        Whether the table's z is a depth.
    source : Path or None
        The table.
    absent : sequence of str
        Cells that stand for "not estimated", for columns that still hold such cells.
    parts : Parts or None
        The sub-blocks that blocks were added up from, as long as the table is at hand.
    fenced : (formulas, bool array of shape (len(self),)) or None
        Of a stored model with sub-blocks the formulas of `forbid`, and the blocks that they keep.
    unweighed : dict
        How many rows of a table that was just read have no tonnes or density, as `absent` says, by
        rock.
    units : Units
        Of coordinates and tonnes; a density is in tonnes a cubic metre whatever they are.
    row_tonnes : float array of shape (rows of the table,), or None
        Of a stored model with sub-blocks what each row weighs.
    absent_cells : dict
        How many cells of a table that was just read count as 0, as `absent` says, by column.
    """

    blocks: pd.DataFrame
    grid: Grid
    name: str = "model"
    notes: list[str] = field(default_factory=list)
    columns: dict[str, str] = field(default_factory=dict)
    row_block: Indices = field(default_factory=lambda: np.empty(0, np.int32))
    depth: bool = False
    source: Path | None = None
    absent: Sequence[str] = ()
    parts: subblocks.Parts | None = None
    fenced: tuple[Sequence[str], Bools] | None = None
    unweighed: dict[str, int] = field(default_factory=dict)
    units: Units = Units()
    row_tonnes: Floats | None = None
    absent_cells: dict[str, int] = field(default_factory=dict)

    def __len__(self) -> int:
        return len(self.blocks)

    @property
    def has_sub_blocks(self) -> bool:
        """Whether several rows of the table are one block."""
        used = self.row_block[self.row_block >= 0]
        return len(np.unique(used)) < len(used)

    @property
    def table(self) -> str:
        """The table's file name, for errors."""
        return self.source.name if self.source else self.name

    @property
    def index(self) -> Indices:
        """The number of the block at each place of the grid, of its shape; -1 where there is
        none."""
        cube = np.full(self.grid.shape, -1, dtype=np.int32)
        cube[self.blocks.ix, self.blocks.iy, self.blocks.iz] = np.arange(
            len(self.blocks), dtype=np.int32
        )
        return cube

    @property
    def is_rock(self) -> Bools:
        """Whether a block weighs anything, of shape (len(self),): the others are air, of which
        nothing is dug. Where none weighs anything, all are rock."""
        found: Bools = self.blocks["tonnes"].to_numpy(float) > 0
        return found if found.any() else ~found

    @property
    def table_row(self) -> Ints:
        """The row of each block as a spreadsheet counts it, of shape (len(self),); 0 for blocks
        that were added."""
        row = self.blocks["row"].to_numpy(np.int64)
        return np.where(row >= 0, row + 2, 0)

    def xyz(self) -> tuple[Floats, Floats, Floats]:
        """East, north and elevation of each block's centre, in the table's unit."""
        b = self.blocks
        return self.grid.world(b.ix.to_numpy(), b.iy.to_numpy(), b.iz.to_numpy())

    @property
    def table_columns(self) -> list[str]:
        """The columns as the table names them, without those that a model has beside them."""
        return [str(name) for name in self.blocks.columns if name not in OURS]

    def numbers(self, column: str, what: str) -> Floats:
        """A column of the table as numbers, of shape (len(self),); `what` says in an error what it
        was wanted for. Raises PlanError where the table has no such column."""
        if column not in self.blocks.columns:
            raise PlanError(
                f"{what}: the table has no column {column!r}{meant(column, self.table_columns)}"
            )
        return number_column(
            pd.Series(self.blocks[column].to_numpy(), index=self.blocks["row"], name=column),
            self.table,
            self.absent,
        )


@dataclass(frozen=True)
class TableKeys:
    """How a table is to be read: the keys of [model] in ``study.toml``.

    Attributes
    ----------
    columns : mapping
        Names of columns that aren't the usual ones, under id, x, y, z, dx, dy, dz, tonnes, density,
        rock, class; and of the columns of topography and ore, which have none: the percent of a
        block that is rock, and of its tonnes that is ore.
    tonnes : str or float, optional
        A formula over the table's columns: what a row's block weighs, in place of a column of
        tonnes or density.
    units : mapping
        ``length`` and ``weight`` of `Units`.
    size : 3 floats, optional
        Of a block along the model's axes. Taken from the columns dx, dy, dz where the table has
        them.
    rotation : float
        The bearing of the model's y axis, in degrees clockwise from north.
    z : {"elevation", "depth"}
    missing : {"refuse", "air", "rock"}
        What a place within the model is that has no row; "rock" needs `fill`.
    fill : mapping
        ``tonnes`` and ``rock`` of such a place.
    absent : sequence of str
        Cells that stand for "not estimated", as "-99"; "" is an empty one. They count as 0.
    regularise : bool
        Whether sub-blocks are added up into whole blocks.
    widen : int
        How many columns of barren rock are added on each side.
    decimal, encoding, skip :
        As `csv_text.Dialect`. Default: found out.
    """

    columns: Mapping[str, str] = field(default_factory=dict)
    tonnes: str | float | None = None
    units: Mapping[str, str] = field(default_factory=dict)
    size: Sequence[float] | None = None
    rotation: float = 0.0
    z: str = "elevation"
    missing: str = "refuse"
    fill: Mapping[str, Any] = field(default_factory=dict)
    absent: Sequence[str] = ()
    regularise: bool = False
    widen: int = 0
    decimal: str | None = None
    encoding: str | None = None
    skip: int | None = None

    def __post_init__(self) -> None:
        refuse_wrong("model", vars(self))

    def dialect(self, path: Path) -> Dialect:
        """How a table is written: as these keys say, and where they say nothing as it looks."""
        found = dialect_of(path, self.encoding or "utf-8-sig")
        return Dialect(
            found.separator,
            self.decimal or found.decimal,
            found.encoding,
            found.skip if self.skip is None else self.skip,
        )


def read_table(path: str | Path, **keys: Any) -> Model:
    """Reads a table of blocks.

    Parameters
    ----------
    path : str or Path
        CSV or CSV.gz, with a header line and a row for each block.
    **keys
        The fields of `TableKeys`.

    Raises
    ------
    PlanError
        Where a key, the file, a cell or the grid is wrong: with table, row, column, what stands
        there and what to try.

    Examples
    --------
    >>> model = read_table("mine.csv", size=(20, 20, 10), rotation=30)       # doctest: +SKIP
    """
    known = [f.name for f in fields(TableKeys)]
    for key in keys:
        if key not in known:
            raise PlanError(f"read_table has no key {key!r}{meant(key, known)}")
    return read_with(Path(path), TableKeys(**keys))


def read_with(path: Path, keys: TableKeys) -> Model:
    """`read_table`, with its keys as one value."""
    with about("model", "table"):
        table, dialect = path.name, keys.dialect(path)
        header = names_of(head_of(path, dialect.encoding, 1)[0], dialect.separator)
    with about("model", "columns"):
        names = which_columns(
            header, keys.columns, table, numbers=lambda: numbers_and_grids(path, dialect)
        )
    frame = read_frame(path, dialect, [names[key] for key in ("id", "rock") if key in names])
    names = with_few_classes(names, keys.columns, lambda name: int(frame[name].nunique()))
    notes = ["columns: " + ", ".join(f"{key} = {name}" for key, name in names.items())]
    if dialect.skip:
        notes.append(said_of_skipped(dialect.skip))
    rows = int(frame.index[-1]) + 1
    places, size = _places_of(frame, names, keys, table, notes)
    unweighed = _without_weight(frame, names, keys)
    absent_cells = _estimated(frame, names, keys.absent)
    weigh_by = weights.weighed(frame, names, keys, table)
    with about("model", "regularise"):
        whole = subblocks.whole_blocks(
            frame, weigh_by, places, size, subblocks.Wanted(keys.regularise, keys.rotation, table)
        )
    notes += whole.notes
    with _misnamed_axes(names, keys.columns), about("model", "size"):
        grid, index = _on_grid(whole.places, size, keys, names, whole.frame.index, table)
    with about("model", "columns"):
        units = Units(**keys.units)
        blocks = _columns_of(whole.frame, weigh_by, grid, index, table, units.weight_of_cube)
    notes += _light(blocks)
    row_block = np.full(rows, -1, np.int32)
    row_block[frame.index.to_numpy()] = whole.parent
    model = Model(
        blocks,
        grid,
        path.name.removesuffix(".gz").removesuffix(".csv"),
        notes=notes,
        columns=names,
        row_block=row_block,
        depth=keys.z == "depth",
        source=path,
        absent=keys.absent,
        unweighed=unweighed,
        units=units,
        absent_cells=absent_cells,
    )
    if whole.tonnes is not None:
        i, j, k = (at[whole.parent] for at in index)
        model.parts = subblocks.Parts(
            _columns_of(frame, weigh_by, grid, (i, j, k), table).assign(
                tonnes=whole.tonnes * (1 if "tonnes" in weigh_by else units.weight_of_cube)
            ),
            whole.parent,
            np.arange(len(blocks)),
        )
    with about("model", "missing"):
        gaps.close(model, keys.missing, keys.fill, table)
    if keys.widen:
        with about("model", "widen"):
            gaps.widen(model, keys.widen)
    return model


def rows_alone(path: Path, keys: TableKeys) -> tuple[Model, set[int]]:
    """The rows of a table, each as a block, wherever it is and whatever it weighs: rocks, regions
    and formulas can be looked up in them where places are wrong.

    Returns
    -------
    Model, set of int
        And the rows in which a place or a weight is wrong; 0 stands for it.

    Raises
    ------
    PlanError
        Where the file isn't a table.
    """
    dialect = keys.dialect(path)
    header = names_of(head_of(path, dialect.encoding, 1)[0], dialect.separator)
    names = columns_found(header, keys.columns)
    frame = read_frame(path, dialect, [names[key] for key in ("id", "rock") if key in names])
    is_wrong = np.zeros(len(frame), bool)
    _estimated(frame, names, keys.absent)
    for key in set(names) & {*PLACES, *SIZES, *_WEIGHTS}:
        found = pd.to_numeric(frame[names[key]], errors="coerce")
        is_wrong |= found.isna().to_numpy()
        frame[names[key]] = found.fillna(0.0).clip(lower=0 if key in _WEIGHTS else None)
    wrong = set(frame.index[is_wrong])
    if not set(_WEIGHTS) & set(names):
        frame, names = frame.assign(tonnes=1.0), {**names, "tonnes": "tonnes"}
    filled = {names.get(key, key): value for key, value in keys.fill.items()}
    if keys.missing == "rock":  # a row of its own: its rock may be none of the table's
        here = {
            name: value
            for name, value in filled.items()
            if name in frame and isinstance(value, (str, int, float))
        }
        frame = pd.concat([frame, frame.iloc[-1:].assign(**here)])
    places = np.arange(len(frame)), np.zeros(len(frame), np.int64), np.zeros(len(frame), np.int64)
    nowhere = Grid((0.0, 0.0, 0.0), (1.0, 1.0, 1.0), (len(frame), 1, 1))
    blocks = _columns_of(frame, names, nowhere, places, path.name)
    if keys.missing == "rock":
        blocks.loc[len(blocks) - 1, "row"] = -1
    return (
        Model(blocks, nowhere, path.name, columns=names, source=path, absent=keys.absent),
        wrong,
    )


def _places_of(
    frame: pd.DataFrame,
    names: Mapping[str, str],
    keys: TableKeys,
    table: str,
    notes: list[str],
) -> tuple[subblocks.Places, tuple[float, float, float]]:
    """The centres, and the size of a whole block. Wrong cells of any of their columns, or of that
    of tonnes or density, are told together."""
    wrong, found = Gathered(), {}
    for key in PLACES:
        with wrong.part("model", "columns", key):
            found[key] = number_column(frame[names[key]], table, hint=NO_PLACE)
    with wrong.part("model", "columns"):
        _look_at_weights(frame, names, keys, table)
    size = (0.0, 0.0, 0.0)
    with wrong.part("model", "size"):
        size = _size_of(frame, names, keys, table, notes)
    wrong.tell()
    return subblocks.Places(*(found[key] for key in PLACES)), size


def _size_of(
    frame: pd.DataFrame, names: Mapping[str, str], keys: TableKeys, table: str, notes: list[str]
) -> tuple[float, float, float]:
    """The size of a whole block: as told, or the largest that the table's columns of sizes have."""
    if keys.size is not None:
        x, y, z = map(float, keys.size)
        return x, y, z
    if not all(key in names for key in SIZES):
        raise PlanError(
            "how large is a block? The table has no columns of sizes",
            table=table,
            try_this="size = [20, 20, 10] in [model]",
        )
    x, y, z = (float(number_column(frame[names[key]], table).max()) for key in SIZES)
    if min(x, y, z) <= 0:
        raise PlanError(
            f"a block of {x:g} x {y:g} x {z:g}?",
            table=table,
            try_this="size = [20, 20, 10] in [model]",
        )
    notes.append(
        f"size {x:g} x {y:g} x {z:g} from the columns {', '.join(names[key] for key in SIZES)}"
    )
    return x, y, z


def _without_weight(
    frame: pd.DataFrame, names: Mapping[str, str], keys: TableKeys
) -> dict[str, int]:
    """How many rows of each rock have a cell of `absent` for their tonnes or density."""
    absent = keys.absent
    key = next((key for key in _WEIGHTS if key in names), None)
    if not absent or key is None or not weights.is_read(keys, names[key]):
        return {}
    values = frame[names[key]]
    marked = (
        values.isin(numbers_among(absent))
        if values.dtype.kind in "iuf"
        else values.astype(str).str.strip().isin([mark.strip() for mark in absent])
    )
    marked |= values.isna() if "" in absent else False
    rocks = (
        frame[names["rock"]][marked].fillna("").astype(str).str.strip()
        if "rock" in names
        else pd.Series("rock", marked[marked].index)
    )
    return {str(rock): int(count) for rock, count in rocks.value_counts().items()}


def _estimated(
    frame: pd.DataFrame, names: Mapping[str, str], absent: Sequence[str]
) -> dict[str, int]:
    """Puts 0 where a cell says "not estimated", in all columns but those of places and names. Says
    how many cells do, by column."""
    found: dict[str, int] = {}
    if not absent:
        return found
    kept = {names[key] for key in (*PLACES, *SIZES, "id", "rock", TOPOGRAPHY, ORE) if key in names}
    marks = numbers_among(absent)
    for name in frame.columns:
        if name in kept:
            continue
        values = frame[name]
        if values.dtype.kind in "iuf":
            hit = values.isin(marks) | (values.isna() if "" in absent else False)
            if hit.any():
                frame[name] = values.mask(hit, 0)
                found[name] = int(hit.sum())
            continue
        try:
            number_column(values.iloc[:1000], name, absent)
            frame[name] = number_column(values, name, absent)
        except PlanError:
            continue  # a column of words, or one that is told where it is used
        text = values.astype(str).str.strip().mask(values.isna(), "")
        hit = text.isin([mark.strip() for mark in absent])
        hit |= pd.to_numeric(text, errors="coerce").isin(marks)
        found |= {name: int(hit.sum())} if hit.any() else {}
    return found


def _on_grid(
    places: subblocks.Places,
    size: tuple[float, float, float],
    keys: TableKeys,
    names: Mapping[str, str],
    rows: pd.Index,
    table: str,
) -> tuple[Grid, tuple[Ints, Ints, Ints]]:
    """The grid that the blocks lie on, and their whole indices.

    Raises
    ------
    PlanError
        Where a centre is off the grid, no two blocks are neighbours, or two blocks are at one
        place: with the row.
    """
    turned = Grid((0.0, 0.0, 0.0), size, rotation=float(keys.rotation))
    u, v = turned.local(places.x - places.x[0], places.y - places.y[0])
    up = places.z if keys.z == "elevation" else -places.z
    hint = (
        "rotation = the bearing of the model's y axis in [model], or size as the package has it"
        if not keys.rotation
        else "another rotation, or size"
    )
    found = []
    for key, values, length in zip(PLACES, (u, v, up), size):
        found.append(
            _along(
                values,
                length,
                _Axis(
                    table, names[key], rows, hint if key != "z" else "size as the package has it"
                ),
            )
        )
    (ix, low_u), (iy, low_v), (iz, low_z) = found
    corner = Grid(
        (float(places.x[0]), float(places.y[0]), low_z),
        (1.0, 1.0, 1.0),
        rotation=float(keys.rotation),
    )
    east, north, _ = corner.world(low_u, low_v, 0)
    shape = (int(ix.max()) + 1, int(iy.max()) + 1, int(iz.max()) + 1)
    if shape[0] * shape[1] * shape[2] > max(40 * len(ix), 10**6):
        far = int(
            np.argmax(
                np.abs(u - np.median(u)) / size[0]
                + np.abs(v - np.median(v)) / size[1]
                + np.abs(up - np.median(up)) / size[2]
            )
        )
        raise PlanError(
            f"{len(ix):,} blocks are scattered over a grid of {shape[0]:,} x {shape[1]:,} x {shape[2]:,}; this one, at "
            f"({places.x[far]:g}, {places.y[far]:g}, {places.z[far]:g}), lies farthest out",
            table=table,
            row=int(rows[far]),
            column=names["x"],
            try_this=f"is the size {size[0]:g} x {size[1]:g} x {size[2]:g} right?",
        )
    _twins((ix * shape[1] + iy) * shape[2] + iz, rows, names["x"], table)
    return Grid((float(east), float(north), low_z), size, shape, float(keys.rotation)), (ix, iy, iz)


@contextmanager
def _misnamed_axes(names: Mapping[str, str], given: Mapping[str, str]) -> Iterator[None]:
    """Errors of the grid, where a column has a usual name of another axis: they say that, and what
    to try is that one."""
    try:
        yield
    except PlanError as error:
        wrong = misnamed(names)
        if not wrong or error.key != ("model", "size"):
            raise
        better = {key: name for key, name in given.items() if key not in wrong}
        better |= {axis: names[key] for key, axis in wrong.items()}
        raise PlanError(
            "; ".join((error.what, *said_of_misnamed(names, wrong))),
            table=error.table,
            row=error.row,
            column=error.column,
            try_this=Remedy(("model", "columns"), better),
            key=("model", "columns"),
        ) from None


@dataclass(frozen=True)
class _Axis:
    """What an error says of an axis."""

    table: str
    column: str
    rows: pd.Index
    try_this: str


def _along(values: Floats, length: float, axis: _Axis) -> tuple[Ints, float]:
    """Whole indices along an axis, and the coordinate of index 0. The grid is where most centres
    are."""
    with np.errstate(over="ignore"):  # a length that is next to nothing
        steps = values / length
    far = int(np.argmax(np.abs(steps)))
    if not abs(steps[far]) < _MOST_STEPS:
        raise PlanError(
            f"the centre is more than {_MOST_STEPS:,} blocks of {length:g} away",
            table=axis.table,
            row=int(axis.rows[far]),
            column=axis.column,
            try_this=f"is a block {length:g} long? size in [model]",
        )
    share = steps[:: max(1, len(steps) // _SAMPLE)] % 1.0
    counts = np.bincount(np.minimum((share * 200).astype(np.int64), 199), minlength=200)
    about = int(np.argmax(counts + np.roll(counts, 1))) / 200
    near = (share - about + 0.5) % 1.0 - 0.5
    steps -= about + float(np.median(near[np.abs(near) < _OFF]))
    index = np.rint(steps).astype(np.int64)
    off = np.abs(steps - index)
    if off.max() > _OFF:
        row = int(np.argmax(off > _OFF))
        n = int(np.sum(off > _OFF))
        raise PlanError(
            f"the centre is {off[row]:.2f} of a block of {length:g} off the grid that most blocks are on"
            + (f"; {n:,} blocks are off it" if n > 1 else ""),
            table=axis.table,
            row=int(axis.rows[row]),
            column=axis.column,
            try_this=axis.try_this,
        )
    first = int(np.argmin(index))
    low = float(values[first])
    index -= index[first]
    apart = int(np.gcd.reduce(index))
    if apart > 1:
        raise PlanError(
            f"no two blocks are neighbours: all are {apart} blocks of {length:g} apart, or a multiple",
            table=axis.table,
            column=axis.column,
            try_this=f"is a block {apart * length:g} long? size in [model]",
        )
    return index, low


def _twins(flat: Ints, rows: pd.Index, column: str, table: str) -> None:
    """Refuses two blocks at one place."""
    order = np.argsort(flat, kind="stable")
    same = np.flatnonzero(np.diff(flat[order]) == 0)
    if len(same):
        first, second = sorted((int(rows[order[same[0]]]), int(rows[order[same[0] + 1]])))
        raise PlanError(
            f"is at the place of row {first + 2}: two blocks at one place"
            + (f" ({len(same):,} such)" if len(same) > 1 else ""),
            table=table,
            row=second,
            column=column,
            try_this=(
                "take one of the rows out; or regularise = true in [model], with the columns"
                " dx, dy and dz, if these are sub-blocks"
            ),
            key=("model", "table"),
        )


def _light(blocks: pd.DataFrame) -> list[str]:
    """A note of the rows that weigh nothing: nothing is paid for digging them."""
    rocks = blocks["rock"][blocks["tonnes"] == 0].value_counts()
    if not len(rocks):
        return []
    named = ", ".join(
        f"{rock or 'without a rock'} {count:,}" for rock, count in rocks.head(3).items()
    ) + (", .." if len(rocks) > 3 else "")
    count = int(rocks.sum())
    return [
        (
            f"{count:,} {'rows weigh' if count > 1 else 'row weighs'} nothing, and"
            f" {'count' if count > 1 else 'counts'} as air: {named}"
        )
    ]


def _without_blanks(words: pd.Series) -> Array:
    """Words without the blanks around them, which packages fill cells up with."""
    code, kinds = pd.factorize(words)
    # the last is that of an empty cell, whose code is -1
    found: Array = np.array([*(str(kind).strip() for kind in kinds), ""], object)[code]
    return found


def _weights_of(
    frame: pd.DataFrame, names: Mapping[str, str], table: str, absent: Sequence[str] = ()
) -> Floats:
    """The tonnes of each row; where the table has none, the density.

    Raises
    ------
    PlanError
        Where the table has neither, or a cell is no number of at least 0.
    """
    key = next((key for key in _WEIGHTS if key in names), None)
    if key is None:
        raise PlanError(
            "no column is known as tonnes or density",
            table=table,
            try_this=columns_with(names, tonnes="..."),
        )
    with about("model", "columns", key):
        found = number_column(frame[names[key]], table, absent, NO_WEIGHT)
    if (found < 0).any():
        row = int(np.argmax(found < 0))
        others, mark = found[found > 0], str(not_estimated(f"{found[row]:g}", absent))
        is_slip = len(others) > 0 and others.min() <= -found[row] <= others.max()
        raise PlanError(
            f"{found[row]:g} is less than nothing",
            table=table,
            row=int(frame.index[row]),
            column=names[key],
            try_this=f"{-found[row]:g} in that cell, if the sign is a slip; or {mark}: it weighs nothing then"
            if is_slip
            else mark,
        )
    return found


def _look_at_weights(
    frame: pd.DataFrame, names: Mapping[str, str], keys: TableKeys, table: str
) -> None:
    """Raises PlanError where a weight is wrong, or the cells that a formula makes one of: what that
    comes to is told where it is worked out."""
    if keys.tonnes is None:
        _weights_of(frame, names, table, keys.absent)
        return
    for key in [key for key in _WEIGHTS if key in names]:
        if weights.is_read(keys, names[key]):
            with about("model", "columns", key):
                number_column(frame[names[key]], table, keys.absent, NO_WEIGHT)


def _columns_of(
    frame: pd.DataFrame,
    names: Mapping[str, str],
    grid: Grid,
    index: tuple[Ints, Ints, Ints],
    table: str,
    weight_of_cube: float = 1.0,
) -> pd.DataFrame:
    """The table with this package's own columns beside the planner's."""
    own: dict[str, Any] = {
        "id": frame[names["id"]].to_numpy()
        if "id" in names
        else (frame.index.to_numpy() + 2).astype(str)
    }
    own |= {key: values.astype(np.int32) for key, values in zip(("ix", "iy", "iz"), index)}
    weighed = _weights_of(frame, names, table)
    own["tonnes"] = weighed if "tonnes" in names else weighed * (grid.volume * weight_of_cube)
    own["rock"] = (
        _without_blanks(frame[names["rock"]])
        if "rock" in names
        else np.full(len(frame), "rock", object)
    )
    own["row"] = frame.index.to_numpy().astype(np.int32)
    rest = {
        str(name): frame[name].to_numpy()
        for name in frame.columns
        if name not in (*OURS, weights.WEIGHT)
    }
    # a copy into common blocks would take as long as all checks
    return pd.DataFrame({**own, **rest}, copy=False)
