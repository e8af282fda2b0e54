"""Slopes by bearing and by region: from angles to offsets, and to the settings that list them.

A block's predecessors follow from the region of that block, wherever they lie themselves: settings
list the offsets of each region, and the `.blocks` file has a column with that of each block.
"""
from __future__ import annotations

from collections.abc import Iterable, Mapping
from dataclasses import dataclass
from typing import Any, cast

import numpy as np
import pandas as pd

from ..base.arrays import Array, Bools, Ints
from ..base.errors import Gathered, KeyPath, PlanError, Remedy, about, toml_spelled
from ..base.events import event
from ..base.near_words import meant, near_to, swap_of
from ..model.grid import Grid
from ..model.model import Model
from ..model.subblocks import coded
from ..table.formula import is_formula, names_in, text_of, words_out
from ..table.study_keys import keys_of
from ..table.value_kinds import has_ramp
from ..table.wrong_values import refuse_wrong
from . import offsets
from .slope_settings import offsets_listed, slopes_text
from .offsets import Angles, Offset, Outline, Pattern
from .ramps import ramp_of

DEFAULT = "default"
_MOST_REGIONS = 64  # that `pit` takes
_OF_PLACES = ("elevation", "below_ground")  # what a formula of regions may name beside columns
_OFF = 1e-3  # of a block's height: that much less or more makes no other elevation, nor depth
_MOST_FOUND = 1024  # walls that are kept, far more than a study has
_FOUND: dict[tuple[offsets.Wall, bool, int | None], Pattern] = {}
_STEP = 15  # degrees of bearing between two rows of the table of asked and built angles


@dataclass
class Slopes:
    """The overall slopes of the walls.

    Parameters
    ----------
    angles : float or list of pairs
        Degrees from the horizontal, or pairs (bearing, degrees). The bearing is that of the wall
        from the bottom of the pit, clockwise from north: the north wall is at 0, the east wall at
        90. Between two bearings the angle changes evenly.
    by : str, optional
        A column of the table that names the region of each block, or a formula that gives its name.
        Beside columns a formula has ``elevation``, of a block's centre, and ``below_ground``, how
        far that lies below the top of the highest rock of its column.
    regions : mapping, optional
        Angles of their own for regions, by what stands in that column. All other blocks have
        `angles`.
    safe : bool
        Whether no wall may be steeper than asked, at any bearing; it is flatter on average then,
        and with few `levels` much flatter. Where no offsets make such a wall `patterns` raises, and
        so nothing is built.
    levels : int, optional
        How many levels up the offsets may lead. Default: as many as it takes.
    ramp : mapping, optional
        The ramp that passes the walls, or that of each region by its name ("default" for the
        others): the fields of `ramps.Ramp`. Angles are those between ramps then, and walls get the
        overall angles that come of them.

    Raises
    ------
    PlanError
        Where an angle or a bearing is out of range, or `by` and `regions` don't come together.
    """

    angles: Angles = 45.0
    by: str | None = None
    regions: Mapping[str, Angles] | None = None
    safe: bool = False
    levels: int | None = None
    ramp: Mapping[str, Any] | None = None

    def __post_init__(self) -> None:
        refuse_wrong(
            "slopes",
            {name: value for name, value in vars(self).items() if name in keys_of("slopes")},
        )
        if self.regions and not self.by:
            raise PlanError(
                "[slopes] has regions, and doesn't say which column names them",
                try_this='by = "SECTOR"',
                key=("slopes", "regions"),
            )
        if self.by and not self.regions:
            raise PlanError(
                f"[slopes] by is {self.by!r}, and no region has angles of its own",
                try_this="regions = { NORTH = 38 }",
                key=("slopes", "by"),
            )
        if DEFAULT in (self.regions or {}):
            raise PlanError(
                f"[slopes] regions: {DEFAULT!r} is what the slopes of all other blocks are called",
                try_this="angles, for the blocks of no region; or another word in that column",
                key=("slopes", "regions", DEFAULT),
            )
        if len(self.names) > _MOST_REGIONS:
            raise PlanError(
                f"[slopes] has {len(self.names)} slopes with that of all other blocks, and pit takes"
                f" {_MOST_REGIONS}",
                try_this="one name for regions whose angles are the same",
                key=("slopes", "regions"),
            )
        wrong = Gathered()
        for name in self.ramp or {}:
            if not has_ramp(self.ramp) and name not in self.names:
                wrong.add(
                    [
                        PlanError(
                            f"[slopes] ramp: there is no region {name!r}{meant(name, self.names)}",
                            try_this=", ".join(self.names),
                            key=("slopes", "ramp", name),
                        )
                    ]
                )
        for name in self.names:
            with wrong.part(*_key_of(name)):
                self.wall(name, (1.0, 1.0, 1.0), 0.0)
        wrong.tell()

    @property
    def names(self) -> list[str]:
        """The regions: "default", and those with angles of their own."""
        return [DEFAULT, *(self.regions or {})]

    def angles_of(self, region: str) -> Angles:
        """The angles of a region as study.toml has them."""
        return self.angles if region == DEFAULT else (self.regions or {})[region]

    def wall(self, region: str, size: tuple[float, float, float], rotation: float) -> offsets.Wall:
        """What is asked for in a region: the overall slope, where ramps pass it that with the
        ramps. Raises PlanError where angles are out of range."""
        angles, where, ramp = (
            self.angles_of(region),
            _angles_key(region),
            ramp_of(self.ramp, region),
        )
        try:
            offsets.wall(size, angles, rotation)  # angles out of range are told as they were asked
            return offsets.wall(size, ramp.of_angles(angles) if ramp else angles, rotation)
        except offsets.SlopeError as error:
            raise PlanError(
                f"[slopes] {where}: {error}", try_this=error.advice or None, key=_key_of(region)
            ) from None

    def patterns(self, grid: Grid) -> dict[str, Pattern]:
        """The offsets of each region and the wall that they make, "default" first; a wall that was
        asked for before, as by what-ifs over the same slopes, isn't searched again.

        Raises
        ------
        PlanError
            Where with `safe` a region's wall would be steeper than asked.
        """
        walls = {name: self.wall(name, grid.size, grid.rotation) for name in self.names}
        return {name: self._pattern_of_region(name, wall) for name, wall in walls.items()}

    def lines(self, region: str, grid: Grid, unit: str) -> list[str]:
        """What a region's walls are built of, lengths in a unit; before it, where ramps pass them,
        which overall angles come of those between ramps, and why."""
        ramp, pattern = ramp_of(self.ramp, region), self.patterns(grid)[region]
        said = [ramp.spelled(self.angles_of(region), unit)] if ramp else []
        return [f"{region}: {line}" for line in (*said, str(pattern))]

    def _pattern_of_region(self, region: str, wall: offsets.Wall) -> Pattern:
        """The offsets of a region; that they are looked for is said only where they are."""
        asked = (wall, self.safe, self.levels)
        if asked in _FOUND:
            return _FOUND[asked]
        at = f", {self.names.index(region) + 1} of {len(self.names)}" if self.regions else ""
        event("step", what=f"looking for the offsets of {region}{at}")
        try:
            return kept_search(*asked)
        except offsets.TooSteep as error:
            raise PlanError(
                f"[slopes] {_angles_key(region)}, safe = true: {error.what}",
                try_this=error.advice,
                key=("slopes", "safe"),
            ) from None

    def offsets_by_region(self, grid: Grid) -> dict[str, list[Offset]]:
        """The offsets (dx, dy, dz) of each region, "default" first."""
        return {name: list(pattern.offsets) for name, pattern in self.patterns(grid).items()}

    def settings(self, grid: Grid, column: int) -> str:
        """The settings that list the offsets of each region, as `pit` reads them beside a `.blocks`
        file, which has regions in that column, where there are several. Raises PlanError as
        `patterns`."""
        return slopes_text(self.patterns(grid), column if self.regions else None)

    def outlines(self, grid: Grid) -> dict[str, Outline]:
        """The walls that each region's offsets make, "default" first; the offsets are read back
        from the text of `settings`. Raises PlanError as `patterns`."""
        listed = offsets_listed(self.settings(grid, column=0))  # no offset hangs on it
        return {
            name: Outline(pattern.wall, found)
            for (name, pattern), found in zip(self.patterns(grid).items(), listed)
        }

    def built(self, grid: Grid) -> pd.DataFrame:
        """The angles that are asked for and those of the walls that are built.

        Returns
        -------
        DataFrame
            With columns region, bearing, asked, built and error, in degrees; an error above 0 is
            steeper than asked.
        """
        rows = []
        patterns = self.patterns(grid)
        for name, outline in self.outlines(grid).items():
            for bearing in range(0, 360, _STEP):
                asked, is_now = patterns[name].wall.slope(bearing), outline.slope(bearing)
                rows.append((name, bearing, asked, is_now, is_now - asked))
        return pd.DataFrame(rows, columns=["region", "bearing", "asked", "built", "error"])

    def rock_by_region(self, model: Model) -> dict[str, int]:
        """How many blocks of rock each region has, "default" first."""
        count = np.bincount(self.region_of(model)[model.is_rock], minlength=len(self.names))
        return dict(zip(self.names, count.tolist()))

    def rock_of_default(self, model: Model) -> dict[str, int]:
        """What a column `by` has in the blocks of rock that no region names, and how many have it,
        the most first; "" is an empty cell. Nothing where `by` is no column."""
        if not self.regions or self.by not in model.blocks.columns:
            return {}
        here = (self.region_of(model) == 0) & model.is_rock
        cells = coded(model, [str(self.by)]).blocks.loc[here, self.by]
        counts = cells.map(text_of, na_action="ignore").fillna("").value_counts()
        return {str(name): int(count) for name, count in counts.items()}

    def codes(self) -> set[str]:
        """The columns that `by` names: they stand for codes."""
        return {self.by, *names_in(self.by)} if self.by else set()

    def hangs_on_places(self, columns: Iterable[str]) -> bool:
        """Whether `by` is a formula of where blocks are, which no column of the table says."""
        there = set(columns)
        if self.by is None or self.by in there or not is_formula(self.by):
            return False
        return not names_in(self.by) & set(_OF_PLACES) <= there

    def region_of(self, model: Model) -> Ints:
        """The region of each block, as an index into `names`.

        Raises
        ------
        PlanError
            Where the table has no such column, or no block is in a region.
        """
        if not self.regions:
            return np.zeros(len(model), np.int64)
        if self.by in model.blocks.columns:
            found: Any = coded(model, [str(self.by)]).blocks[self.by]
        elif is_formula(str(self.by)):
            with about("slopes", "by"):
                found = _by_formula(str(self.by), model)
        else:
            raise self._no_column(model)
        codes, there = pd.factorize(found)
        texts = [text_of(value) for value in there]
        wrong = Gathered()
        wrong.add(
            PlanError(
                f"[slopes] no block has {self.by} = {name}{meant(name, sorted(texts))}",
                try_this=(
                    f"{toml_spelled({near: angles})[2:-2]} in regions of [slopes]"
                    if (near := near_to(name, sorted(texts))) and near not in self.regions
                    else None
                ),
                key=_key_of(name),
            )
            for name, angles in self.regions.items()
            if name not in texts
        )
        wrong.tell()
        index = {name: i for i, name in enumerate(self.names) if i}
        # the last is that of an empty cell, whose code is -1
        of_code = np.array([*(index.get(text, 0) for text in texts), 0], np.int64)
        return cast(Ints, of_code[codes])

    def _no_column(self, model: Model) -> PlanError:
        """That the table has no column `by`: a name like it, or the column that has its regions."""
        by, names = str(self.by), model.table_columns
        near = near_to(by, names)
        having = [name for name in names if near is None and _has_words(model, name, self.regions)]
        return PlanError(
            f"[slopes] by: the table has no column {by!r}{meant(by, names)}",
            try_this=Remedy(("slopes", "by"), having[0]) if len(having) == 1 else None,
            key=("slopes", "by"),
        ).with_swap(swap_of(by, names))


def _has_words(model: Model, column: str, words: Iterable[str] | None) -> bool:
    """Whether each of these words, at least one, stands in a column of words."""
    found = model.blocks[column]
    wanted = set(words or ())
    return bool(wanted) and found.dtype == object and wanted <= set(map(text_of, found.unique()))


def _by_formula(formula: str, model: Model) -> Array:
    """The word that a formula gives for each block. Air that was added above the ground has that of
    the highest block of its column, by which `steep_ground.with_air` looked for it.

    Raises
    ------
    PlanError
        Where it is no formula, or gives no words.
    """
    b, grid = model.blocks, model.grid
    deep = _top_of(model, model.is_rock) - b["iz"].to_numpy() + 0.5
    own = {"elevation": model.xyz()[2], "below_ground": deep * grid.size[2]}
    table = b.assign(**{name: values for name, values in own.items() if name not in b.columns})
    off = {name: _OFF * grid.size[2] for name in own if name not in b.columns}
    found = words_out(formula, table, "[slopes] by", off)
    is_air = (b["row"].to_numpy() < 0) & (b["tonnes"].to_numpy(float) == 0)
    top = _top_of(model, ~is_air)
    is_over = is_air & (b["iz"].to_numpy() > top) & (top >= 0)
    found[is_over] = found[model.index[b["ix"], b["iy"], top][is_over]]
    return found


def _top_of(model: Model, held: Bools) -> Ints:
    """For each block the level of the highest of some blocks in its column, -1 where there is
    none."""
    b = model.blocks
    top = np.full(model.grid.shape[:2], -1, np.int64)
    np.maximum.at(top, (b["ix"][held], b["iy"][held]), b["iz"][held])
    found: Ints = top[b["ix"], b["iy"]]
    return found


def _angles_key(region: str) -> str:
    """The key of [slopes] that has a region's angles."""
    return "angles" if region == DEFAULT else f"regions, {region}"


def _key_of(region: str) -> KeyPath:
    """The path of a region's angles in study.toml."""
    return ("slopes", "angles") if region == DEFAULT else ("slopes", "regions", region)


def kept_search(wall: offsets.Wall, safe: bool, levels: int | None) -> Pattern:
    """As `offsets.search`, kept for all slopes of this process."""
    if len(_FOUND) >= _MOST_FOUND:
        _FOUND.clear()
    _FOUND[wall, safe, levels] = offsets.search(wall, safe=safe, levels=levels)
    return _FOUND[wall, safe, levels]


def walls_of(built: pd.DataFrame, every: int) -> tuple[list[str], list[tuple[str, ...]]]:
    """The angles of `Slopes.built` as a table: its names, and a line for each so many degrees of
    bearing, of all regions side by side."""
    regions = list(dict.fromkeys(built.region))
    columns = ("asked", "built", "error")
    each = [(name, column) for name in regions for column in columns]
    names = [column if len(regions) == 1 else f"{name} {column}" for name, column in each]
    lines = []
    for bearing, rows in built[built.bearing % every == 0].groupby("bearing"):
        by_region = rows.set_index("region").round(1) + 0.0
        signs = ("+" if column == "error" else "" for _, column in each)
        cells = (f"{by_region.at[it]:{sign}.1f}" for it, sign in zip(each, signs))
        lines.append((str(bearing), *cells))
    return ["bearing", *names], lines
