"""`pitplan init`: looks at a table, guesses what is what, and writes a study.toml with a comment at
each key."""
from __future__ import annotations

import math
import re
import tomllib
import unicodedata
from collections.abc import Iterator, Mapping, Sequence
from dataclasses import dataclass, field
from keyword import iskeyword
from pathlib import Path

import numpy as np
import pandas as pd

from ..base.arrays import Floats
from ..base.errors import PlanError
from ..base.next_command import command
from ..base.usual_metals import metal_of, unit_of
from ..model.grid import Grid
from ..model.subblocks import OFF
from ..slopes.slopes import DEFAULT
from ..table.column_names import PLACES, REGIONS, SIZES, known_as, which_columns, with_few_classes
from ..table.csv_text import (
    NO_PLACE,
    Dialect,
    dialect_of,
    head_of,
    names_of,
    number_column,
    numbers_and_grids,
    read_frame,
    said_of_skipped,
)
from ..table.formula import text_of
from ..table.marks import LIMIT, MARKS, are_limits, is_of_numbers
from ..table.share_columns import is_part, remedy_of_part
from .study_template import aligned, metal, template

_UTF_8 = Dialect().encoding
NO_WEIGHT = "no column of tonnes or density was found"
GRADE = "GRADE"  # a column of a grade where none is found
_MOSTLY = (
    0.9  # the share of numbers from which a column is one of numbers with a few words among them
)
_MOST_LIMITS = 20
_MOST_REGIONS = 12  # of slopes: a column with more words than that names something else
_MOST_ROCKS = 12  # that are named
# how a rock is called that is none
_AIRS = re.compile(r"air|aire|ar|airblock|void|vacio|vacío|vazio", re.IGNORECASE)
# how oxide and sulphide are called
_OXIDE = re.compile(r"(?:.*[^a-z])?ox(?:i|id\w*|yd\w*)?(?:[^a-z].*)?", re.IGNORECASE)
_SULPHIDE = re.compile(r"(?:.*[^a-z])?sul(?:f\w*|ph\w*)?(?:[^a-z].*)?", re.IGNORECASE)
_SAMPLE = 1500  # blocks that the grid is looked for in
_PLACES_OFF = 0.02  # in the unit of the coordinates: how far their rounding may put two blocks off


@dataclass
class _Look:
    """What a table looks like.

    Attributes
    ----------
    names : dict
        The table's own names of x, y, z and the others.
    rows : int
    size : tuple of 3 floats, or None
        Of a block, where it could be told.
    rotation : float
        The bearing of the model's y axis, as far as one can tell.
    grades : list of str
        Columns of numbers that look like grades.
    absent : list of str
        Cells that seem to stand for "not estimated".
    has_sub_blocks : bool
    region : str
        The column that seems to say in which region of slopes a block is; "" where none does.
    regions : list of str
        What stands in it.
    parts : list of str
        Columns that seem to say how much of a block is rock or ore.
    rocks, airs, columns : list of str
        The rocks, the commonest first; those of them that weigh nothing or are called air; and all
        names of columns.
    notes : list of str
        What the planner should look at.
    """

    dialect: Dialect
    names: dict[str, str]
    rows: int
    size: tuple[float, float, float] | None = None
    rotation: float = 0.0
    grades: list[str] = field(default_factory=list)
    absent: list[str] = field(default_factory=list)
    has_sub_blocks: bool = False
    region: str = ""
    regions: list[str] = field(default_factory=list)
    parts: list[str] = field(default_factory=list)
    rocks: list[str] = field(default_factory=list)
    airs: list[str] = field(default_factory=list)
    columns: list[str] = field(default_factory=list)
    notes: list[str] = field(default_factory=list)

    @property
    def oxides(self) -> list[str]:
        """The rocks that may go to a leach, where others are called sulphide; else none."""
        found = [rock for rock in self.rocks if _OXIDE.fullmatch(rock)]
        return found if self.sulphides else []

    @property
    def sulphides(self) -> list[str]:
        """The rocks that are called sulphide, and not oxide too."""
        return [
            rock for rock in self.rocks if _SULPHIDE.fullmatch(rock) and not _OXIDE.fullmatch(rock)
        ]


def look_at(
    table: Path,
    given: Mapping[str, str] | None = None,
    encoding: str | None = None,
    advice: str | None = None,
    typed: Sequence[str] = (),
) -> _Look:
    """Looks at a table of blocks.

    Parameters
    ----------
    table : Path
        CSV, or CSV.gz.
    given : mapping, optional
        The names of columns that aren't the usual ones, under the keys of `column_names.USUAL`.
    encoding : str, optional
        Where it isn't UTF-8.
    advice : str, optional
        What to try where columns aren't known. Default: the command that names them.
    typed : sequence of str, optional
        Further words of that command, as they were typed.

    Raises
    ------
    PlanError
        Where it isn't a table, or has no columns that are known as x, y and z.
    """
    dialect = dialect_of(table, encoding or _UTF_8)
    said = () if encoding is None else ("--encoding", encoding)
    names = which_columns(
        names_of(head_of(table, dialect.encoding, 1)[0], dialect.separator),
        given or {},
        table.name,
        lambda near: advice
        or command(
            "init",
            ".",
            str(table),
            *typed,
            *said,
            *(
                word
                for key, name in {**(given or {}), **near}.items()
                for word in ("--column", f"{key}={name}")
            ),
        ),
        lambda: numbers_and_grids(table, dialect),
    )
    frame = read_frame(table, dialect, [names[key] for key in ("id", "rock") if key in names])
    names = with_few_classes(names, given or {}, lambda name: int(frame[name].nunique()))
    look = _Look(dialect, names, len(frame), columns=[str(name) for name in frame.columns])
    look.absent, where = _marks_in(frame, names)
    look.notes += [
        f"{mark or 'an empty cell'} stands for \"not estimated\" in {', '.join(columns)}, and counts as 0"
        for mark, columns in where.items()
    ]
    look.notes += _mostly_below(frame, where)
    x, y, z = (number_column(frame[names[key]], table.name, hint=NO_PLACE) for key in PLACES)
    _find_grid(look, frame, x, y, z)
    _find_parts(look, frame)
    look.grades = [str(name) for name in frame.columns if _is_grade(frame, str(name), look)]
    look.region, look.regions = _regions_in(frame, look)
    if "rock" in names:
        look.rocks = [
            str(rock)
            for rock in frame[names["rock"]]
            .fillna("")
            .str.strip()
            .value_counts()
            .index[:_MOST_ROCKS]
        ]
        look.airs = _airs_among(frame, names, look.absent)
    look.notes += _not_found(names)
    if dialect.skip:
        look.notes.append(said_of_skipped(dialect.skip))
    return look


def _not_found(names: Mapping[str, str]) -> Iterator[str]:
    """What is said of columns that aren't there by any name that is looked for."""
    if not {"tonnes", "density"} & set(names):
        yield (
            f"{NO_WEIGHT}: name it in columns, or say tonnes by a formula in [model]; names that are"
            f" looked for: {known_as('tonnes', 'density')}"
        )
    if "rock" not in names:
        yield (
            "no column of rocks was found: name it in columns, where costs or recoveries go by rock;"
            f" names that are looked for: {known_as('rock')}"
        )


def _marks_in(frame: pd.DataFrame, names: dict[str, str]) -> tuple[list[str], dict[str, list[str]]]:
    """The cells that seem to stand for "not estimated", and the columns of each: as the usual
    marks, in columns that aren't places or names."""
    kept = {names[key] for key in (*PLACES, *SIZES, "id", "rock") if key in names}
    where: dict[str, list[str]] = {}
    numbers = frame.select_dtypes("number")
    # all at once: a table may have 100,000 columns
    plain = set(numbers.columns[((numbers.min() >= 0) & ~numbers.isna().any()).to_numpy()])
    for name in frame.columns:
        if name not in kept and name not in plain:
            for mark in _marks_of(frame[name]):
                where.setdefault(mark, []).append(str(name))
    return list(where), where


def _marks_of(values: pd.Series) -> list[str]:
    """The cells of a column that seem to stand for "not estimated"; none in a column of words."""
    if values.dtype.kind in "iuf":
        found = [""] if values.isna().any() and not values.isna().all() else []
        while float(values.min()) < 0 and f"{values.min():g}" in MARKS:
            found.append(f"{values.min():g}")
            values = values[values > values.min()]
        return found
    if not is_of_numbers(values):
        return []
    words = _words_among(values)
    return (
        [mark for mark in MARKS if mark in words]
        + sorted(word for word in words if LIMIT.fullmatch(word))[:_MOST_LIMITS]
        + ([""] if values.isna().any() else [])
    )


def _mostly_below(frame: pd.DataFrame, where: Mapping[str, Sequence[str]]) -> Iterator[str]:
    """What is said of columns of which most cells are below detection: there it matters that they
    count as 0. `where` has the columns of each mark."""
    limits = [mark for mark in where if LIMIT.fullmatch(mark)]
    for name in dict.fromkeys(name for mark in limits for name in where[mark]):
        below = are_limits(frame[name])
        if float(below.mean()) > 0.5:
            yield (
                f"{int(below.sum()):,} of {len(below):,} cells of {name} are below detection, as"
                f" {next(mark for mark in limits if name in where[mark])}, and count as 0, by"
                " absent in study.toml: where they are to count for more, write numbers into the"
                " table"
            )


def _share_of_numbers(values: pd.Series) -> float:
    """How many of a column's cells are numbers or below detection, as a share of all."""
    are = pd.to_numeric(values, errors="coerce").notna() | are_limits(values)
    return float(are.mean())


def _words_among(values: pd.Series) -> list[str]:
    """The different cells of a column that are no numbers and aren't empty."""
    return [
        str(word).strip()
        for word in values[pd.to_numeric(values, errors="coerce").isna() & values.notna()].unique()
    ]


def _is_grade(frame: pd.DataFrame, name: str, look: _Look) -> bool:
    """Whether a column is one of numbers, and is none of those that are known as something else.
    One with a few words among its numbers counts, and is told: `build` refuses these words by their
    row."""
    if name in look.names.values() or name in look.parts:
        return False
    if _rank_of_region(name) < len(REGIONS) and _are_whole(frame[name]) and metal_of(name) is None:
        return False  # numbers of sectors, be they many
    try:
        values = number_column(frame[name].iloc[:20000], name, look.absent)
    except PlanError as error:
        is_one = is_of_numbers(frame[name]) and _share_of_numbers(frame[name]) > _MOSTLY
        if is_one:
            look.notes.append(
                (
                    f"column {name}, row {0 if error.row is None else error.row + 2}:"
                    f' {error.what}; if that stands for "not estimated", put it into absent'
                )
            )
        return is_one
    # kriging leaves a few below 0: `build` names their row
    if metal_of(name) is not None and (values < 0).mean() < 0.5:
        return True
    return bool(values.min() >= 0) and len(np.unique(values)) > 12


def _find_parts(look: _Look, frame: pd.DataFrame) -> None:
    """The columns of how much of a block is rock or ore, and what to do with each."""
    free = frame[[name for name in frame.columns if name not in look.names.values()]]
    for name in map(str, free.columns):
        if is_part(name, free[name]):
            look.parts.append(name)
            most = float(free[name].max())
            look.notes.append(
                f"{name} is from {free[name].min():g} to {most:g}, and no grade by its name: "
                + remedy_of_part(name, most, look.names)
            )


def _regions_in(frame: pd.DataFrame, look: _Look) -> tuple[str, list[str]]:
    """The column that seems to say in which region of slopes a block is, by its name, or since its
    few whole numbers are the same all the way up; and what stands in it. "" where there is none."""
    free = [
        str(name)
        for name in frame.columns
        if name not in look.names.values() and name not in look.grades
    ]
    column = frame.groupby([look.names["x"], look.names["y"]], sort=False).ngroup()
    for name in sorted(free, key=_rank_of_region):
        there = sorted(
            {text_of(value) for value in frame[name].dropna().unique()} - {"", *look.absent}
        )
        if 1 < len(there) <= _MOST_REGIONS and DEFAULT not in there:
            is_named = _rank_of_region(name) < len(REGIONS)
            if is_named or _are_codes(frame[name], there) and _goes_up(frame[name], column):
                return name, there
    return "", []


def _rank_of_region(name: str) -> int:
    """How likely a name is that of a column of regions: the least is the likeliest."""
    letters = unicodedata.normalize("NFKD", name.lower())
    plain = "".join(letter for letter in letters if not unicodedata.combining(letter))
    return next((at for at, part in enumerate(REGIONS) if part in plain), len(REGIONS))


def _are_codes(values: pd.Series, there: Sequence[str]) -> bool:
    """Whether the values of a column are whole numbers, and no mere yes and no."""
    return _are_whole(values) and not set(there) <= {"0", "1"}


def _are_whole(values: pd.Series) -> bool:
    """Whether a column has whole numbers alone."""
    return values.dtype.kind in "iuf" and bool((values.dropna() % 1 == 0).all())


def _goes_up(values: pd.Series, column: pd.Series) -> bool:
    """Whether a value is the same over whole columns of blocks, as a sector of a pit is and no rock
    or class of resources; some columns may change."""
    kinds = values.groupby(column, sort=False).nunique()
    high = column.value_counts(sort=False).reindex(kinds.index) > 1
    return bool(high.any()) and float((kinds[high] <= 1).mean()) >= _MOSTLY


def _airs_among(frame: pd.DataFrame, names: Mapping[str, str], absent: Sequence[str]) -> list[str]:
    """The rocks that weigh nothing, or are called air."""
    rock = frame[names["rock"]].fillna("").str.strip()
    kinds, weighed = rock.unique(), next(
        (names[key] for key in ("tonnes", "density") if key in names), None
    )
    weight = (
        pd.Series(1.0, frame.index)
        if weighed is None
        else pd.to_numeric(
            frame[weighed].mask(frame[weighed].astype(str).isin(list(absent))), errors="coerce"
        ).fillna(0.0)
    )
    heavy = set(rock[weight.to_numpy() > 0])
    return [str(kind) for kind in kinds if kind not in heavy or _AIRS.fullmatch(str(kind))]


def _find_grid(look: _Look, frame: pd.DataFrame, x: Floats, y: Floats, z: Floats) -> None:
    """The size of a block and how the model is turned: as the table's own columns say, else by the
    nearest neighbours."""
    names = look.names
    if all(key in names for key in SIZES):
        lengths = [number_column(frame[names[key]], names[key]) for key in SIZES]
        look.size = (float(lengths[0].max()), float(lengths[1].max()), float(lengths[2].max()))
        is_whole = np.logical_and.reduce([v >= v.max() * (1 - OFF) for v in lengths])
        look.has_sub_blocks = not is_whole.all()
        # centres of sub-blocks are on no grid of whole blocks, and a fit to them is off
        if is_whole.any():
            x, y, z = x[is_whole], y[is_whole], z[is_whole]
    level = z == pd.Series(z).mode().iloc[0]
    near = np.argsort(
        (x[level] - np.median(x[level])) ** 2 + (y[level] - np.median(y[level])) ** 2
    )[:_SAMPLE]
    across, along = _steps(x[level][near], y[level][near])
    height = _least_step(z)
    if across is None or along is None or height is None:
        look.notes.append(
            "the grid couldn't be found: one level, row or column alone"
            if look.size
            else "the size of a block couldn't be found: one level, row or column alone"
        )
        return
    look.rotation = _turned(x, y, across, along)
    u, v = Grid((0, 0, 0), (1, 1, 1), rotation=look.rotation).local(x - x[0], y - y[0])
    if look.size is None:
        look.size = (
            _length_of(u, math.hypot(*across)),
            _length_of(v, math.hypot(*along)),
            _length_of(z, height),
        )
    if look.rotation:
        look.notes.append(
            f"the model seems to be turned by {look.rotation:g} degrees: compare with the package"
        )


def _steps(
    east: Floats, north: Floats
) -> tuple[tuple[float, float] | None, tuple[float, float] | None]:
    """The shortest steps between blocks of a level along the model's x axis (from 45 degrees north
    to 45 south of east) and along its y axis, as (east, north); None where no two blocks are
    neighbours so."""
    de, dn = (v[:, None] - v[None, :] for v in (east, north))
    far = np.hypot(de, dn)
    eastward = (de > 0) & (np.abs(dn) <= de * (1 + 1e-9))
    northward = (dn > 0) & (np.abs(de) < dn * (1 - 1e-9))
    found: list[tuple[float, float] | None] = []
    for way in (eastward, northward):
        if not way.any():
            found.append(None)
            continue
        pick = way & (far <= far[way].min() * 1.01)
        found.append((float(np.median(de[pick])), float(np.median(dn[pick]))))
    return found[0], found[1]


def _turned(x: Floats, y: Floats, across: tuple[float, float], along: tuple[float, float]) -> float:
    """The bearing of the y axis: by a step along the x axis, and then by the rows of the whole
    model, since a table's coordinates are rounded."""
    angle = -math.degrees(math.atan2(across[1], across[0]))
    u, v = Grid((0, 0, 0), (1, 1, 1), rotation=angle).local(x - x[0], y - y[0])
    # numbers of the rows that are there: a cell may be of a place that is very far away
    row = np.unique(np.rint(v / math.hypot(*along)), return_inverse=True)[1]
    count = np.bincount(row)
    du, dv = (w - (np.bincount(row, w) / count)[row] for w in (u, v))
    angle -= math.degrees(float((du * dv).sum() / max((du * du).sum(), 1e-9)))
    return _shortest(angle, math.degrees(_PLACES_OFF / max(float(np.ptp(u)), 1e-9))) + 0.0


def _length_of(values: Floats, step: float) -> float:
    """The length of a block along an axis, by the whole model's extent."""
    span = float(np.ptp(values))
    count = max(round(span / step), 1)
    return _shortest(span / count, _PLACES_OFF / count)


def _shortest(value: float, off: float) -> float:
    """The number with the fewest decimals that is no further away than `off`."""
    return next(
        (found for decimals in range(6) if abs((found := round(value, decimals)) - value) <= off),
        value,
    )


def _least_step(values: Floats) -> float | None:
    """The least distance between two levels."""
    levels = np.unique(np.round(values, 4))
    return float(np.diff(levels).min()) if len(levels) > 1 else None


def written(look: _Look, table: str) -> str:
    """The text of a study.toml for a table; `table` is its path as the text names it."""
    size = ", ".join(f"{v:g}" for v in look.size) if look.size else "20, 20, 10"
    by_rock = ", ".join(f"{key(rock)} = 2.50" for rock in look.rocks[:3]) + (
        ", other = 2.50" if len(look.rocks) > 3 else ""
    )
    text = aligned(
        template().substitute(
            table=_quoted(table),
            columns=", ".join(f"{name} = {_quoted(column)}" for name, column in look.names.items()),
            size=size,
            size_note="" if look.size else "; it couldn't be found: fill it in",
            rotation=f"{look.rotation:g}",
            absent=", ".join(map(_quoted, look.absent)),
            encoding=""
            if look.dialect.encoding == _UTF_8
            else f"\nencoding = {_quoted(look.dialect.encoding)}",
            regularise="true" if look.has_sub_blocks else "false",
            x=_in_formula(look.names["x"]),
            z=_in_formula(look.names["z"]),
            by_rock=f"; by rock: {{ {by_rock} }}" if by_rock else "",
            mill=", ".join(
                map(_quoted, [rock for rock in look.rocks if rock not in look.airs][:2] or ["ORE"])
            ),
            metals=metals(look),
            by=_quoted(look.region or "SECTOR"),
            regions=", ".join(f"{key(name)} = 45" for name in look.regions)
            or "NORTH = 38, SOUTH = [[0, 44], [180, 50]]",
        )
    )
    return text.replace("\n\n[slopes]\n", f"\n{_processes(look)}\n[slopes]\n", 1)


def _processes(look: _Look) -> str:
    """Lines of comment with a mill and a leach, where rocks are called oxide and sulphide."""
    if not look.oxides:
        return ""
    of_metal = tomllib.loads(f"metals = [{metals(look)}]")["metals"][0]["name"]
    named = look.oxides + look.sulphides
    others = [rock for rock in look.rocks if rock not in (*named, *look.airs)]
    listed: tuple[tuple[str, list[str], str, list[str]], ...] = (
        ("mill", named + others if len(look.rocks) < _MOST_ROCKS else [], "9.00", []),
        ("leach", look.oxides, "4.00", [f"recovery = {{ {key(of_metal)} = 0.6 }}"]),
    )
    lines = ["where oxide may go to a leach too, say this in place of processing and mill:"]
    for name, rocks, cost, more in listed:
        lines += ["[[economics.processes]]", f'name = "{name}"']
        # without rocks a process takes all of them, also those that were too many to be named
        lines += [f"rocks = [{', '.join(map(_quoted, rocks))}]"] if rocks else []
        lines += [f"cost = {cost}", *more]
    return "".join(f"# {line}\n" for line in lines)


def metals(look: _Look) -> str:
    """The lines of the metals: those whose columns are known, else one to be filled in."""
    known = [column for column in look.grades if metal_of(column)]
    return "\n".join(map(metal_in, known or look.grades[:1] or [GRADE]))


def metal_in(column: str) -> str:
    """The line of a column's metal, as far as its name tells it."""
    name, grade_unit, price_unit, price = metal_of(column) or ("metal", "%", "t", 8500)
    return metal(
        {
            "name": name,
            "grade": column,
            "grade_unit": unit_of(column) or grade_unit,
            "price": price,
            "price_unit": price_unit,
        }
    )


def named_grades(look: _Look) -> list[str]:
    """The columns whose names say that they hold a grade, by a metal or by a unit."""
    return [name for name in look.grades if metal_of(name) or unit_of(name)]


def unused_grades(look: _Look) -> list[str]:
    """What is said of those that `metals` leaves out: by `init` alone, since a planner may leave
    one out on purpose."""
    used = metals(look)
    left = [name for name in named_grades(look) if f"grade = {_quoted(name)}" not in used]
    return [f"column {name} holds a grade and no metal uses it" for name in left]


def _in_formula(name: str) -> str:
    """A column as a formula within the text names it: column('RL m') where its name is no plain
    word."""
    if name.isidentifier() and not iskeyword(name):
        return name
    return f"column({name!r})".replace('"', '\\"')


def key(word: str) -> str:
    """A word as a key of TOML."""
    return (
        word
        if word and all(c.isascii() and (c.isalnum() or c in "_-") for c in word)
        else _quoted(word)
    )


def _quoted(word: str) -> str:
    """A word as a text of TOML, in one line whatever is in it."""
    return (
        '"'
        + "".join(
            f"\\u{ord(c):04x}" if ord(c) < 32 or ord(c) == 127 else c
            for c in word.replace("\\", "\\\\").replace('"', '\\"')
        )
        + '"'
    )
