"""Which column of a table is which: the names that planning packages give to columns in their
exports."""
from __future__ import annotations

import difflib
import re
from collections.abc import Callable, Mapping, Sequence

from ..base.errors import Gathered, PlanError, toml_spelled
from ..base.near_words import meant, swap_of

AIR = "air"  # the rock of a place within the model that the planner calls air

# In lower case; the first of a list that a table has is taken. Datamine: IJK XC YC ZC XINC YINC
# ZINC DENSITY ROCK. Vulcan: centroid_x dim_x. Surpac: x y z with x_size or dim_x. Micromine: EAST
# NORTH RL with _EAST _NORTH _RL for the sizes. MineSight: EAST NORTH ELEV (or ELEVATION) and ROCK,
# with TONS. Then the words of tables in Spanish, Portuguese and French. Whoever finds his package's
# name missing adds it here, or names the column in study.toml.
USUAL: dict[str, tuple[str, ...]] = {
    "id": (
        "id",
        "blockid",
        "block_id",
        "block id",
        "ijk",
        "block",
        "index",
        "blockno",
        "block_no",
        "bid",
        "bloque",
        "bloco",
        "bloc",
        "codigo",
        "código",
    ),
    "x": (
        "x",
        "xc",
        "centroid_x",
        "xcentre",
        "xcenter",
        "x_centre",
        "x_center",
        "centre_x",
        "center_x",
        "mid_x",
        "xmid",
        "east",
        "easting",
        "e",
        "xworld",
        "x_world",
        "xpt",
        "xm",
        "este",
        "leste",
        "est",
        "x_centro",
        "xcentro",
        "centro_x",
        "x_centroide",
        "centroide_x",
        "eastings",
        "east_m",
        "easting_m",
        "ew",
        "e_w",
        "e-w",
        "e/w",
        "eastwest",
        "east_west",
        "east-west",
        "east west",
        "utm_e",
        "utm_east",
        "utm_easting",
        "utm_x",
        "x_utm",
        "x_m",
        "x_coord",
        "xcoord",
        "coord_x",
    ),
    "y": (
        "y",
        "yc",
        "centroid_y",
        "ycentre",
        "ycenter",
        "y_centre",
        "y_center",
        "centre_y",
        "center_y",
        "mid_y",
        "ymid",
        "north",
        "northing",
        "n",
        "yworld",
        "y_world",
        "ypt",
        "ym",
        "norte",
        "nord",
        "y_centro",
        "ycentro",
        "centro_y",
        "y_centroide",
        "centroide_y",
        "northings",
        "north_m",
        "northing_m",
        "ns",
        "n_s",
        "n-s",
        "n/s",
        "northsouth",
        "north_south",
        "north-south",
        "north south",
        "utm_n",
        "utm_north",
        "utm_northing",
        "utm_y",
        "y_utm",
        "y_m",
        "y_coord",
        "ycoord",
        "coord_y",
    ),
    "z": (
        "z",
        "zc",
        "centroid_z",
        "zcentre",
        "zcenter",
        "z_centre",
        "z_center",
        "centre_z",
        "center_z",
        "mid_z",
        "zmid",
        "rl",
        "elev",
        "elevation",
        "level",
        "zworld",
        "z_world",
        "zpt",
        "zm",
        "cota",
        "elevacion",
        "elevacao",
        "cote",
        "z_centro",
        "zcentro",
        "centro_z",
        "z_centroide",
        "centroide_z",
        "rl_m",
        "elev_m",
        "elevation_m",
        "altitude",
        "z_utm",
        "z_m",
        "z_coord",
        "zcoord",
        "coord_z",
    ),
    "dx": (
        "xinc",
        "dim_x",
        "_east",
        "dx",
        "xlen",
        "xlength",
        "x_length",
        "size_x",
        "xsize",
        "x_size",
        "_x",
    ),
    "dy": (
        "yinc",
        "dim_y",
        "_north",
        "dy",
        "ylen",
        "ylength",
        "y_length",
        "size_y",
        "ysize",
        "y_size",
        "_y",
    ),
    "dz": (
        "zinc",
        "dim_z",
        "_rl",
        "dz",
        "zlen",
        "zlength",
        "z_length",
        "size_z",
        "zsize",
        "z_size",
        "_z",
    ),
    "tonnes": ("tonnes", "tonnage", "tons", "tonne", "ton", "mass", "toneladas", "tonelaje"),
    "density": (
        "density",
        "sg",
        "bd",
        "dens",
        "specific_gravity",
        "bulk_density",
        "insitu_density",
        "rho",
        "densidad",
        "densidade",
        "densite",
    ),
    "rock": (
        "rock",
        "rocktype",
        "rock_type",
        "rock type",
        "lith",
        "lithology",
        "material",
        "mat",
        "domain",
        "zone",
        "rtype",
        "lito",
        "litologia",
        "litología",
        "roca",
        "rocha",
        "roche",
        "zona",
    ),
    "class": (
        "rescat",
        "res_cat",
        "resclass",
        "res_class",
        "resource_class",
        "classification",
        "class",
        "category",
        "clase",
        "clasificacion",
        "clasificación",
        "categoria",
        "categoría",
        "classe",
        "classificacao",
        "classificação",
    ),
    "topography": (),  # a planner has to say that a column is that: the percent of a block that is rock
    "ore": (),  # likewise: the percent of its tonnes that has the grades, and may go to the mill
}
MOST_CLASSES = (
    12  # of resources: a column with more words says something else, unless the planner names it
)
# Parts of names of columns that say in which region of slopes a block is, the likeliest first,
# without accents.
REGIONS = (
    "sector",
    "setor",
    "secteur",
    "geotec",
    "gtdom",
    "gt_dom",
    "slope",
    "talud",
    "wall",
    "pared",
    "region",
    "regiao",
    "dominio",
    "domain",
    "zona",
    "zone",
)
PLACES = ("x", "y", "z")
SIZES = ("dx", "dy", "dz")
_NUMBER = re.compile(r"[+-]?\d*[.,]?\d+")  # that no column is called
_ALIKE = 0.6  # from 0 to 1: names that are less alike aren't offered


def which_columns(
    header: Sequence[str],
    given: Mapping[str, str],
    table: str,
    typed: Callable[[dict[str, str]], str] | None = None,
    numbers: Callable[[], Mapping[str, bool]] | None = None,
) -> dict[str, str]:
    """The table's own name for each of `USUAL`, where it has one.

    Parameters
    ----------
    header : sequence of str
        The names in the header line.
    given : mapping
        What the planner says; it counts before the usual names.
    typed : callable, optional
        How to name columns of x, y or z, where it isn't by study.toml: gets the nearest of the
        table's names for each that is missing.
    numbers : callable, optional
        What `nearest` asks for: which names may be offered. Default: all.

    Raises
    ------
    PlanError
        Where a name that was given isn't in the header, where a key is none of `USUAL`, where no
        column is known as x, y or z, or where the header line is none.
    """
    wrong = Gathered()
    for key, name in given.items():
        with wrong.part("model", "columns", key):
            if key not in USUAL:
                raise PlanError(f"[model] columns has no key {key!r}{meant(key, USUAL)}")
            if name not in header:
                raise PlanError(
                    f"there is no column {name!r} for {key}{meant(name, header)}",
                    table=table,
                ).with_swap(swap_of(name, header))
            twice = [axis for axis in PLACES if key in PLACES and given.get(axis) == name]
            if len(twice) > 1:
                raise PlanError(
                    f"column {name!r} is named for {' and '.join(twice)}",
                    table=table,
                    try_this="a column of its own for each of x, y and z",
                )
    wrong.tell()
    found = columns_found(header, given)
    missing = [key for key in PLACES if key not in found]
    if missing:
        if len(header) < len(PLACES) or any(_NUMBER.fullmatch(name) for name in header):
            raise PlanError(
                (
                    "the first line isn't the header line, or has another separator than a comma,"
                    f" a semicolon or a tab: {', '.join(header)}"
                ),
                table=table,
                try_this="a first line with a name for each column, and no line above it",
            )
        may_be = numbers() if numbers else dict.fromkeys(header, True)
        near = nearest(missing, {n: may_be[n] for n in may_be if n not in found.values()})
        raise PlanError(
            f"no column is known as {', '.join(missing)}; the header line has {', '.join(header)}",
            table=table,
            try_this=(typed(near) if typed else columns_with(found, **near)),
        ).with_more(f"looked for {key} as {known_as(key)}, in capitals or not" for key in missing)
    return found


def known_as(*keys: str) -> str:
    """The usual names of columns, in the order in which they are looked for.

    >>> known_as("dx", "dy")[:34], known_as("ore")
    ('xinc, dim_x, _east, dx, xlen, xlen', '')
    """
    return ", ".join(name for key in keys for name in USUAL[key])


def columns_with(known: Mapping[str, str], **more: str) -> str:
    """What to write into study.toml where further columns have to be named: the whole table, as it
    comes in place of the one that stands there.

    Parameters
    ----------
    known : mapping
        The names of the columns that are known, by their keys; of other keys nothing is written.

    >>> columns_with({"x": "XC", "y": "YC", "ix": "ix"}, tonnes="...")
    'columns = { x = "XC", y = "YC", tonnes = "..." } in [model]'
    """
    kept = {key: name for key, name in known.items() if key in USUAL}
    return f"columns = {toml_spelled({**kept, **more})} in [model]"


def columns_found(header: Sequence[str], given: Mapping[str, str]) -> dict[str, str]:
    """As `which_columns`, of those that are there, and nothing is refused."""
    found = {key: name for key, name in given.items() if key in USUAL and name in header}
    lower = {name.lower(): name for name in header}
    for key, usual in USUAL.items():
        hits = [
            lower[name] for name in usual if name in lower and lower[name] not in found.values()
        ]
        if key not in found and hits:
            found[key] = hits[0]
    return found


def with_few_classes(
    names: Mapping[str, str], given: Mapping[str, str], count_of: Callable[[str], int]
) -> dict[str, str]:
    """The columns without that of classes, where it has a usual name alone and more words than
    classes have; `count_of` counts those of a column."""
    usual = names.get("class") if "class" not in given else None
    return {
        key: name
        for key, name in names.items()
        if key != "class" or usual is None or count_of(usual) <= MOST_CLASSES
    }


def misnamed(columns: Mapping[str, str]) -> dict[str, str]:
    """For each of x, y and z whose column has a usual name of another axis, that axis.

    >>> misnamed({"x": "YC", "y": "XC", "z": "RL"})
    {'x': 'y', 'y': 'x'}
    """
    found = {}
    for key in PLACES:
        name = columns[key].lower()
        usual = next((other for other in PLACES if name in USUAL[other]), key)
        if usual != key:
            found[key] = usual
    return found


def said_of_misnamed(columns: Mapping[str, str], wrong: Mapping[str, str]) -> tuple[str, str]:
    """What is read from columns with a usual name of another axis, and what they usually are."""
    return (
        ", ".join(f"{key} is read from {columns[key]}" for key in wrong),
        ", ".join(f"{columns[key]} is a usual name of {axis}" for key, axis in wrong.items()),
    )


def nearest(missing: Sequence[str], names: Mapping[str, bool]) -> dict[str, str]:
    """For each of x, y and z the name that looks most like one of its usual names, each name once;
    two points where none does. `names` are those of columns of numbers, each with whether these are
    spaced as a grid: a column that isn't is offered only by a usual name as a word of its own.

    >>> nearest(["x", "y"], {"LENGTH": False, "Y_LOCAL": True, "X_LOCAL": False})
    {'x': 'X_LOCAL', 'y': 'Y_LOCAL'}
    >>> nearest(["y", "z"], {"NSR": True, "R": True, "NORDWERT": True})
    {'y': 'NORDWERT', 'z': '..'}
    >>> nearest(["y", "z"], {"Centroid Elev (ft)": False, "Centroid North (ft)": False})
    {'y': 'Centroid North (ft)', 'z': 'Centroid Elev (ft)'}
    """
    found: dict[str, str] = {}
    for key in missing:
        free = [
            (_alike(key, name, is_grid), name)
            for name, is_grid in names.items()
            if name not in found.values()
        ]
        best = max(free, default=(0.0, ""), key=lambda of: of[0])
        found[key] = best[1] if best[0] >= _ALIKE else ".."
    return found


def _alike(key: str, name: str, is_grid: bool) -> float:
    """How much a name looks like the usual names of a key, from 0 to 1; a usual name of x, y or z as
    a word of its own makes it one of that axis, and else its column has to be spaced as a grid."""
    word = name.lower()
    words = set(re.split(r"[^a-z0-9]+", word))
    axes = [axis for axis in PLACES if words & set(USUAL[axis])]
    if axes or not is_grid:
        return 1.0 if key in axes else 0.0
    # of two letters or one nothing is like another: NSR isn't like NS; nor is a name without x
    # like one that says x by that letter alone: MERID isn't like mid_x
    telling = [
        usual
        for usual in USUAL[key]
        if (axis := set(usual) & set(PLACES)) <= set(word)
        and (axis or sum(map(str.isalpha, usual)) > 2)
    ]
    return max(
        (difflib.SequenceMatcher(None, usual, word).ratio() for usual in telling), default=0.0
    )
