"""Outlines for GIS: a GeoPackage with polygons of each pit by bench, and of each pit's rim."""
from __future__ import annotations

import os
import re
import warnings
from collections.abc import Sequence
from typing import TYPE_CHECKING, Any

import numpy as np

from ...base.amounts import THOUSAND
from ...base.arrays import Floats
from ...base.errors import PlanError
from ...base.files import whole_file
from ...model import outlines

if TYPE_CHECKING:
    from ...study.shells import Shells

# What a GeoPackage calls coordinates of no known system. Without a word it would say degrees of
# latitude and longitude.
_UNKNOWN = (
    'LOCAL_CS["Undefined Cartesian'
    ' SRS",UNIT["metre",1],AXIS["Easting",EAST],AXIS["Northing",NORTH]]'
)
_FIELDS = {
    "benches": ("toe", "crest", "blocks", "area", "volume", "rock_t", "ore_t"),
    "rims": ("blocks", "area", "worth"),
}


def write(
    shells: Shells,
    path: str | os.PathLike[str],
    pits: Sequence[int] | None = None,
    crs: str | None = None,
) -> int:
    """Writes two layers of polygons in true coordinates, also of a turned model.

    ``benches`` has a feature for each pit and bench: ``factor`` (a share of the price; of a
    schedule ``year``, at whose end the mine is so), ``toe``, ``crest`` (elevations of the bench's
    faces), ``blocks``, ``area`` (square units of the coordinates), ``volume`` (area times height),
    ``rock_t`` and ``ore_t`` (in place, ore at factor 1; of several processes
    ``process_<name>_ore_t`` too). ``rims`` has the outline of each pit as seen from above:
    ``factor`` or ``year``, ``blocks``, ``area``, ``worth`` (at the full price; of a year's end what
    all so far is worth, undiscounted), and of a pit ``worth_at_factor`` (at its own factor, as `pit`
    states it). A double holds a worth below 9e13 to the cent.

    Parameters
    ----------
    shells : Shells
    path : str or path
    pits : sequence of int, optional
        Indices into ``shells.factors``. Default: all.
    crs : str, optional
        The coordinate system by its register and number, as ``"EPSG:32719"``. Default: none.

    Returns
    -------
    int
        How many features were written.

    Raises
    ------
    PlanError
        Where no coordinate system has that name, or it is one of degrees.
    OSError
        Where the file can't be written. What was there stays then.
    """
    import geopandas

    system = system_of(crs)
    chosen = list(range(len(shells.factors))) if pits is None else list(pits)
    benches, rims = features(shells, chosen)
    more = {"benches": _of_processes(shells), "rims": _of_factor(shells)}
    fields = {layer: (*names, *more[layer]) for layer, names in _FIELDS.items()}
    with whole_file(path) as part:
        for layer, rows in (("benches", benches), ("rims", rims)):
            frame = geopandas.GeoDataFrame(
                {name: [row[name] for row in rows] for name in (shells.by, *fields[layer])},
                geometry=[row["geometry"] for row in rows],
                crs=system,
            )
            with warnings.catch_warnings():
                warnings.simplefilter("ignore")  # of layers without features: no pit has a block
                frame.to_file(part, layer=layer, driver="GPKG", index=False)
    return len(benches) + len(rims)


def _of_processes(shells: Shells) -> list[str]:
    """The fields of ore by process, where there are several."""
    return [f"process_{name}_ore_t" for name in shells.priced.process_names]


def _of_factor(shells: Shells) -> list[str]:
    """The field of a worth at each pit's own factor, where there are pits by factor."""
    return ["worth_at_factor"] if shells.by == "factor" else []


def system_of(crs: str | None) -> Any:
    """The coordinate system of a name. Raises PlanError where none of that name is known, or it is
    in degrees."""
    import pyproj

    if crs is None:
        return pyproj.CRS.from_wkt(_UNKNOWN)
    try:
        # a name would be taken for the system whose name is most like it
        if not re.fullmatch(r"[A-Za-z]+:\w+", crs):
            raise pyproj.exceptions.CRSError(crs)
        found = pyproj.CRS.from_user_input(crs)
    except pyproj.exceptions.CRSError:
        raise PlanError(
            f"--crs {crs!r} is no coordinate system that is known",
            try_this="a number of EPSG, as EPSG:32719",
        ) from None
    if found.is_geographic:
        raise PlanError(
            f"--crs {crs!r} is in degrees, and the model's coordinates are lengths",
            try_this="the grid of the mine's zone, as EPSG:32719",
        )
    return found


def features(
    shells: Shells, chosen: Sequence[int]
) -> tuple[list[dict[str, Any]], list[dict[str, Any]]]:
    """The features of the two layers."""
    model, priced = shells.study.model, shells.priced
    grid, count = model.grid, len(shells.factors)
    cube = outlines.cube_of(model, shells.dug, count)
    tonnes = model.blocks.tonnes.to_numpy(float)
    cell = model.blocks.iz.to_numpy().astype(np.int64) * (count + 1) + shells.shell

    def summed(weight: Floats) -> Floats:
        each = np.bincount(cell, weight, grid.shape[2] * (count + 1)).reshape(-1, count + 1)
        found: Floats = each.cumsum(axis=1)
        return found

    rock, ore_in_place = summed(tonnes), priced.ore_of(tonnes, THOUSAND)
    ore, goes = summed(ore_in_place), priced.goes(THOUSAND)
    by_process = {
        field: summed(ore_in_place * goes[name])
        for field, name in zip(_of_processes(shells), priced.process_names)
    }
    benches, rims = [], []
    for i in chosen:
        mark, held = shells.mark(i), cube <= i
        for level, shape in shells.outlines(i):
            toe, crest = grid.world(0, 0, [level - 0.5, level + 0.5])[2].tolist()
            area = float(shape.area) * grid.size[0] * grid.size[1]
            benches.append(
                {
                    shells.by: mark,
                    "toe": toe,
                    "crest": crest,
                    "blocks": int(held[:, :, level].sum()),
                    "area": area,
                    "volume": area * grid.size[2],
                    "rock_t": float(rock[level, i]),
                    "ore_t": float(ore[level, i]),
                    **{name: float(each[level, i]) for name, each in by_process.items()},
                    "geometry": outlines.placed(shape, grid),
                }
            )
        rim = outlines.footprint(held)
        if not rim.is_empty:
            rims.append(
                {
                    shells.by: mark,
                    "blocks": int(held.sum()),
                    "area": float(rim.area) * grid.size[0] * grid.size[1],
                    "worth": float(priced.worth_of(shells.holds(i), THOUSAND)),
                    **{name: float(shells.worth(i)) for name in _of_factor(shells)},
                    "geometry": outlines.placed(rim, grid),
                }
            )
    return benches, rims
