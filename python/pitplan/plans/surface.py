"""A surface of triangles, as designed pits come from CAD, and its height over the columns of a
model."""
from __future__ import annotations

import re
from collections.abc import Iterator, Sequence
from dataclasses import dataclass
from pathlib import Path
from typing import Any

import numpy as np

from ..base.arrays import Floats, Ints
from ..base.errors import PlanError
from ..base.near_words import meant
from ..base.within import refuse_outside
from ..model.grid import Grid

AT_ONCE = 4_000_000  # columns under triangles that are looked at in one go
_SLACK = 1e-9
MOST_ENTITIES = 1_000_000  # faces and other entities that the blocks of a DXF may bring
_DEEPEST = 32  # blocks that a block may stand in
_OUTLINE_LAYER = re.compile(r"(SHELL|PUSHBACK|YEAR)_\d+_(TOE|CREST)")  # layers of views.export.dxf
_FAR = 1e12  # how far from 0 a corner may be
# what ezdxf raises of a file that breaks off or is none
_BROKEN = (
    ArithmeticError,
    AttributeError,
    LookupError,
    RuntimeError,
    StopIteration,
    TypeError,
    ValueError,
)


@dataclass(frozen=True)
class Surface:
    """Triangles over points.

    Attributes
    ----------
    points : float array of shape (points, 3)
        East, north, elevation.
    triangles : int array of shape (triangles, 3)
        Indices into `points`.
    """

    points: Floats
    triangles: Ints


def of_points(points: Floats, table: object) -> Surface:
    """Points joined to triangles in plan (`scipy.spatial.Delaunay`); of points over one another the
    lowest counts.

    Raises PlanError where no three of them span a triangle.
    """
    from scipy.spatial import Delaunay, QhullError

    points = _near(points, table)
    lowest = points[np.lexsort((points[:, 2], points[:, 1], points[:, 0]))]
    first = np.ones(len(lowest), bool)
    first[1:] = (lowest[1:, :2] != lowest[:-1, :2]).any(axis=1)
    kept = lowest[first]
    try:
        return Surface(
            kept, Delaunay(kept[:, :2] - kept[:, :2].mean(axis=0)).simplices.astype(np.int64)
        )
    except (QhullError, ValueError):
        raise PlanError(f"{len(kept):,} points don't span a surface", table=table) from None


def of_dxf(path: Path, layers: Sequence[str] = ()) -> Surface:
    """The 3D faces, meshes and polyface meshes of a DXF, also within blocks.

    Raises
    ------
    PlanError
        Where it can't be read, has no such layer, or no faces there: with what it has instead;
        where its blocks never end, or a corner is no place.
    """
    from ezdxf.lldxf.const import DXFError

    there, kinds, faces = set[str](), set[str](), list[list[Any]]()
    entities = _Entities(path)
    try:
        for entity, is_within in entities.of(_document(path).modelspace()):
            there.add(str(entity.dxf.layer))
            if not layers or entity.dxf.layer in layers:
                kinds.add(entity.dxftype())
                found = list(_faces_of(entity))
                entities.take(len(found) if is_within else 0)
                faces += found
    except (DXFError, *_BROKEN) as error:
        raise PlanError(
            f"can't be read as DXF: {str(error) or 'it breaks off'}", table=path
        ) from None
    for layer in layers:
        if layer not in there:
            raise PlanError(f"has no layer {layer!r}{meant(layer, sorted(there))}", table=path)
    if not faces and there and all(map(_OUTLINE_LAYER.fullmatch, there)):
        raise PlanError(
            "has no faces: it has the outlines of pits, pushbacks or years that pitplan export"
            " wrote",
            table=path,
            try_this="the surface of a designed pit, as 3D faces",
        )
    if not faces:
        raise PlanError(
            "has no faces" + (", but " + ", ".join(sorted(kinds)) if kinds else ""),
            table=path,
            try_this="triangulate it in the CAD package, or give its points as CSV (x, y, z)",
        )
    fans = [(face[0], face[i], face[i + 1]) for face in faces for i in range(1, len(face) - 1)]
    points, corner = np.unique(
        _near(np.array(fans, float).reshape(-1, 3), path), axis=0, return_inverse=True
    )
    return Surface(points, corner.reshape(-1, 3).astype(np.int64))


def _near(points: Floats, path: object) -> Floats:
    """Points, refused where one is no place or further off than `_FAR`."""
    wrong = ~(np.abs(points) <= _FAR).all(axis=1)
    if wrong.any():
        x, y, z = points[int(np.argmax(wrong))]
        raise PlanError(
            f"{int(wrong.sum()):,} corners are no places, the first is ({x:g}, {y:g}, {z:g})",
            table=path,
            try_this="take these faces out in the CAD package, or name the --layer of the design",
        )
    return points


class _Entities:
    """The simple entities of a DXF, also within blocks, as `ezdxf.disassemble` finds them. What
    blocks bring has a bound, since a few lines of blocks within blocks stand for any number of
    faces.

    Parameters
    ----------
    path : Path
        Of the DXF.
    """

    def __init__(self, path: Path) -> None:
        self.path, self.left = path, MOST_ENTITIES

    def take(self, count: int) -> None:
        """Counts what blocks bring. Raises PlanError where it is more than `MOST_ENTITIES`."""
        self.left -= count
        if self.left < 0:
            raise PlanError(
                f"its blocks bring more than {MOST_ENTITIES:,} faces and other entities",
                table=self.path,
                try_this=(
                    "explode the blocks of the design in the CAD package, and leave the others out"
                ),
            )

    def of(self, entities: Any, around: tuple[str, ...] = ()) -> Iterator[tuple[Any, bool]]:
        """The simple entities of some entities, and whether each is of a block; `around` are the
        blocks that these stand in. Raises PlanError where a block holds itself, or stands in
        `_DEEPEST` others."""
        from ezdxf.entities.insert import Insert
        from ezdxf.protocols import SupportsVirtualEntities, virtual_entities

        for entity in entities:
            kind = entity.dxftype()
            self.take(1 if around else 0)
            if isinstance(entity, Insert) and entity.mcount > 1:
                many = entity.dxf.row_count * entity.dxf.column_count
                # before they are gone through one by one
                self.take(many if many > self.left else 0)
                yield from self.of(entity.multi_insert(), around)
            elif isinstance(entity, Insert):
                yield from ((attribute, True) for attribute in entity.attribs)
                yield from self.of(
                    virtual_entities(entity), self.deeper(around, str(entity.dxf.name))
                )
            elif isinstance(
                entity, SupportsVirtualEntities
            ):  # a dimension has a block without a name; a polyline has its own faces alone
                yield from self.of(
                    virtual_entities(entity),
                    around if kind == "POLYLINE" else self.deeper(around, ""),
                )
            else:
                yield entity, bool(around)

    def deeper(self, around: tuple[str, ...], name: str) -> tuple[str, ...]:
        """The blocks that a block's own entities stand in. Raises PlanError where a block holds
        itself, or is nested too deep."""
        if name and name in around or len(around) >= _DEEPEST:
            raise PlanError(
                (
                    f"the block {name!r} holds itself"
                    if name in around
                    else f"blocks stand in each other more than {_DEEPEST} deep"
                ),
                table=self.path,
                try_this="mend it in the CAD package, or explode the blocks of the design there",
            )
        return (*around, name)


def _document(path: Path) -> Any:
    """A DXF, mended where that is possible."""
    from ezdxf import recover
    from ezdxf.filemanagement import readfile
    from ezdxf.lldxf.const import DXFError, DXFStructureError

    refuse_outside(path)
    try:
        try:
            return readfile(path)
        except DXFStructureError:
            return recover.readfile(path)[0]
    except FileNotFoundError:
        raise PlanError("there is no such file", table=path) from None
    except (OSError, DXFError, UnicodeDecodeError) as error:
        raise PlanError(f"can't be read as DXF: {error}", table=path) from None


def _faces_of(entity: Any) -> Iterator[list[Any]]:
    """The faces of an entity of a DXF, each as its corners."""
    from ezdxf.render.mesh import MeshBuilder

    kind = entity.dxftype()
    if kind == "3DFACE":
        yield [tuple(corner) for corner in entity.wcs_vertices()]
        return
    if kind == "MESH":
        mesh = MeshBuilder.from_mesh(entity)
    elif kind == "POLYLINE" and (entity.is_poly_face_mesh or entity.is_polygon_mesh):
        mesh = MeshBuilder.from_polyface(entity)
    else:
        return
    for face in mesh.faces_as_vertices():
        yield [tuple(corner) for corner in face]


def heights(surface: Surface, grid: Grid) -> tuple[Floats, Floats]:
    """The least and the greatest elevation of a surface at the centre of each column of a grid.

    Returns
    -------
    two float arrays of shape (nx, ny)
        Not a number where no triangle is. Triangles that stand upright cover nothing.
    """
    u, v = grid.local(surface.points[:, 0] - grid.origin[0], surface.points[:, 1] - grid.origin[1])
    plan = np.column_stack([u / grid.size[0], v / grid.size[1]])[surface.triangles]
    z = surface.points[:, 2][surface.triangles]
    twice = _cross(plan[:, 1] - plan[:, 0], plan[:, 2] - plan[:, 0])
    flat = np.abs(twice) > _SLACK
    plan, z, twice = plan[flat], z[flat], twice[flat]
    least = np.maximum(np.ceil(plan.min(axis=1) - _SLACK), 0).astype(np.int64)
    most = np.minimum(np.floor(plan.max(axis=1) + _SLACK), np.array(grid.shape[:2]) - 1).astype(
        np.int64
    )
    spans = np.maximum(most - least + 1, 0)
    low, high = np.full(grid.shape[:2], np.nan), np.full(grid.shape[:2], np.nan)
    for some in _pieces(spans.prod(axis=1)):
        i, j, which = _columns_under(least[some], spans[some])
        weight = _weights(plan[some][which], twice[some][which], np.column_stack([i, j]))
        inside = (weight >= -_SLACK).all(axis=1)
        at = (weight * z[some][which]).sum(axis=1)[inside]
        np.fmin.at(low, (i[inside], j[inside]), at)
        np.fmax.at(high, (i[inside], j[inside]), at)
    return low, high


def _pieces(counts: Ints) -> Iterator[slice]:
    """Slices of the triangles with about `AT_ONCE` columns each."""
    ends, start = counts.cumsum(), 0
    while start < len(counts):
        before = int(ends[start - 1]) if start else 0
        end = max(int(np.searchsorted(ends, before + AT_ONCE, side="right")), start + 1)
        yield slice(start, end)
        start = end


def _columns_under(least: Ints, spans: Ints) -> tuple[Ints, Ints, Ints]:
    """The columns in the box around each triangle: i, j, and the triangle."""
    counts = spans.prod(axis=1)
    which = np.repeat(np.arange(len(counts)), counts)
    at = np.arange(len(which)) - np.repeat(counts.cumsum() - counts, counts)
    return least[which, 0] + at // spans[which, 1], least[which, 1] + at % spans[which, 1], which


def _weights(plan: Floats, twice: Floats, at: Ints) -> Floats:
    """Barycentric weights of places in triangles, of shape (places, 3)."""
    a, b, c = (plan[:, k] - at for k in range(3))
    found: Floats = np.column_stack([_cross(b, c), _cross(c, a), _cross(a, b)]) / twice[:, None]
    return found


def _cross(p: Floats, q: Floats) -> Floats:
    """The cross product of vectors in the plane."""
    found: Floats = p[..., 0] * q[..., 1] - p[..., 1] * q[..., 0]
    return found
