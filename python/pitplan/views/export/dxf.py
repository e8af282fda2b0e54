"""Outlines for CAD: DXF with a closed polyline for each outline and hole, toe and crest of each
bench."""
from __future__ import annotations

import os
from array import array
from collections.abc import Sequence
from pathlib import Path
from typing import TYPE_CHECKING, Any

import numpy as np

from ...base.files import whole_file
from ...model import outlines

if TYPE_CHECKING:
    from ...study.shells import Shells

_APP = "PITPLAN"  # of the extended data of each polyline
_METRES = 6  # of $INSUNITS
# of AutoCAD's index: red, orange, yellow, green, cyan, blue, magenta
_COLOURS = (
    1,
    30,
    2,
    3,
    4,
    5,
    6,
)


def _layer_of(shells: Shells, i: int, edge: str) -> str:
    """The layer of a pit's toes or crests, as SHELL_0850_TOE or PUSHBACK_0850_TOE; YEAR_0003_TOE
    of the third year's end."""
    return f"{shells.called.upper()}_{shells.factors[i]:04d}_{edge}"


def write(
    shells: Shells,
    path: str | os.PathLike[str],
    pits: Sequence[int] | None = None,
    cuts_corners: bool = False,
) -> int:
    """Writes the outlines of pits, bench by bench.

    Each bench of a pit has its outline twice: in layer ``SHELL_<factor>_TOE`` at the elevation of
    the bench's lower face, and in ``SHELL_<factor>_CREST`` at that of its upper face. A hole, where
    rock stands within the pit, is a closed polyline of its own. Each polyline's extended data under
    ``PITPLAN`` has the factor or the year, the elevation of the bench's centre, and ``outline`` or
    ``hole``.

    Parameters
    ----------
    shells : Shells
    path : str or path
        DXF of AutoCAD 2010.
    pits : sequence of int, optional
        Indices into ``shells.factors``. Default: all.
    cuts_corners : bool
        Whether corners are cut by half a block, so that a staircase becomes a straight line. Areas
        are then about those of the blocks, and not the same.

    Returns
    -------
    int
        How many polylines were written.

    Raises
    ------
    OSError
        Where the file can't be written. What was there stays then.
    """
    from ezdxf.filemanagement import new

    doc = new("R2010")
    doc.units = _METRES
    doc.appids.new(_APP)
    count = 0
    for i in range(len(shells.factors)) if pits is None else pits:
        for edge in ("TOE", "CREST"):
            doc.layers.add(_layer_of(shells, i, edge), color=_COLOURS[i % len(_COLOURS)])
        for level, shape in shells.outlines(i):
            count += draw(
                doc.modelspace(), shells, i, level, outlines.cut(shape) if cuts_corners else shape
            )
    with whole_file(path) as part:
        doc.saveas(Path(part))
    return count


def draw(space: Any, shells: Shells, i: int, level: int, shape: Any) -> int:
    """Draws the toe and the crest of pit i on a level; gives how many polylines they are."""
    grid = shells.study.model.grid
    _, _, heights = grid.world(0, 0, [level - 0.5, level, level + 0.5])
    toe, centre, crest = heights.tolist()
    count = 0
    for points, is_hole in outlines.rings(shape):
        east, north, _ = grid.world(points[:, 0], points[:, 1], 0)
        values = np.zeros((len(points), 5))  # as ezdxf keeps them: x, y, two widths, bulge
        values[:, 0], values[:, 1] = np.round(east, 6), np.round(north, 6)
        for edge, height in (("TOE", toe), ("CREST", crest)):
            line = space.add_lwpolyline(
                [],
                close=True,
                dxfattribs={"layer": _layer_of(shells, i, edge), "elevation": height},
            )
            line.lwpoints.values = array("d", values.tobytes())
            line.set_xdata(
                _APP,
                [
                    (1040, float(shells.mark(i))),
                    (1040, centre),
                    (1000, "hole" if is_hole else "outline"),
                ],
            )
            count += 1
    return count
