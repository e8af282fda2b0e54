"""The regular grid that a block model lies on."""
from __future__ import annotations

import math
from dataclasses import dataclass
from typing import Any

import numpy as np

from ..base.arrays import Floats


@dataclass(frozen=True)
class Grid:
    """Where index (0, 0, 0) is, how large a block is, and how the axes are turned.

    Parameters
    ----------
    origin : tuple of 3 floats
        The centre of index (0, 0, 0): east, north, elevation, in the unit of the table's
        coordinates.
    size : tuple of 3 floats
        Of a block along the model's own axes.
    shape : tuple of 3 ints
        How many indices each axis has.
    rotation : float
        The bearing of the model's y axis, in degrees clockwise from north.
    """

    origin: tuple[float, float, float]
    size: tuple[float, float, float]
    shape: tuple[int, int, int] = (0, 0, 0)
    rotation: float = 0.0

    def local(self, east: Any, north: Any) -> tuple[Floats, Floats]:
        """Turns offsets east and north into offsets along the model's x and y axes, of the same
        shape and unit."""
        a = math.radians(self.rotation)
        east, north = np.asarray(east, float), np.asarray(north, float)
        return east * math.cos(a) - north * math.sin(a), east * math.sin(a) + north * math.cos(a)

    def world(self, ix: Any, iy: Any, iz: Any) -> tuple[Floats, Floats, Floats]:
        """East, north and elevation of places given by index, which may be fractional: ix - 0.5 is
        a block's side.

        Parameters
        ----------
        ix, iy, iz : array_like
            Of one shape, or shapes that NumPy broadcasts.
        """
        a = math.radians(self.rotation)
        u, v = np.asarray(ix, float) * self.size[0], np.asarray(iy, float) * self.size[1]
        return (
            np.asarray(self.origin[0] + u * math.cos(a) + v * math.sin(a)),
            np.asarray(self.origin[1] - u * math.sin(a) + v * math.cos(a)),
            np.asarray(self.origin[2] + np.asarray(iz, float) * self.size[2]),
        )

    @property
    def volume(self) -> float:
        """Of a block, in the unit of the coordinates, cubed."""
        return self.size[0] * self.size[1] * self.size[2]
