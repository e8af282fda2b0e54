"""Widths of a set of cells by trying every circle and every square."""
import itertools
import math

import numpy as np

from pitplan.plans.widths import STEPS


def plain(plane, size):
    """The width at each cell by a plain search: every circle around a centre, side or corner of a
    cell and every rectangle of whole cells, as wide as fits, on a ladder of half blocks."""
    sx, sy = size
    (nx, ny), step, found = plane.shape, min(size) / STEPS, np.zeros(plane.shape)
    for (i, j), (m, n) in itertools.product(
        itertools.product(range(nx), range(ny)),
        itertools.product(range(1, nx + 1), range(1, ny + 1)),
    ):
        if i + m <= nx and j + n <= ny and plane[i : i + m, j : j + n].all():
            side = math.floor(min(m * sx, n * sy) / 2 / step + 1e-9) * 2 * step
            found[i : i + m, j : j + n] = np.maximum(found[i : i + m, j : j + n], side)
    points = list(itertools.product(range(2 * nx + 1), range(2 * ny + 1)))

    def is_inside(a, b):
        return all(
            0 <= i < nx and 0 <= j < ny and plane[i, j]
            for i in {(a - 1) // 2, a // 2}
            for j in {(b - 1) // 2, b // 2}
        )

    outside = np.array([(a * sx / 2, b * sy / 2) for a, b in points if not is_inside(a, b)])
    for a, b in points:
        if is_inside(a, b):
            x, y = a * sx / 2, b * sy / 2
            room = math.floor(np.sqrt(((outside - (x, y)) ** 2).sum(axis=1)).min() / step + 1e-9)
            for i, j in np.argwhere(plane):
                away = math.hypot((i + 0.5) * sx - x, (j + 0.5) * sy - y)
                fits = [
                    2 * k * step
                    for k in range(1, room + 1)
                    if away <= k * step + min(size) / 4 + 1e-9
                ]
                found[i, j] = max([found[i, j], *fits])
    return found
