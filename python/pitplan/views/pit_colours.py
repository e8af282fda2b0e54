"""Where on a scale of colours the pits of a series lie: spaced by the tonnes that each adds, and
not by their factors alone.

Where half of all rock comes with one factor, colours that are spaced by factors leave it and its
neighbours one shade.
"""
from __future__ import annotations

from collections.abc import Sequence

import numpy as np

_EVEN = 0.25  # of the scale, shared out evenly: a pit that adds next to nothing has a shade of its own too


def tones(tonnes: Sequence[float]) -> list[float]:
    """A place from 0 to 1 for each kind of block, ascending.

    From one kind to the next it is as far as from the middle of the one's tonnes to the middle of
    the other's, with all tonnes laid out in a row; a quarter of the scale is shared out evenly.

    Parameters
    ----------
    tonnes : sequence of float
        What each kind adds, of at least 0.

    Examples
    --------
    >>> tones([1, 1, 1]), tones([5])
    ([0.0, 0.5, 1.0], [0.0])
    """
    found = np.maximum(np.asarray(tonnes, float), 0.0)
    if len(found) < 2:
        return [0.0] * len(found)
    apart = (found[1:] + found[:-1]) / 2
    even = np.full(len(apart), 1 / len(apart))
    share = _EVEN * even + (1 - _EVEN) * (apart / apart.sum() if apart.sum() > 0 else even)
    return [0.0, *np.minimum(np.cumsum(share), 1.0).tolist()]
