"""Which block rests on which, by the slopes that settings list: pairs that a set of blocks breaks,
and what would mend it.

These are this package's own look-ups, for telling where a design is wrong. Whether it is closed is
for `pit` to say.
"""
from __future__ import annotations

from collections.abc import Iterator
from typing import TYPE_CHECKING

import numpy as np

from ..base.arrays import Bools, Ints

if TYPE_CHECKING:
    from .folder import StudyFolder


class Resting:
    """The predecessors of a study's blocks, by the offsets of each region.

    Parameters
    ----------
    study : StudyFolder
    """

    def __init__(self, study: StudyFolder) -> None:
        b = study.model.blocks
        self.place = np.column_stack([b.ix, b.iy, b.iz]).astype(np.int64)
        self.index, self.region = study.model.index, study.region
        self.offsets = list(study.offsets.values())

    def pairs(self, blocks: Ints) -> Iterator[tuple[Ints, Ints, tuple[int, int, int]]]:
        """Blocks and the predecessors that they have at an offset, offset by offset.

        Parameters
        ----------
        blocks : int array
        """
        for region, offsets in enumerate(self.offsets):
            here = blocks[self.region[blocks] == region]
            for offset in offsets:
                to = self.place[here] + offset
                inside = ((to >= 0) & (to < self.index.shape)).all(axis=1)
                found = self.index[tuple(to[inside].T)].astype(np.int64)
                yield here[inside][found >= 0], found[found >= 0], offset

    def on(self, blocks: Ints) -> Iterator[tuple[Ints, Ints, tuple[int, int, int]]]:
        """Blocks and those that rest on them at an offset, offset by offset.

        Parameters
        ----------
        blocks : int array
        """
        for region, offsets in enumerate(self.offsets):
            for offset in offsets:
                to = self.place[blocks] - offset
                inside = ((to >= 0) & (to < self.index.shape)).all(axis=1)
                found = self.index[tuple(to[inside].T)].astype(np.int64)
                is_so = (found >= 0) & (self.region[found] == region)
                yield blocks[inside][is_so], found[is_so], offset

    def broken(self, held: Bools) -> tuple[Ints, Ints, Ints]:
        """The pairs of a block in a set and a predecessor that isn't, ascending; and the offset
        between the two.

        Returns
        -------
        blocks, predecessors : int arrays of shape (pairs,)
        offsets : int array of shape (pairs, 3)
        """
        found = [
            np.column_stack([b, p, np.broadcast_to(offset, (len(b), 3))])[~held[p]]
            for b, p, offset in self.pairs(np.flatnonzero(held))
        ]
        every = np.concatenate(found) if found else np.empty((0, 5), np.int64)
        every = every[np.lexsort((every[:, 1], every[:, 0]))]
        return every[:, 0], every[:, 1], every[:, 2:]

    def mended(self, held: Bools, only: Bools | None = None) -> Bools:
        """The least closed set that has a set: all that its blocks rest on, and so on up.

        Parameters
        ----------
        held : bool array of shape (blocks,)
        only : bool array of shape (blocks,), optional
            What may be added. Default: all blocks, and the set isn't closed then where others are
            missing.
        """
        out = held.copy()
        level = self.place[:, 2]
        order = np.argsort(level, kind="stable")
        # offsets go up, so each level is settled before it is looked at
        for here in np.split(order, np.flatnonzero(np.diff(level[order])) + 1):
            for _, above, _ in self.pairs(here[out[here]]):
                out[above if only is None else above[only[above]]] = True
        return out
