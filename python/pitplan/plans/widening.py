"""Pushbacks that are wide enough for machines: each takes in blocks of the next pit, or leaves some
for it.

After a pushback the mine is a closed set that has the pit before it and lies within the pit after
it, both of them proved. It is no best pit itself; what it is worth is `pit value`'s to say.
"""
from __future__ import annotations

from collections.abc import Iterator, Sequence
from dataclasses import dataclass
from typing import TYPE_CHECKING

import numpy as np
from scipy import ndimage

from ..base.arrays import Bools, Ints, Wholes
from ..base.errors import Disagreement, PlanError
from ..base.units_shown import share_text
from ..study.predecessors import Resting
from . import widths
from .compare import Certificate, agree

if TYPE_CHECKING:
    from ..pit.value_answer import Valued
    from ..study.shells import Shells
    from ..study.study import Study

_AROUND = np.ones((3, 3), bool)  # cells that touch by a corner belong together


@dataclass
class Between:
    """A pushback that is being widened.

    Attributes
    ----------
    held : bool array of shape (blocks,)
        The mine after it.
    before : bool array of shape (blocks,)
        The mine before it.
    low, high : bool arrays of shape (blocks,)
        What it has at least and at most, both closed.
    left : bool array of shape (blocks,)
        What was left for the next: it isn't taken again, so that the search ends.
    """

    held: Bools
    before: Bools
    low: Bools
    high: Bools
    left: Bools


class Widening:
    """The mine after each pushback, widened.

    Parameters
    ----------
    shells : Shells
        Of the factors that end the pushbacks.
    width : float
        That machines need, in the unit of the coordinates.

    Attributes
    ----------
    mines : list of bool arrays of shape (blocks,)
        After each pushback; the last is the last pit itself.

    Raises
    ------
    PlanError
        Where nothing is left of a pushback.
    """

    def __init__(self, shells: Shells, width: float) -> None:
        self.shells, self.width = shells, width
        model = shells.study.model
        self.index, self.rock, self.size = model.index, model.is_rock, model.grid.size[:2]
        self.tonnes = model.blocks["tonnes"].to_numpy(float)
        self.resting = Resting(shells.study)
        self.across = widths.cells_across(width, self.size)
        self.mines: list[Bools] = []
        before = np.zeros(len(model), bool)
        pits = [shells.holds(i) for i in range(len(shells))]
        for i, pit in enumerate(pits):
            last = i == len(pits) - 1
            low = before | pits[i - 1] if i else before
            none = np.zeros(len(model), bool)
            part = Between(pit | before, before, low, pit if last else pits[i + 1], none)
            before = pit if last else self.widen(part)
            if not (before & ~part.before & self.rock).any():
                raise PlanError(
                    (
                        f"pushback {i + 1} (factor {share_text(shells.factors[i])}) has nothing"
                        f" left: to be {width:g} {model.units.length} wide those before it dig"
                        " all of it"
                    ),
                    try_this="leave that factor out, or take factors that lie further apart",
                )
            self.mines.append(before)

    def widen(self, part: Between) -> Bools:
        """The mine after a pushback, where each group of cells that is too thin was widened or
        left, whichever moves fewer tonnes, until nothing changes any more. What can be neither
        stays as it is."""
        left = set(range(self.index.shape[2]))
        while left:
            level = max(left)
            left.discard(level)
            for cells in self.groups(part, level):
                moved = self.better(part, level, cells)
                if moved is None:
                    continue
                part.left |= moved & part.held
                part.held = part.held ^ moved
                left |= set(np.unique(self.resting.place[moved, 2]).tolist())
                break  # the others of this bench are looked for again
        return part.held

    def groups(self, part: Between, level: int) -> Iterator[Bools]:
        """The groups of neighbouring cells of a bench that are too thin."""
        thin = self.thin(part.held, part.before, level)
        labels, count = ndimage.label(thin, _AROUND)
        for n in range(1, count + 1):
            yield labels == n

    def thin(self, held: Bools, before: Bools, level: int) -> Bools:
        """Which cells of a bench the pushback digs where no circle or square of the width covers
        them within the bench's floor."""
        new = self.plane(held & ~before & self.rock, level)
        if not new.any():
            return new
        return new & ~_wide(new | self.floor(before, level), self.width, self.size)

    def floor(self, before: Bools, level: int) -> Bools:
        """Where the bench was dug before and what lies below it wasn't: machines have room
        there."""
        found = self.plane(before & self.rock, level)
        return found & ~self.plane(before & self.rock, level - 1) if level else found

    def plane(self, held: Bools, level: int) -> Bools:
        """Which cells of a bench a set has."""
        found: Bools = np.append(held, False)[self.index[:, :, level]]
        return found

    def better(self, part: Between, level: int, cells: Bools) -> Bools | None:
        """The blocks that are taken in, or that are left, so that cells of a group aren't thin any
        more: the way that moves fewer tonnes for each cell; None where neither can be."""
        ways = [self.taken(part, level, cells), self.gone(part, level, cells)]
        found = [(blocks, count) for blocks, count in ways if count]
        return min(
            found, key=lambda way: float(self.tonnes[way[0]].sum()) / way[1], default=(None, 0)
        )[0]

    def taken(self, part: Between, level: int, cells: Bools) -> tuple[Bools, int]:
        """The blocks that make those of the cells wide over which a square has room, with all that
        they rest on; and how many cells."""
        floor = self.floor(part.before, level)
        free = part.high & ~part.before & ~part.left & self.rock
        has = floor | self.plane(part.held & ~part.before & self.rock, level)
        more, still = squares(floor | self.plane(free, level), has, cells, self.across)
        found = self.closure(self.index[:, :, level][more], part.held)
        return found, 0 if (found & part.left).any() else int((cells & ~still).sum())

    def gone(self, part: Between, level: int, cells: Bools) -> tuple[Bools, int]:
        """The blocks that are left, with all that rests on them: those that needn't be dug, and are
        wide enough in the next pushback; and how many cells they are. A pushback isn't left as a
        whole."""
        rest = self.plane(part.high & ~part.held & self.rock, level)
        now = cells & ~self.plane(part.low, level)
        while (thin := now & ~_wide(rest | now, self.width, self.size)).any():
            now &= ~thin
        found = self.closure(self.index[:, :, level][now], ~part.held, is_down=True)
        is_all = not (part.held & ~found & ~part.before & self.rock).any()
        return found, 0 if is_all else int(now.sum())

    def closure(self, blocks: Wholes, there: Bools, is_down: bool = False) -> Bools:
        """Some blocks with all that they rest on, or with all that rests on them, without what is
        there already."""
        found = np.zeros(len(there), bool)
        front = np.unique(blocks[~there[blocks]])
        while len(front):
            found[front] = True
            steps = self.resting.on(front) if is_down else self.resting.pairs(front)
            near = [other for _, other, _ in steps]
            every = np.unique(np.concatenate(near)) if near else front[:0]
            front = every[~found[every] & ~there[every]]
        return found


def _wide(plane: Bools, width: float, size: tuple[float, float]) -> Bools:
    """Which cells a circle or a square of a width covers that lies within a set of cells; as
    `widths.widths` measures it."""
    found, cells = np.zeros_like(plane), np.argwhere(plane)
    if len(cells):
        low, high = cells.min(axis=0), cells.max(axis=0) + 1
        here = (slice(low[0], high[0]), slice(low[1], high[1]))
        window, half = plane[here], (size[0] / 2, size[1] / 2)
        room = ndimage.distance_transform_edt(widths.lattice(window), sampling=half)
        found[here] = window & (
            widths.by_squares(window, width, size) | widths.by_circles(room, width / 2, half)
        )
    return found


def judged(study: Study, mines: Sequence[Bools], factor: int) -> list[Valued]:
    """What `pit value` says of the mine after each pushback, beside the best pit at a factor (in
    thousandths).

    Raises
    ------
    Disagreement
        Where it isn't closed, or `pit` and the planner's own table contradict each other.
    """
    certificate, resting, found = Certificate(study, factor), Resting(study), []
    bound = study.priced.worth_of(study.mask(factor), factor)
    for held in mines:
        said = certificate.judge(held)
        agree(said, held, resting.broken(held), study.priced.worth_of(held, factor), bound)
        if not said.is_closed:
            raise Disagreement(
                f"a widened pushback isn't closed, by pit value: {said.said}",
                try_this="tell the maintainers",
            )
        found.append(said)
    return found


def squares(may: Bools, has: Bools, cells: Bools, across: list[int]) -> tuple[Bools, Bools]:
    """The cells to add so that a square of whole cells covers some cells, the square with the
    fewest new cells for the cells that it covers first; and those of the cells over which no square
    has room.

    Parameters
    ----------
    may, has : bool arrays of one shape
        The cells that squares may have, and those that are there.
    cells : bool array of that shape
        Those to be covered.
    across : list of int
        The sides of a square, in cells.
    """
    more, left = np.zeros_like(may), cells.copy()
    if any(side > count for side, count in zip(across, may.shape)):
        return more, left
    is_free = _sums(may, across) == across[0] * across[1]
    while left.any():
        new, covers = _sums(may & ~has & ~more, across), _sums(left, across)
        price = np.where(is_free & (covers > 0), (new + 0.5) / np.maximum(covers, 1), np.inf)
        i, j = np.unravel_index(int(np.argmin(price)), price.shape)
        if not np.isfinite(price[i, j]):
            break
        here = (slice(i, i + across[0]), slice(j, j + across[1]))
        more[here] |= may[here] & ~has[here]
        left[here] = False
    return more, left


def _sums(plane: Bools, across: list[int]) -> Ints:
    """How many cells of a set each square has, by its lowest corner."""
    total = np.pad(plane.astype(np.int64).cumsum(axis=0).cumsum(axis=1), ((1, 0), (1, 0)))
    a, b = across
    found: Ints = total[a:, b:] - total[:-a, b:] - total[a:, :-b] + total[:-a, :-b]
    return found
