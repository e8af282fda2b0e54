"""How a table of texts fits a screen: with headings over several lines, with small gaps, and in
parts below each other where it has to be."""
from __future__ import annotations

from collections.abc import Sequence
from dataclasses import dataclass

_WIDE, _NARROW = 3, 1  # letters that a gap takes, with and without a frame's blanks


@dataclass(frozen=True)
class _Folded:
    """How a table is shown.

    Attributes
    ----------
    is_narrow : bool
        Whether headings stand over several lines, and gaps are small.
    widths : list of int
        The least width of each column, with which no word and no figure is cut off.
    parts : list of list of int
        The columns of each part; all in one where they fit.
    """

    is_narrow: bool
    widths: list[int]
    parts: list[list[int]]


def folded(
    names: Sequence[str], rows: Sequence[Sequence[str]], room: int, keys: int = 1
) -> _Folded:
    """How a table fits into `room` letters; its first `keys` columns stand in each part.

    >>> folded(["factor", "ore Mt", "waste Mt"], [["0.4", "1.25", "3.5"]], 12).parts
    [[0, 1], [0, 2]]
    """
    cells = [max((len(row[i]) for row in rows), default=0) for i in range(len(names))]
    if sum(max(len(name), cell) + _WIDE for name, cell in zip(names, cells)) + 1 <= room:
        return _Folded(False, cells, [list(range(len(names)))])
    widths = [max(cell, *map(len, name.split())) for name, cell in zip(names, cells)]
    first = list(range(min(keys, len(names))))
    parts, taken = [list(first)], sum(widths[i] + _NARROW for i in first)
    begin = taken
    for i in range(len(first), len(names)):
        if taken + widths[i] > room and len(parts[-1]) > len(first):
            parts.append(list(first))
            taken = begin
        parts[-1].append(i)
        taken += widths[i] + _NARROW
    return _Folded(True, widths, parts)
