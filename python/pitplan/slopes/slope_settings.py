"""The slopes that settings list: written for `pit`, and read back from the text that `pit` reads.

A block's predecessors are the blocks at the offsets of its own region. What is said and drawn of
walls that were built comes from that text, and not from what was searched.
"""
from __future__ import annotations

import tomllib
from collections.abc import Mapping

from .offsets import Offset, Pattern, settings_by_region

_COORDINATE = 1 << 31  # of an offset: at most that much to either side
_KEY = "slopes"


def slopes_text(patterns: Mapping[str, Pattern], column: int | None = None) -> str:
    """The slopes of a mine as settings of `pit`.

    Parameters
    ----------
    patterns : mapping
        The offsets of each region, from region 0 on.
    column : int, optional
        The column of the `.blocks` file that has the region of each block, counted from 0.
        Default: there is one region, and no such column.

    Returns
    -------
    str
        The keys ``slopes``, ``region`` where there is a column, and ``up``: a greater z is higher.
    """
    region = "" if column is None else f"region = {column}\n"
    return f'{settings_by_region(patterns)}{region}up = "plus"\n'


def offsets_listed(text: str) -> list[list[Offset]]:
    """The offsets (dx, dy, dz) that settings list for each region, from region 0 on.

    Raises
    ------
    ValueError
        Where the text is no TOML, or has no lists of offsets that lead upward; the words say which.
    """
    found = tomllib.loads(text)
    lists = found.get(_KEY)
    if not isinstance(lists, list) or not lists:
        raise ValueError("it lists no slopes")
    if found.get("up", "plus") != "plus":
        raise ValueError("its offsets lead up where z is less")
    return [_offsets_of(each) for each in lists]


def _offsets_of(listed: object) -> list[Offset]:
    """The offsets of a region."""
    if not isinstance(listed, list):
        raise ValueError("the slopes of a region are no list")
    found: list[Offset] = []
    for offset in listed:
        if (
            not isinstance(offset, list)
            or len(offset) != 3
            or any(type(step) is not int or not abs(step) < _COORDINATE for step in offset)
            or offset[2] < 1
        ):
            raise ValueError("an offset isn't three whole numbers that lead upward")
        found.append((offset[0], offset[1], offset[2]))
    return found
