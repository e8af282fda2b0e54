"""The JSON files that stand in a study: each value is one that its key may have, or the file is
damaged.

A study's folder may come from anybody. So what is read there is held against what this package
writes, before it is used: a name that leads out of its folder, a number in a list's place, or NaN
is told with the file's name.
"""
from __future__ import annotations

import json
import math
import re
from collections.abc import Callable, Mapping
from pathlib import Path
from typing import Any, NoReturn

from .amounts import LARGEST_FACTOR
from .errors import PlanError

Holds = Callable[[Any], bool]
_MOST_COUNT = 1 << 53  # a count that a float holds too


class Damaged(PlanError):
    """A file of a study isn't one that this package writes."""


def read(path: Path, kinds: Mapping[str, Holds], try_this: str) -> dict[str, Any]:
    """What a JSON file has, each of these keys with a value that it may have.

    Parameters
    ----------
    path : Path
    kinds : mapping
        For each key that has to be there whether a value is one of its own.
    try_this : str
        How the file is made again.

    Raises
    ------
    FileNotFoundError, NotADirectoryError
        Where it isn't there.
    Damaged
        Where it is no JSON, or a value isn't one that its key may have.
    """

    def refused(what: str) -> Damaged:
        return Damaged(f"{path} is damaged{what}", try_this=try_this)

    try:
        found = json.loads(path.read_text("utf-8"), parse_constant=_no_constant)
    except (ValueError, RecursionError):  # no JSON, or no text
        raise refused("") from None
    if not isinstance(found, dict):
        raise refused("")
    for key, holds in kinds.items():
        if key not in found:
            raise refused(f": it has no {key}")
        if not holds(found[key]):
            raise refused(f": {key} is {shown(found[key])}")
    return found


def _no_constant(word: str) -> NoReturn:
    """Refuses NaN and Infinity, which JSON hasn't and Python reads."""
    raise ValueError(word)


def shown(value: Any) -> str:
    """A value as JSON has it, cut off where it is long."""
    try:
        text = json.dumps(value)
    except (ValueError, RecursionError):  # a number of very many digits
        return "another thing"
    return text if len(text) <= 80 else text[:80] + ".."


def words_in(value: Any) -> list[str]:
    """The words among the values of what was read from JSON: columns and formulas are there."""
    if isinstance(value, Mapping):
        return [word for of in value.values() for word in words_in(of)]
    if isinstance(value, (list, tuple)):
        return [word for of in value for word in words_in(of)]
    return [value] if isinstance(value, str) else []


def is_word(value: Any) -> bool:
    return isinstance(value, str)


def is_digest(value: Any) -> bool:
    """Whether this is a sha256."""
    return isinstance(value, str) and re.fullmatch("[0-9a-f]{64}", value) is not None


def is_count(value: Any) -> bool:
    return isinstance(value, int) and not isinstance(value, bool) and 0 <= value <= _MOST_COUNT


def is_number(value: Any) -> bool:
    """Whether this is a number, and none that is too large to be meant."""
    return (
        isinstance(value, (int, float))
        and not isinstance(value, bool)
        and abs(value) <= _MOST_COUNT
        and math.isfinite(value)
    )


def is_factor(value: Any) -> bool:
    """Whether this is a factor in thousandths."""
    return is_count(value) and value <= LARGEST_FACTOR


def is_amount(value: Any) -> bool:
    """Whether this is a worth as `pit` prints it."""
    return (
        isinstance(value, str)
        and re.fullmatch(r"-?\d{1,100}(\.\d{1,9})?", value, re.ASCII) is not None
    )


def is_list(holds: Holds) -> Holds:
    return lambda value: isinstance(value, list) and all(map(holds, value))


def is_table(holds: Holds, names: Holds = is_word) -> Holds:
    """Whether this is a table with such names and such values."""
    return (
        lambda value: isinstance(value, dict)
        and all(map(names, value))
        and all(map(holds, value.values()))
    )


def is_one(kinds: Mapping[str, Holds]) -> Holds:
    """Whether this is a table that has each of these keys, with such a value."""
    return lambda value: isinstance(value, dict) and all(
        key in value and holds(value[key]) for key, holds in kinds.items()
    )


def is_none_or(holds: Holds) -> Holds:
    return lambda value: value is None or holds(value)


def is_file_name(value: Any) -> bool:
    """Whether this names a file of the folder itself, and of no other."""
    return is_path(value) and "/" not in value and value not in ("", ".", "..")


def is_path(value: Any) -> bool:
    """Whether a file may be called so: a part of it has at most 255 bytes."""
    try:
        return (
            isinstance(value, str)
            and "\0" not in value
            and len(value) < 4096
            and all(len(part.encode()) <= 255 for part in value.split("/"))
        )
    except UnicodeEncodeError:
        return False
