"""Numbers as people type them: with a separator of thousands, or a comma before the decimals."""
from __future__ import annotations

import re
from dataclasses import dataclass
from typing import Any, Union

from .errors import PlanError

_GROUPS = re.compile(
    r"([+-]?\d{1,3})(?P<group>[,.'’ \u00a0\u2009\u202f])(\d{3})((?:(?P=group)\d{3})*)"
    r"(?:(?P<point>(?!(?P=group))[.,])(\d+))?"
)
_COMMA = re.compile(r"([+-]?\d+),(\d+(?:[eE][+-]?\d+)?)")


@dataclass(frozen=True)
class _Typed:
    """A number that was typed with separators.

    Attributes
    ----------
    value : int or float
    said : str
        Which separators it has.
    when : str
        The condition under which it is this number, where it may be another one; else "".
    other : float or None
        That other one.
    """

    value: Union[int, float]
    said: str
    when: str = ""
    other: Union[float, None] = None


def typed_number(text: str) -> _Typed | None:
    """What a text with separators stands for; None where it is no number, or has none of them.

    >>> [typed_number(text).value for text in ("9,250", "1.250,5", "12,5", "1.250.000")]
    [9250, 1250.5, 12.5, 1250000]
    >>> typed_number("1,25e6").value
    1250000.0
    >>> typed_number("9250"), typed_number("1.250"), typed_number("ZC, 5")
    (None, None, None)
    >>> typed_number("0,965").value, typed_number("0,965").other  # no thousands begin with 0
    (0.965, None)
    """
    text = text.strip()
    found, comma = _GROUPS.fullmatch(text), _COMMA.fullmatch(text)
    if found:
        first, group, second, more, point, decimals = found.groups()
        whole = first + second + re.sub(r"\D", "", more)
        if point:
            sign = "" if point == "." else ", and ',' before the decimals"
            return _Typed(float(f"{whole}.{decimals}"), f"has {group!r} between thousands{sign}")
        if more or group not in ",.":
            return _Typed(int(whole), f"has {group!r} between thousands")
        if group == "," and not first.lstrip("+-").startswith("0"):
            other = float(f"{first}.{second}")
            when = f"if ',' stands between thousands, or {other:g} if it stands before decimals"
            return _Typed(int(whole), "has ',' between thousands or before decimals", when, other)
    if comma:
        return _Typed(float(f"{comma[1]}.{comma[2]}"), "has ',' before the decimals")
    return None


def as_number(value: Any) -> Any:
    """What was typed, as a number where its separators can be read in one way; else as it is.

    >>> [as_number(value) for value in ("0,5", "1.250,5", "9,250", "9250", 7)]
    [0.5, 1250.5, '9,250', '9250', 7]
    """
    found = typed_number(value) if isinstance(value, str) else None
    return found.value if found and found.other is None else value


def count_of(text: str, what: str) -> int:
    """A whole number of at most 15 digits, of no sign and no blank. Raises PlanError where it is none.

    >>> count_of("0017", "the row")
    17
    """
    if not re.fullmatch(r"\d{1,15}", text, re.ASCII):
        raise PlanError(f"{what} is {text[:80]!r}, and has to be a whole number")
    return int(text)
