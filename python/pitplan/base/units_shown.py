"""How amounts are shown to a reader: in thousands or millions where they are large, with
separators."""
from __future__ import annotations

import math
from collections.abc import Iterable
from dataclasses import dataclass
from typing import Any

from .units import WEIGHTS

_THOUSAND = 1000  # a factor is in thousandths
_PREFIXES = ((1e9, "G", "thousand million"), (1e6, "M", "million"), (1e3, "k", "thousand"))


@dataclass(frozen=True)
class Scale:
    """What amounts are divided by, and the unit that they then have."""

    divisor: float
    unit: str

    def text(self, value: float, sign: str = "") -> str:
        """An amount with separators and two decimals; nothing where there is none. With the sign +
        a gain has its sign, too.

        >>> Scale(1e3, "kt").text(1234567), Scale(1e3, "kt").text(float("nan"))
        ('1,234.57', '')
        """
        return "" if value != value else f"{value / self.divisor:{sign},.2f}"

    def said(self, value: float) -> str:
        """An amount with its unit."""
        return f"{self.text(value)} {self.unit}"


def scale_of(amounts: Any, unit: str) -> Scale:
    """The scale at which the greatest of some amounts has two to five digits before the point: t,
    kt, Mt; $, thousand $, .."""
    return _scale(_greatest(amounts) / 10, unit, _PREFIXES)


def printed_scale(amounts: Any, unit: str) -> Scale:
    """The scale of what commands print: millions, or where none of some amounts comes to one
    thousands, and below these the unit itself.

    >>> printed_scale([12e9, 5.0], "t").unit, printed_scale([4e5], "$").unit
    ('Mt', 'thousand $')
    """
    return _scale(_greatest(amounts), unit, _PREFIXES[1:])


def _scale(most: float, unit: str, prefixes: tuple[tuple[float, str, str], ...]) -> Scale:
    """The first of some scales that an amount comes to."""
    for divisor, letter, word in prefixes:
        if most >= divisor:
            return Scale(divisor, letter + unit if unit in WEIGHTS else f"{word} {unit}")
    return Scale(1.0, unit)


def _greatest(amounts: Any) -> float:
    """The greatest of some amounts, by how far it is from 0."""
    import numpy as np  # a command that shows no amounts needs none of it

    values = np.abs(np.asarray(amounts, float))
    return float(values[np.isfinite(values)].max(initial=0.0))


def amount_text(value: float, scale: Scale) -> str:
    """An amount at a scale, with separators; a dash where there is none."""
    if not math.isfinite(value):
        return "-"
    return f"{value:,.0f}" if scale.divisor == 1.0 else f"{value / scale.divisor:,.2f}"


def lengths(values: Iterable[float]) -> list[str]:
    """Lengths or elevations of one column, with as many decimals as the one that needs most, at
    most two; a dash where there is none.

    >>> lengths([1000.0, 1007.5, float("nan")]), lengths([20.0, 1040.0])
    (['1,000.0', '1,007.5', '-'], ['20', '1,040'])
    """
    found = [float(value) for value in values]
    places = _places(found)
    return [f"{value:,.{places}f}" if math.isfinite(value) else "-" for value in found]


def length_text(value: float, parted: str = ",") -> str:
    """A length or an elevation alone: with at most two decimals, and one where it isn't whole
    hundredths, as metres made into feet; `parted` stands between thousands.

    >>> length_text(98.425197), length_text(1006.25), length_text(1040.0)
    ('98.4', '1,006.25', '1,040')
    """
    return f"{value:,.{_places([value])}f}".replace(",", parted)


def _places(values: Iterable[float]) -> int:
    """The decimals of lengths: 0, 1 or 2, where they are as round as that, and else 1."""
    there = [value for value in values if math.isfinite(value)]
    off = ((0, 0.005), (1, 0.005), (2, 1e-4))
    return next((n for n, least in off if all(abs(v - round(v, n)) < least for v in there)), 1)


def grade_places(values: Any, least: int = 0, digits: int = 4) -> int:
    """How many decimals the grades of one column have: so many that the greatest has some digits
    that count, and no fewer than `least`.

    >>> grade_places([0.0291, 0.004]), grade_places([1.31, 0.4]), grade_places([0.0291], 3, 3)
    (5, 3, 4)
    """
    there = [abs(float(value)) for value in values if math.isfinite(value)]
    most = max(there, default=0.0)
    return max(least, digits - 1 - math.floor(math.log10(most)) if most else 3, 0)


def counted(count: int, what: str) -> str:
    """A number of things.

    >>> counted(1, "look"), counted(5000, "look")
    ('1 look', '5,000 looks')
    """
    return f"{count:,} {what}" if count == 1 else f"{count:,} {what}s"


def duration_text(seconds: float) -> str:
    """A time in words.

    >>> duration_text(0.2), duration_text(90), duration_text(5400), duration_text(9000)
    ('less than a second', '90 seconds', '90 minutes', '2.5 hours')
    """
    if seconds < 1:
        return "less than a second"
    if seconds < 120:
        return f"{seconds:.0f} seconds"
    return f"{seconds / 60:.0f} minutes" if seconds < 7200 else f"{seconds / 3600:.1f} hours"


def factor_text(thousandths: int) -> str:
    """A factor as a share of the price: 850 is 0.85, 875 is 0.875."""
    return f"{thousandths / _THOUSAND:.{3 if thousandths % 10 else 2}f}"


def share_text(thousandths: float) -> str:
    """A factor as a message names it: 850 is 0.85, 800 is 0.8, 1000 is 1."""
    return f"{thousandths / _THOUSAND:g}"


def separated(number: str) -> str:
    """A number as `pit` prints it, with separators of thousands: every digit stays.

    >>> separated("-1234567.5"), separated("-0.25")
    ('-1,234,567.5', '-0.25')
    """
    whole, point, places = number.partition(".")
    sign, digits = ("-", whole[1:]) if whole.startswith("-") else ("", whole)
    return f"{sign}{int(digits):,}{point}{places}"


def alike(numbers: Iterable[str]) -> list[str]:
    """Exact numbers of one column, with zeros after those that have fewer decimals than another.

    >>> alike(["3,576.5", "12"])
    ['3,576.5', '12.0']
    """
    found = list(numbers)
    most = max((len(text.partition(".")[2]) for text in found), default=0)
    return [
        text + ("" if "." in text or not most else ".") + "0" * (most - len(text.partition(".")[2]))
        for text in found
    ]
