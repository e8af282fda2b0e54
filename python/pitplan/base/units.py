"""Units of grades and of prices, how much metal a tonne has at a grade of 1, and the units that a
table is in."""
from __future__ import annotations

from dataclasses import dataclass

from .errors import PlanError
from .near_words import meant

# Grams of metal in a tonne of rock at a grade of 1, and grams in the unit that a price is for. The
# pound and the troy ounce are those of the international agreement of 1959; a dry metric tonne unit
# is 1 % of a tonne, and a short ton unit 1 % of a short ton.
GRADES = {
    "%": 10_000.0,
    "kg/t": 1_000.0,
    "g/t": 1.0,
    "ppm": 1.0,
    "mg/kg": 1.0,
    "ppb": 0.001,
    "oz/st": 31.1034768 / 0.90718474,
    "lb/st": 453.59237 / 0.90718474,
}
PRICES = {
    "t": 1_000_000.0,
    "kg": 1_000.0,
    "g": 1.0,
    "lb": 453.59237,
    "oz": 31.1034768,
    "dmtu": 10_000.0,
    "st": 907_184.74,
    "stu": 9_071.8474,
}
WEIGHTS = {"t": 1.0, "st": 0.90718474}  # in tonnes; a short ton has 2,000 pounds
LENGTHS = {"m": 1.0, "ft": 0.3048}  # in metres


@dataclass(frozen=True)
class Units:
    """What the coordinates and the tonnes of a table are in, and so are all tables and pictures.

    Attributes
    ----------
    length : {"m", "ft"}
    weight : {"t", "st"}
    """

    length: str = "m"
    weight: str = "t"

    @property
    def tonnes(self) -> float:
        """Of one unit of weight."""
        return WEIGHTS[self.weight]

    @property
    def words(self) -> str:
        """The unit of weight in words."""
        return "tonnes" if self.weight == "t" else "short tons"

    @property
    def weight_of_cube(self) -> float:
        """What a cube of one unit of length weighs at a density of one tonne a cubic metre."""
        return LENGTHS[self.length] ** 3 / WEIGHTS[self.weight]


# Other names of them.
_CALLED = {
    "percent": "%",
    "pct": "%",
    "gpt": "g/t",
    "g/tonne": "g/t",
    "gr/t": "g/t",
    "tonne": "t",
    "ton": "t",
    "mt": "t",
    "kilogram": "kg",
    "kilo": "kg",
    "gram": "g",
    "gr": "g",
    "pound": "lb",
    "lbs": "lb",
    "ounce": "oz",
    "ozt": "oz",
    "troy ounce": "oz",
    "toz": "oz",
}


def usual_unit(word: str) -> str:
    """A unit as this package calls it; the word itself where it is no other name of one.

    >>> usual_unit("Ounces"), usual_unit("lb")
    ('oz', 'lb')
    """
    bare = word.strip().lower()
    return _CALLED.get(bare) or _CALLED.get(bare.removesuffix("s")) or word


def metal_in_a_tonne(metal: str, grade_unit: str, price_unit: str) -> float:
    """How many units of metal, as the price counts them, a tonne of rock has at a grade of 1.

    Parameters
    ----------
    metal : str
        For the error.
    grade_unit, price_unit : str
        As in `GRADES` and `PRICES`; oz is a troy ounce.

    Raises
    ------
    PlanError
        Where a unit is none of these.

    Examples
    --------
    >>> round(metal_in_a_tonne("copper", "%", "lb"), 6)
    22.046226
    """
    if grade_unit not in GRADES:
        raise PlanError(
            f"metal {metal}: grade_unit {grade_unit!r} isn't known{meant(grade_unit, GRADES)}",
            try_this=", ".join(GRADES),
        )
    if price_unit not in PRICES:
        raise PlanError(
            f"metal {metal}: price_unit {price_unit!r} isn't known{meant(price_unit, PRICES)}",
            try_this=", ".join(PRICES),
        )
    return GRADES[grade_unit] / PRICES[price_unit]
