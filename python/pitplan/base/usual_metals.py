"""What metals are called in tables, in which units they come, and what they cost about."""
from __future__ import annotations

import re

from .units import PRICES

# Columns that look like grades, and the units that such a metal usually comes in.
METALS = {
    "cu": ("copper", "%", "t", 8500),
    "au": ("gold", "g/t", "oz", 1900),
    "ag": ("silver", "g/t", "oz", 23),
    "mo": ("molybdenum", "ppm", "lb", 15),
    "zn": ("zinc", "%", "t", 2600),
    "pb": ("lead", "%", "t", 2100),
    "ni": ("nickel", "%", "t", 17000),
    "co": ("cobalt", "%", "t", 33000),
    "fe": ("iron", "%", "t", 110),
    "u3o8": ("uranium", "ppm", "lb", 60),
    "li2o": ("lithia", "%", "t", 15000),
    "pt": ("platinum", "g/t", "oz", 950),
}
# What a column's name says of its unit; opt does so beside a metal alone: PIT_OPT is no grade.
_UNITS = {
    "ppb": "ppb",
    "ppm": "ppm",
    "gpt": "g/t",
    "gmt": "g/t",
    "pct": "%",
    "perc": "%",
    "percent": "%",
    "kgt": "kg/t",
    "opt": "oz/st",
}
_NAMES = {
    "cobre": "copper",
    "cuivre": "copper",
    "cu": "copper",
    "oro": "gold",
    "ouro": "gold",
    "au": "gold",
    "plata": "silver",
    "prata": "silver",
    "argent": "silver",
    "ag": "silver",
    "molibdeno": "molybdenum",
    "mo": "molybdenum",
    "zinco": "zinc",
    "zn": "zinc",
    "plomo": "lead",
    "chumbo": "lead",
    "plomb": "lead",
    "pb": "lead",
    "niquel": "nickel",
    "ni": "nickel",
    "cobalto": "cobalt",
    "co": "cobalt",
    "platino": "platinum",
    "pt": "platinum",
}
# By their signs, and by their names.
_KNOWN = METALS | {found[0]: found for found in METALS.values()}
_KNOWN |= {word: _KNOWN[name] for word, name in _NAMES.items()}
# currencies in which a usual price or cost in dollars is about its number
_DOLLARS = re.compile(r"[A-Z]{0,3}\$|USD|AUD|CAD|EUR|GBP|€|£")
# About how many units of a currency a dollar is worth, of those in which that holds for decades.
_A_DOLLAR: dict[str, float] = {
    **{"CLP": 950, "COP": 4000, "PEN": 3.7, "S/": 3.7, "S/.": 3.7, "MXN": 18, "MX$": 18},
    **{"BRL": 5.5, "R$": 5.5, "ZAR": 18, "R": 18, "XOF": 600, "TZS": 2500, "CNY": 7},
    **{"INR": 85, "IDR": 16_000, "PHP": 57, "KZT": 480, "MNT": 3400, "RUB": 90},
}
# metals whose price is known about
_STEADY = (
    "copper",
    "gold",
    "silver",
    "molybdenum",
    "zinc",
    "lead",
    "nickel",
    "cobalt",
    "platinum",
)


def metal_of(column: str) -> tuple[str, str, str, float] | None:
    """The usual metal, units and price of a column's name, as CU_PCT, au_gpt, AUPPB, "Ag (g/t)",
    ley_zn, "gold gpt" or CuT, total copper. Cubic feet and yards, as "TF (cu ft/st)", are no copper.

    >>> metal_of("CuT_pct")[0], metal_of("CUT"), metal_of("AU_CUT")[0], metal_of("TF cu ft/st")
    ('copper', None, 'gold', None)
    """
    column = re.sub(r"(?<![A-Za-z])CuT(?![A-Za-z])", "Cu", column)
    column = re.sub(r"(?i)(?<![a-z])cu[\W_]*(ft|feet|foot|yds?|yards?)(?![a-z])", "", column)
    words = re.split(r"[^a-z0-9]+", column.lower())
    bare = [
        word.removesuffix(next((unit for unit in _UNITS if word.endswith(unit)), ""))
        for word in words
    ]
    return next((_KNOWN[word] for word in (*words, *bare) if word in _KNOWN), None)


def unit_of(column: str) -> str | None:
    """The unit of a grade that a column's name says; None where it says none.

    >>> unit_of("AU_PPB"), unit_of("CUPCT"), unit_of("Ag (g/t)"), unit_of("Au opt"), unit_of("CU")
    ('ppb', '%', 'g/t', 'oz/st', None)
    """
    name = column.lower()
    units = ("kg/t", "g/t", "mg/kg", "oz/st", "lb/st", "%")
    spelt = next((unit for unit in units if unit in name), None)
    words = re.split(r"[^a-z0-9]+", name)
    return spelt or next(
        (
            _UNITS[unit]
            for word in words
            for unit in _UNITS
            if word == unit
            and (unit != "opt" or metal_of(column))
            or word.endswith(unit)
            and word.removesuffix(unit) in METALS
        ),
        None,
    )


def usual_price(metal: str) -> float | None:
    """What a gram of a metal usually costs in dollars; None where that isn't known."""
    name = _NAMES.get(metal.lower(), metal.lower())
    return next(
        (
            price / PRICES[unit]
            for called, _, unit, price in METALS.values()
            if called == name and name in _STEADY
        ),
        None,
    )


def units_a_dollar(currency: str) -> float | None:
    """About how many units of a currency a dollar is worth; None where that isn't known. It is 1
    where what is usual in dollars is usual in the currency.

    >>> units_a_dollar("A$"), units_a_dollar(" EUR"), units_a_dollar("CLP$"), units_a_dollar("Kc")
    (1.0, 1.0, 950, None)
    """
    name = currency.strip()
    rate = _A_DOLLAR.get(name.upper()) or _A_DOLLAR.get(name.upper().removesuffix("$"))
    return rate or (1.0 if _DOLLARS.fullmatch(name) else None)
