"""What a value of study.toml may be: in words, as a test of what the TOML file has, and as JSON
Schema says it."""
from __future__ import annotations

import math
from collections.abc import Callable, Mapping, Sequence
from dataclasses import dataclass
from numbers import Integral, Real
from typing import Any

from ..base.units import LENGTHS, WEIGHTS

MOST_PROCESSES = 8  # that `pit` reads


@dataclass(frozen=True)
class Kind:
    """What a value may be.

    Attributes
    ----------
    must : str
        In words, after "has to be".
    holds : function
        Whether a value of a TOML file is one.
    schema : dict
        As JSON Schema says it.
    example : str
        How one is spelled.
    """

    must: str
    holds: Callable[[Any], bool]
    schema: Mapping[str, Any]
    example: str


def is_number(value: object) -> bool:
    return isinstance(value, Real) and not isinstance(value, bool) and abs(float(value)) < math.inf


def _is_whole(value: object) -> bool:
    return isinstance(value, Integral) and not isinstance(value, bool)


def is_list(value: object) -> bool:
    return isinstance(value, Sequence) and not isinstance(value, str)


def _is_words(value: Any) -> bool:
    return is_list(value) and all(isinstance(word, str) for word in value)


def is_table(value: object) -> bool:
    return isinstance(value, Mapping)


def _is_amount(value: Any) -> bool:
    """Whether this is a number, words, or a table of numbers."""
    return (
        is_number(value)
        or isinstance(value, str)
        or is_table(value)
        and all(map(is_number, value.values()))
    )


def _are_paid(value: Any) -> bool:
    """Whether this is a table of shares."""
    return is_table(value) and all(is_number(share) and 0 <= share <= 1 for share in value.values())


def _are_angles(value: Any) -> bool:
    """Whether these are a number, or pairs of numbers."""
    return (
        is_number(value)
        or is_list(value)
        and len(value) > 0
        and all(is_list(pair) and len(pair) == 2 and all(map(is_number, pair)) for pair in value)
    )


def _are_factors(value: Any) -> bool:
    """Whether this is a series or a list of numbers."""
    return (
        is_table(value)
        and set(value) == set(SERIES)
        and all(map(is_number, value.values()))
        or is_list(value)
        and len(value) > 0
        and all(map(is_number, value))
    )


def has_ramp(value: Any) -> bool:
    """Whether this says what a ramp is."""
    return (
        is_table(value)
        and set(value) in ({*RAMP_KEYS, "turns"}, {*RAMP_KEYS, "around"})
        and all(is_number(number) and 0 < number < FAR for number in value.values())
    )


def _are_rates(value: Any) -> bool:
    """Whether this is a number above 0, or a list of numbers by year, of which some may be 0."""
    each = value if is_list(value) else [value]
    return all(is_number(rate) and rate >= 0 for rate in each) and any(rate > 0 for rate in each)


RAMP = "{ width = 25, grade = 0.10, height = 300, turns = 2 }"
RAMP_KEYS = ("width", "grade", "height")
# of each key of a ramp what it is, and an example
RAMP_MEANS = {
    "width": ("with berm and ditch, in the unit of the coordinates", "25"),
    "grade": ("how far it rises for each unit along", "0.10"),
    "height": ("that of the wall, in the unit of the coordinates", "300"),
    "turns": ("how often it passes the wall over its height", "2"),
    "around": ("how long a turn is in plan", "1500"),
}
FAR = 1e9  # more than any wall has, in metres or in feet
SERIES = ("from", "to", "step")
_UNITS = {"length": tuple(LENGTHS), "weight": tuple(WEIGHTS)}
_NUMBER, _WORD = {"type": "number"}, {"type": "string"}
_WORDS = {"type": "array", "items": _WORD}
# titles are those of forms, and of what keys of a table name: a rock, a region, a metal, a currency
_AMOUNT = {
    "oneOf": [
        {**_NUMBER, "title": "one number"},
        {
            "title": "by rock",
            "type": "object",
            "propertyNames": {"title": "rock"},
            "additionalProperties": _NUMBER,
        },
        {**_WORD, "title": "column or formula"},
    ]
}
_ANGLES = {
    "oneOf": [
        {**_NUMBER, "title": "all round"},
        {
            "title": "by bearing",
            "type": "array",
            "minItems": 1,
            "items": {"type": "array", "items": _NUMBER, "minItems": 2, "maxItems": 2},
        },
    ]
}
_POSITIVE = {"type": "number", "exclusiveMinimum": 0}
_RATES: dict[str, Any] = {
    "oneOf": [
        {**_POSITIVE, "title": "the same each year"},
        {
            "title": "year by year",
            "type": "array",
            "items": {"type": "number", "minimum": 0},
            "contains": {"exclusiveMinimum": 0},
        },
    ]
}
_RAMP_SCHEMA: dict[str, Any] = {
    "title": "in all walls",
    "type": "object",
    "properties": {
        name: {**_POSITIVE, "description": means, "examples": [float(example)]}
        for name, (means, example) in RAMP_MEANS.items()
    },
    "required": list(RAMP_KEYS),
    "oneOf": [{"required": ["turns"]}, {"required": ["around"]}],
    "additionalProperties": False,
}
KINDS: dict[str, Kind] = {
    "text": Kind("words in quotes", lambda value: isinstance(value, str), _WORD, '"words"'),
    "file": Kind(
        "the name of a file, in quotes", lambda value: isinstance(value, str), _WORD, '"mine.csv"'
    ),
    "column": Kind(
        "the name of a column, in quotes", lambda value: isinstance(value, str), _WORD, '"NAME"'
    ),
    "choice": Kind(
        "one of its words, in quotes", lambda value: isinstance(value, str), _WORD, '"word"'
    ),
    "flag": Kind(
        "true or false", lambda value: isinstance(value, bool), {"type": "boolean"}, "true"
    ),
    "number": Kind("a number", is_number, _NUMBER, "1"),
    "count": Kind("a whole number", _is_whole, {"type": "integer"}, "1"),
    "size": Kind(
        "three numbers",
        lambda value: is_list(value) and len(value) == 3 and all(map(is_number, value)),
        {"type": "array", "items": _NUMBER, "minItems": 3, "maxItems": 3},
        "[20, 20, 10]",
    ),
    "words": Kind('a list of words, as ["a", "b"]', _is_words, _WORDS, '["a", "b"]'),
    "rocks": Kind('a list of rocks, as ["OXI", "SUL"]', _is_words, _WORDS, '["OXI", "SUL"]'),
    "formulas": Kind('a list of formulas, as ["XC > 12000"]', _is_words, _WORDS, '["XC > 12000"]'),
    "exchange": Kind(
        'a table of numbers above 0, as { "EUR" = 1.08 }',
        lambda value: is_table(value)
        and all(is_number(rate) and rate > 0 for rate in value.values()),
        {
            "type": "object",
            "propertyNames": {"title": "currency"},
            "additionalProperties": _POSITIVE,
        },
        '{ "EUR" = 1.08 }',
    ),
    "units": Kind(
        'a table as { length = "ft", weight = "st" }, of "m" or "ft" and of "t" or "st"',
        lambda value: is_table(value)
        and set(value) <= set(_UNITS)
        and all(isinstance(word, str) and word in _UNITS[key] for key, word in value.items()),
        {
            "type": "object",
            "properties": {key: {"enum": list(words)} for key, words in _UNITS.items()},
            "additionalProperties": False,
        },
        '{ length = "ft", weight = "st" }',
    ),
    "formula": Kind(
        'a formula, as "SG * 4000", or a number',
        lambda value: is_number(value) or isinstance(value, str),
        {"oneOf": [_NUMBER, _WORD]},
        '"SG * 4000"',
    ),
    "columns": Kind(
        'a table of words, as { x = "XC" }',
        lambda value: is_table(value) and _is_words(list(value.values())),
        {"type": "object", "additionalProperties": _WORD},
        '{ x = "XC" }',
    ),
    "fill": Kind(
        "a table, as { tonnes = 10400 }",
        is_table,
        {"type": "object"},
        '{ tonnes = 10400, rock = "waste" }',
    ),
    "rates": Kind(
        "a number above 0, or a list of numbers by year as [0, 15e6, 20e6], each of at least 0 and one"
        " above 0",
        _are_rates,
        _RATES,
        "[15e6, 20e6]",
    ),
    "process_rates": Kind(
        "a table by process as { mill = [0, 15e6, 20e6], leach = 5e6 }, each a number above 0, or a"
        " list of numbers by year, each of at least 0 and one above 0",
        lambda value: is_table(value) and len(value) > 0 and all(map(_are_rates, value.values())),
        {
            "type": "object",
            "minProperties": 1,
            "propertyNames": {"title": "process"},
            "additionalProperties": _RATES,
        },
        "{ mill = [15e6, 20e6] }",
    ),
    "shares": Kind(
        "a list of numbers as [0.5, 0.75], each",
        lambda value: is_list(value) and len(value) > 0 and all(map(is_number, value)),
        {"type": "array", "items": _NUMBER, "minItems": 1},
        "[0.5, 0.75]",
    ),
    "amount": Kind(
        "a number, a column, a formula, or a number for each rock, as { OXI = 7.5, other = 9 }",
        _is_amount,
        _AMOUNT,
        "2.50",
    ),
    "recoveries": Kind(
        (
            'a table by metal as { copper = 0.6, gold = "0.3 + 0.2 * AU" }, each a number, a'
            " column, a formula, or a number for each rock"
        ),
        lambda value: is_table(value) and all(map(_is_amount, value.values())),
        {
            "type": "object",
            "propertyNames": {"title": "metal"},
            "additionalProperties": _AMOUNT,
        },
        "{ copper = 0.6 }",
    ),
    "payables": Kind(
        "a table by metal as { copper = 0.96 }, each a number from 0 to 1",
        _are_paid,
        {
            "type": "object",
            "propertyNames": {"title": "metal"},
            "additionalProperties": {"type": "number", "minimum": 0, "maximum": 1},
        },
        "{ copper = 0.96 }",
    ),
    "angles": Kind(
        "degrees as 45, or by bearing as [[0, 38], [90, 45], [180, 50], [270, 45]]",
        _are_angles,
        _ANGLES,
        "45",
    ),
    "regions": Kind(
        "angles for each region, as { NORTH = 38, SOUTH = [[0, 44], [180, 50]] }",
        lambda value: is_table(value) and all(map(_are_angles, value.values())),
        {
            "type": "object",
            "propertyNames": {"title": "region"},
            "additionalProperties": _ANGLES,
        },
        "{ NORTH = 38 }",
    ),
    "ramp": Kind(
        f"a table as {RAMP}, with around = 1500 in place of turns or not, or such a table for each region",
        lambda value: is_table(value)
        and len(value) > 0
        and (has_ramp(value) or all(map(has_ramp, value.values()))),
        {
            "type": "object",
            "minProperties": 1,
            "oneOf": [
                _RAMP_SCHEMA,
                {
                    "title": "by region",
                    "propertyNames": {"title": "region"},
                    "additionalProperties": _RAMP_SCHEMA,
                },
            ],
        },
        RAMP,
    ),
    "factors": Kind(
        "a series as { from = 0.30, to = 1.20, step = 0.05 }, or a list as [0.5, 0.75, 1.0]",
        _are_factors,
        {
            "oneOf": [
                {"title": "as a list", "type": "array", "items": _NUMBER, "minItems": 1},
                {
                    "title": "as a series",
                    "type": "object",
                    "properties": dict.fromkeys(SERIES, _NUMBER),
                    "required": list(SERIES),
                    "additionalProperties": False,
                },
            ]
        },
        "[0.5, 0.75, 1.0]",
    ),
    "metals": Kind(
        "a list of tables",
        lambda value: is_list(value) and all(map(is_table, value)),
        {"type": "array", "minItems": 1},
        '[ { name = "copper", grade = "CU", price = 8500 } ]',
    ),
    "processes": Kind(
        f"a list of 1 to {MOST_PROCESSES} tables",
        lambda value: is_list(value)
        and 1 <= len(value) <= MOST_PROCESSES
        and all(map(is_table, value)),
        {"type": "array", "minItems": 1, "maxItems": MOST_PROCESSES},
        '[ { name = "leach", cost = 4.0 } ]',
    ),
}
