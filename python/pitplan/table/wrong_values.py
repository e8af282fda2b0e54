"""What is wrong with the values of a section of study.toml, each by itself, and what is meant."""
from __future__ import annotations

import re
import tomllib
from collections.abc import Iterable, Mapping
from typing import Any

from ..base.errors import Gathered, KeyPath, PlanError, Remedy, toml_spelled
from ..base.near_words import meant, near_to
from ..base.typed_numbers import typed_number
from ..base.units import usual_unit
from .study_keys import METALS, SECTIONS, Key, keys_of
from .value_kinds import FAR, KINDS, RAMP_KEYS, RAMP_MEANS, has_ramp, is_list, is_number, is_table

_LEAST_PERCENT = 2  # from which on a number in place of a share is taken for percent
_WIDEST_VALUE = 120  # letters of a value that is told again
_OF_DEGREES = re.compile(r"\s*(°|deg|degs|degrees?)\s*$")  # what may stand after an angle
_LONGEST_BARE = 60  # letters of a value in quotes that is read as one without
# kinds whose numbers people type with separators
_SEPARATED = (
    "number",
    "count",
    "amount",
    "angles",
)
# of [schedule]: keys that it can't have, and why
_NO_LAW = {
    name: f"{what}, for which no bound is proved: the best pit alone may not hold the best schedule"
    for what, names in {
        "prices that change by year": ("price", "prices", "escalation", "inflation"),
        "a least feed of the mill": ("least_feed", "min_feed", "min_mill_rate", "mill_rate_min"),
        "blending": ("blend", "blending", "min_grade", "max_grade"),
        "a stockpile": ("stockpile", "stockpiles"),
    }.items()
    for name in names
}
_PRICE = ("economics", METALS, "price")


def wrong_in(
    section: str, values: Mapping[str, Any], where: str = "", at: KeyPath = ()
) -> list[PlanError]:
    """What is wrong with each value of a section by itself: unknown keys, values of another kind,
    or out of range.

    Parameters
    ----------
    section : str
        One of `SECTIONS`, or of `LISTS` for one metal or process.
    values : mapping
        As the TOML file has them. None counts as left out.
    where : str
        What an error calls it, unless it is the section's name in brackets.
    at : KeyPath
        Where it stands in the file, where that isn't the section.
    """
    known, where, at = keys_of(section), where or f"[{section}]", at or (section,)
    found = []
    for name, value in values.items():
        if section == "schedule" and name in _NO_LAW:
            said = f"{where} {name}: {_NO_LAW[name]}"
            found.append(PlanError(said, try_this=f"leave {name} out", key=(*at, name)))
        elif name not in known:
            other = _section_with(name, section)
            more = f": it is a key of [{other}]" if other else meant(name, known)
            better = (
                f"put it into [{other}]"
                if other
                else _renamed(name, value, known, values) or ", ".join(known)
            )
            said = f"{where} has no key {name!r}{more}"
            found.append(PlanError(said, try_this=better, key=(*at, name)))
        elif value is not None:
            error = _separated(known[name], value, where, (*at, name))
            if error or not known[name].holds(value):
                found.append(error or _wrong_value(known[name], value, where, (*at, name)))
    return found


def _section_with(name: str, section: str) -> str | None:
    """The first other section that has a key; None where none has, and of keys that stand in a metal
    or a process."""
    if section not in SECTIONS:
        return None
    return next((each for each in SECTIONS if name in keys_of(each)), None)


def _separated(key: Key, value: Any, where: str, at: KeyPath) -> PlanError | None:
    """The error of a number, or of a table's numbers, typed with separators; None where none is."""
    each = value if is_table(value) else {"": value}
    typed = {name: typed_number(text) for name, text in each.items() if isinstance(text, str)}
    found = {name: number for name, number in typed.items() if number}
    better = {name: found[name].value if name in found else each[name] for name in each}
    second = {name: number.other for name, number in found.items() if number.other is not None}
    right, other = (it if is_table(value) else it[""] for it in (better, {**better, **second}))
    if key.kind not in _SEPARATED or not found or not key.holds(right):
        return None
    name, first = next(iter(found.items()))
    best = "" if first.other else f": type {first.value!r}"  # of two readings none is better
    of_rock = f" of {name}" if name else ""
    return PlanError(
        f"{where} {key.name}{of_rock} is {each[name]!r}, which {first.said}{best}",
        try_this=Remedy(
            at, right, first.when, other=other if second and key.holds(other) else None
        ),
        key=at,
    )


def _renamed(name: str, value: Any, known: Iterable[str], there: Mapping[str, Any]) -> str | None:
    """A key that isn't known, as the nearest that is; None where none is near, or that one is there
    too.

    >>> _renamed("absnt", ["-99"], ["absent", "size"], {}), _renamed("pictures", 8, ["absent"], {})
    ('absent = ["-99"]', None)
    >>> _renamed("absnt", ["-99"], ["absent", "size"], {"absent": []}) is None
    True
    """
    near = near_to(name, list(known))
    if near is None or near in there:
        return None
    spelt = toml_spelled(value)
    return f"{near} = {spelt}" if len(spelt) <= _WIDEST_VALUE else f"{near} in place of {name}"


def _as_shown(value: Any) -> str:
    """A wrong value in an error: tables, lists and flags as TOML spells them."""
    return toml_spelled(value) if isinstance(value, (dict, list, tuple, bool)) else repr(value)


def _wrong_ramp(value: Mapping[str, Any], where: str, at: KeyPath) -> PlanError | None:
    """The error of the ramp of all walls, or of the first region's that has one; None where neither
    such a ramp nor regions are told."""
    is_one = bool(set(RAMP_MEANS) & set(value))
    ramps: dict[tuple[str, ...], Any] = (
        {(): value} if is_one else {(name,): part for name, part in value.items()}
    )
    for below, ramp in ramps.items():
        if is_table(ramp) and not has_ramp(ramp):
            said = f"{where} {', '.join(('ramp', *below))}"
            return _given_twice(ramp, said, (*at, *below)) or _wrong_key(ramp, said, (*at, *below))
    return None


def _given_twice(ramp: Mapping[str, Any], said: str, at: KeyPath) -> PlanError | None:
    """The error of a ramp that has `turns` and `around`."""
    if not {"turns", "around"} <= set(ramp):
        return None
    one = toml_spelled({name: part for name, part in ramp.items() if name != "around"})
    return PlanError(
        f"{said} has turns and around, and each says by itself how often the ramp passes",
        try_this=f"{at[-1]} = {one}, or around without turns",
        key=(*at, "around"),
    )


def _wrong_key(ramp: Mapping[str, Any], said: str, at: KeyPath) -> PlanError | None:
    """The error of a ramp with a key that it can't have, a number that it can't be, or a key too
    few."""
    for name, number in ramp.items():
        if name not in RAMP_MEANS:
            return PlanError(
                f"{said} has no key {name!r}{meant(name, RAMP_MEANS)}",
                try_this=", ".join(RAMP_MEANS),
                key=(*at, name),
            )
        if not (is_number(number) and 0 < number < FAR):
            means, example = RAMP_MEANS[name]
            return PlanError(
                f"{said}: {name} is {_as_shown(number)}, and has to be a number above 0: {means}",
                try_this=f"{name} = {example}",
                key=(*at, name),
            )
    for name in (*RAMP_KEYS, "turns"):
        if name not in ramp and not (name == "turns" and "around" in ramp):
            means, example = RAMP_MEANS[name]
            other = ", or around = 1500" if name == "turns" else ""
            return PlanError(
                f"{said} has no {name}: {means}", try_this=f"{name} = {example}{other}", key=at
            )
    return None


def _wrong_value(key: Key, value: Any, where: str, at: KeyPath) -> PlanError:
    """The error of a value that a key may not have."""
    hint: str | Remedy | None = key.instead or None
    remedy: Remedy | None = None
    if key.kind == "ramp" and is_table(value) and (wrong := _wrong_ramp(value, where, at)):
        return wrong
    near = meant(value, key.choices) if key.kind == "choice" and isinstance(value, str) else ""
    if key.kind == "columns" and is_table(value) and KINDS[key.kind].holds(value):
        name = next(name for name in value if name not in key.choices)
        return PlanError(
            f"{where} {key.name} has no key {name!r}{meant(name, key.choices)}",
            try_this=_renamed(name, value[name], key.choices, value) or ", ".join(key.choices),
            key=(*at, name),
        )
    if key.kind == "choice":
        unit = usual_unit(value) if isinstance(value, str) else ""
        if unit not in key.choices:
            unit = near_to(unit, key.choices) or unit
        return PlanError(
            f"{where} {key.name} is {_as_shown(value)}, and has to be {key.must}{near if 'meant' in near else ''}",
            try_this=Remedy(at, unit) if unit in key.choices else _as_may_be(key, value),
            key=at,
        )
    # scaled by the factor, a penalty would fall with the price
    if key.path == _PRICE and is_number(value):
        hint = f"price = 0, selling = {-value:g}, if it is a penalty"
        selling = Remedy((*at[:-1], "selling"), -value)
        remedy = Remedy(at, 0, "if it is a penalty", also=(selling,))
    if key.most == 1 and is_number(value) and key.holds(of_percent(value)):
        hint = Remedy(at, of_percent(value))
    bare = _unquoted(value)
    is_quoted = bare != value and key.holds(bare)
    more = ", without quotes" if is_quoted else _first_wrong_rate(key, value)
    error = PlanError(
        f"{where} {key.name} is {_as_shown(value)}, and has to be {key.must}{more}",
        try_this=Remedy(at, bare) if is_quoted else hint or _as_may_be(key, value),
        key=at,
    )
    return error.with_remedy(error.remedy or remedy)


def _first_wrong_rate(key: Key, value: Any) -> str:
    """Which of several rates is the first that its key may not have, as words to add; none of a key
    of another kind, or of a rate that stands alone."""
    if key.kind not in ("rates", "process_rates"):
        return ""
    is_by_process = key.kind == "process_rates" and is_table(value)
    for name, rate in (value if is_by_process else {"": value}).items():
        for year, number in enumerate(rate if is_list(rate) else [], 1):
            beside = [number, 1]  # a year's may be 0 where that of another isn't
            if not key.holds({name: beside} if is_by_process else beside):
                of_year = f"{name} in year {year}" if name else f"year {year}"
                return f"; {of_year} is {_as_shown(number)}"
        if is_by_process and not key.holds({name: rate}):
            return f"; {name} is {_as_shown(rate)}"
    return ""


def _as_may_be(key: Key, value: Any) -> str | None:
    """A key of [schedule] with a value that it may have: one of its choices, the nearest number, or an
    example. Of other sections none: what their values have to be says it."""
    if key.section == "shells" and key.name in ("mining_rate", "mill_rate") and is_list(value):
        return f"one number here; a list by year stands in [schedule]: {key.name} = {toml_spelled(value)}"
    if key.section != "schedule":
        return None
    if key.choices:
        return f"{key.name} = " + " or ".join(map(toml_spelled, key.choices))
    if key.kind == "process_rates" and is_table(value) and value:
        usual = tomllib.loads(f"it = {KINDS['rates'].example}")["it"]
        right = {name: rate if key.holds({name: rate}) else usual for name, rate in value.items()}
        return f"{key.name} = {toml_spelled(right)}"
    near = _nearest(key, value)
    if near is not None and key.holds(near):
        return f"{key.name} = {toml_spelled(near)}"
    # of a number that may not come to an end of its range
    told = re.search(r", as (\S+)$", key.must)
    return f"{key.name} = {told[1] if told and is_number(value) else KINDS[key.kind].example}"


def _nearest(key: Key, value: Any) -> Any:
    """The nearest value that may be meant: a number within the range, the only one of a list, or a
    list without its signs; None where there is none."""
    if is_list(value) and all(map(is_number, value)):
        bare = [abs(each) for each in value]
        return bare if key.holds(bare) or len(bare) != 1 else _nearest(key, value[0])
    if not is_number(value):
        return None
    nearest = min(max(value, key.least), key.most)
    return int(nearest) if key.kind == "count" else nearest


def of_percent(value: float) -> float:
    """A share that was told in percent as a share; another number as it is: one just above 1 is no
    percent.

    >>> of_percent(96.5), of_percent(1.02), of_percent(0.3)
    (0.965, 1.02, 0.3)
    """
    return float(f"{value / 100:.12g}") if _LEAST_PERCENT <= value <= 100 else value


def _unquoted(value: Any) -> Any:
    """A value with what numbers, flags and lists it has in quotes without them.

    >>> _unquoted("30"), _unquoted(["20", 20]), _unquoted("44 deg"), _unquoted("north")
    (30, [20, 20], 44, 'north')
    """
    if isinstance(value, str) and len(value) <= _LONGEST_BARE:
        try:
            return tomllib.loads(f"bare = {_OF_DEGREES.sub('', value)}")["bare"]
        except ValueError:
            return value
    if isinstance(value, list):
        return [_unquoted(part) for part in value]
    if isinstance(value, dict):
        return {name: _unquoted(part) for name, part in value.items()}
    return value


def missing_in(
    section: str, values: Mapping[str, Any], where: str = "", at: KeyPath = ()
) -> list[PlanError]:
    """The keys that a section, a metal or a process needs and hasn't."""
    return [
        PlanError(
            f"{where or f'[{section}]'} has no {key.name}: {key.help}",
            try_this=key.instead or f"{key.name} = {KINDS[key.kind].example}",
            key=(*(at or (section,)), key.name),
        )
        for key in keys_of(section).values()
        if (key.is_needed or key.unless and values.get(key.unless) is None)
        and values.get(key.name) is None
    ]


def refuse_wrong(
    section: str, values: Mapping[str, Any], where: str = "", at: KeyPath = ()
) -> None:
    """Raises what `wrong_in` finds, all of it."""
    found = Gathered()
    found.add(wrong_in(section, values, where, at))
    found.tell()
