#!/usr/bin/env python3
"""Checks this bundle again, by Python's standard library (3.11 or later) and a `pit` that you
trust.

    python3 recheck.py [--plainly] [PIT]

PIT is the program. Default: `pit` on the path. With --plainly each certificate is checked by
plainly.py too, which shares nothing with pit and is slow. A line begins with ok, WRONG, or look
(what wasn't looked at, and you should); the last line is the verdict. Exit status: 0 all that was
looked at holds, 1 something is WRONG.
"""
from __future__ import annotations

import sys

if __name__ == "__main__" and not (sys.flags.isolated or getattr(sys.flags, "safe_path", False)):
    del sys.path[0]  # no file beside this one is run for one of Python's library

import ast
import csv
import gzip
import hashlib
import io
import json
import math
import re
import subprocess
import tempfile
import tomllib
import unicodedata
import zlib
from bisect import bisect_right
from collections import Counter, defaultdict
from collections.abc import Callable, Collection, Iterator, Mapping, Sequence
from decimal import Decimal
from functools import cache, cached_property
from itertools import zip_longest
from pathlib import Path
from typing import Any, BinaryIO, NamedTuple

# --- Files of a bundle; units, limits and tolerances ---
HERE = Path(__file__).resolve().parent
SUMS, CHUNK_SIZE, THOUSAND, MICRO, NANO = "SHA256SUMS", 1 << 20, 1000, 10**6, 10**9
# What each bundle has beside its table and certificates.
KNOWN = (
    *("study.toml", "verdicts.json", "facts.json", "recheck.py", "plainly.py", "README.txt"),
    *("model/mine.blocks", "model/settings.toml", "model/manifest.json"),
    *("tables/pit_by_pit.csv", "tables/benches.csv", "tables/blocks.csv"),
)
# Those of model/ by whose digests the model is named.
OF_MODEL = ("mine.blocks", "settings.toml")
# What it has of a plan by years.
OF_SCHEDULE = (
    *("recheck_schedule.py", "schedule/bound.cert.gz", "schedule/periods.toml"),
    *("schedule/schedule.txt", "schedule/terms.json", "schedule/units.txt"),
    *("schedule/uses.blocks", "tables/schedule.csv", "tables/schedule_benches.csv"),
)
HELD = 10  # bytes of memory that a byte of a table takes, its cells as words
PLANNED = re.compile(
    r"SCHEDULE (\d+) (-?[\d.]+)\nBROKEN 0\n(?:BOUND (-?[\d.]+)\nGAP [\d.]+\n)?"
)  # of pit schedule, of a schedule that is feasible
MOST_UNPACKED = 1 << 34  # bytes of a certificate of the plan by years
LINE = 120  # bytes that a line of a certificate has at most
NUMBER = re.compile(r"[+-]?(\d+\.?\d*|\.\d+)([eE][+-]?\d+)?")
# a block's number and its place in mine.blocks, and each of its columns, as pitplan writes them
PLACED = r"(?:0|[1-9][0-9]{0,9})(?: (?:0|-?[1-9][0-9]{0,9})){3}"
COLUMN = r" (?!-0(?: |$))-?(?:0|[1-9][0-9]*)(?:\.[0-9]+)?(?:e[+-]?[0-9]+)?"
COMMA = re.compile(r"([+-]?\d*),(\d+(?:[eE][+-]?\d+)?)")
# bytes that any table may unpack to, and how many times its size a larger one may
SMALL, MOST_TIMES = (
    1 << 26,
    200,
)
# grams in a tonne
GRADES = {
    "%": 10_000.0,
    "kg/t": 1_000.0,
    "g/t": 1.0,
    "ppm": 1.0,
    "mg/kg": 1.0,
    "ppb": 0.001,
    "oz/st": 31.1034768 / 0.90718474,
    "lb/st": 453.59237 / 0.90718474,
}
SERIES = {"from": 0.30, "to": 1.20, "step": 0.05}  # where study.toml says no factors
# grams in a unit
PRICES = {
    "t": 1e6,
    "kg": 1e3,
    "g": 1.0,
    "lb": 453.59237,
    "oz": 31.1034768,
    "dmtu": 10_000.0,
    "st": 907_184.74,
    "stu": 9_071.8474,
}
# in tonnes and metres
UNITS = {
    "weight": {"t": 1.0, "st": 0.90718474},
    "length": {"m": 1.0, "ft": 0.3048},
}
# how far from 0 a number of a file may be, and how many letters a formula may have
FAR, LONGEST = (
    1e100,
    2000,
)
ROUNDED = 1e-6  # degrees: so little is what arithmetic leaves
MOST_BLOCKS = 1 << 24  # that `pit` reads
MOST_WORTH = 10**18  # millionths that `pit` reads for a block
TOLD = 12  # offsets that a line names
# degrees that a wall may err by: on average, at the worst bearing, on average with its sign; of the
# worst errors to both sides the lesser is at least this share of the greater
MEAN, WORST, SIGNED, SIDE = 0.5, 1.0, 0.25, 0.25
TOLERANCE = 1e-6  # relative: numbers so near to each other are one
# A float has 53 bits. Each sum rounds to the nearest, so it errs by at most this share of itself.
FLOAT = 2.0**-53
# The last ten bits of a float: the share of a block's own amount that may be lost where two programs
# multiply the same numbers in another order, or take the means of sub-blocks.
LEFT = 2.0**-42
# pitplan writes a number of tables/ with 15 digits: half a unit of the last one is at most this share
# of it. The floats next to what is written and to what is meant may be FLOAT off each, here and there.
HALF_A_DIGIT = 5e-15 + 4 * FLOAT
HALF_OF_TONNES = 5e-4  # half a unit of the last of the three decimals of tonnes in mine.blocks
# The columns of pit_by_pit.csv beside those of amounts.
PIT_BY_PIT = (
    *("factor", "strip", "feed_t", "worth_at_factor", "worth_at_base"),
    *("npv_best", "npv_worst", "years"),
)
NO_CLASS = "none"  # what the class of a block without one is called
YEARS = 15  # that the largest pit takes, where study.toml has no rate
# what a wall that is too steep weighs where none may be, and degrees that are none
TOO_STEEP, EVEN = 1000, math.degrees(TOLERANCE) / 2
OFFSETS_AT_MOST, MOST_LEVELS = 4096, 200
# the blocks that a wall comes out, and at how many stretches of its cone it is looked for
TRIES = (10, 400), (24, 300)
NARROWEST, WIDEST = 0.9, 1.6  # the stretches
UNION = 64  # columns of blocks that are joined ahead
# what Python raises over a text that is no formula
UNWORKABLE = (
    ArithmeticError,
    MemoryError,
    RecursionError,
    SyntaxError,
    TypeError,
    ValueError,
)


# --- Schemas: the values that each key of study.toml and of the JSON and TOML files may have ---


class Bad(Exception):
    """Something is wrong, and what."""


class Kind(NamedTuple):
    """What a value of a file may be: in words, and whether a value is one."""

    must: str
    holds: Callable[[Any], bool]


def is_number(value: Any, low: float = -FAR, high: float = FAR) -> bool:
    return isinstance(value, (int, float)) and not isinstance(value, bool) and low <= value <= high


def is_whole(value: Any, low: float = 0, high: float = FAR) -> bool:
    return isinstance(value, int) and is_number(value, low, high)


def is_word(value: Any) -> bool:
    return isinstance(value, str) and len(value) <= LONGEST


def is_list(value: Any, holds: Callable[[Any], bool], least: int = 0, most: float = FAR) -> bool:
    return isinstance(value, list) and least <= len(value) <= most and all(map(holds, value))


def is_table(value: Any, holds: Callable[[Any], bool]) -> bool:
    return isinstance(value, dict) and all(map(holds, value.values()))


def is_angles(value: Any) -> bool:
    """Whether this is an angle, or a list of bearings with an angle for each."""

    def is_angle(angle: Any) -> bool:
        return is_number(angle, 5, 89)

    return is_angle(value) or is_list(
        value,
        lambda pair: is_list(pair, is_number, 2, 2) and 0 <= pair[0] <= 360 and is_angle(pair[1]),
        1,
    )


def is_rounding(value: Any) -> bool:
    """Whether this is a whole number of millionths, and not none."""
    return is_number(value, 1 / MICRO, MOST_WORTH / MICRO) and Decimal(str(value)) * MICRO % 1 == 0


def is_rate(value: Any) -> bool:
    """Whether this is a number above 0, or a list of numbers of which some may be 0."""
    each = value if isinstance(value, list) else [value]
    return all(is_number(one, 0) for one in each) and any(one >= 1e-12 for one in each)


def has_ramp(value: Any) -> bool:
    """Whether this says what a ramp in a wall is."""
    keys = {"width", "grade", "height"}
    return is_table(value, lambda number: is_number(number, 1e-9, 1e9)) and set(value) in (
        {*keys, "turns"},
        {*keys, "around"},
    )


def one_of(*words: str) -> Kind:
    """One of these words."""
    return Kind(
        f"one of {', '.join(words)}",
        lambda value: value in words if isinstance(value, str) else False,
    )


WORD, WORDS = Kind("words in quotes", is_word), Kind(
    "a list of words in quotes", lambda value: is_list(value, is_word)
)
NUMERIC, WHOLE, IS_SO = (
    Kind("a number", is_number),
    Kind("a whole number of at least 0", is_whole),
    Kind("true or false", lambda value: isinstance(value, bool)),
)
SHARE, COST = Kind("a number from 0 to 1", lambda value: is_number(value, 0, 1)), Kind(
    "a number of at least 0", lambda value: is_number(value, 0)
)
SIZES = Kind(
    "three numbers above 0", lambda value: is_list(value, lambda size: is_number(size, 1e-9), 3, 3)
)
DIGEST = Kind(
    "the 64 digits of a sha256",
    lambda value: isinstance(value, str) and re.fullmatch("[0-9a-f]{64}", value) is not None,
)
NAMES = Kind("a table of words in quotes", lambda value: is_table(value, is_word))
AMOUNT = Kind(
    f"a number, a column, a formula of at most {LONGEST:,} letters, or a table of numbers by rock",
    lambda value: is_number(value) or is_word(value) or is_table(value, is_number),
)
ANGLES = Kind(
    "degrees from 5 to 89, or a list of bearings and degrees as [[0, 38], [90, 45]]", is_angles
)
OFFSETS = Kind(
    "a list of at most 4,096 offsets as [[0, 0, 1]], each at least one level up",
    lambda value: is_list(
        value,
        lambda offset: is_list(offset, lambda step: is_whole(step, -(2**31), 2**31), 3, 3)
        and offset[2] > 0,
        0,
        4096,
    ),
)
SLOPES = Kind(
    "for each of at most 64 regions " + OFFSETS.must,
    lambda value: is_list(value, OFFSETS.holds, 1, 64),
)

KEPT = Kind("a number above 0 and at most 1", lambda value: is_number(value, 0, 1) and value > 0)
RATE = Kind("a number above 0, or a list of numbers of which some may be 0", is_rate)
ONE_RATE = Kind("a number above 0", lambda value: is_number(value, 1e-12))
COUNT = Kind("a whole number from 1 on", lambda value: is_whole(value, 1))
MOST_WAYS = 8  # to treat a block

# The keys of each section of study.toml that are looked at, and what each may be; likewise of the other files.
STUDY: dict[str, dict[str, Kind]] = {
    "model": {
        "size": SIZES,
        "rotation": NUMERIC,
        "columns": NAMES,
        "z": one_of("elevation", "depth"),
        "absent": WORDS,
        "missing": one_of("refuse", "air", "rock"),
        "fill": Kind(
            "a table of numbers and words in quotes",
            lambda value: is_table(value, lambda each: is_number(each) or is_word(each)),
        ),
        "widen": WHOLE,
        "regularise": IS_SO,
        "units": Kind(
            'a table with weight, "t" or "st", and length, "m" or "ft"',
            lambda value: is_table(value, is_word)
            and all(key in UNITS and word in UNITS[key] for key, word in value.items()),
        ),
        "tonnes": Kind(
            f"a number, or a formula of at most {LONGEST:,} letters",
            lambda value: is_number(value) or is_word(value),
        ),
    },
    "economics": {
        "metals": Kind(
            "a list of metals",
            lambda value: is_list(value, lambda metal: isinstance(metal, dict), 1),
        ),
        "mining": AMOUNT,
        "processing": AMOUNT,
        "mill": WORDS,
        "processes": Kind(
            f"a list of 1 to {MOST_WAYS} processes",
            lambda value: is_list(value, lambda each: isinstance(each, dict), 1, MOST_WAYS),
        ),
        "dilution": SHARE,
        "mining_recovery": KEPT,
        "rounding": Kind("a number of at least 0.000001, with at most six decimals", is_rounding),
        "currency": WORD,
        "exchange": Kind(
            "a table of numbers above 0",
            lambda value: is_table(value, lambda rate: is_number(rate, 1e-30)),
        ),
        "forbid": WORDS,
        "waste_classes": WORDS,
    },
    "slopes": {
        "angles": ANGLES,
        "by": WORD,
        "regions": Kind(
            "a table of angles, each " + ANGLES.must, lambda value: is_table(value, is_angles)
        ),
        "safe": IS_SO,
        "levels": Kind("a whole number from 1 to 200", lambda value: is_whole(value, 1, 200)),
        "ramp": Kind(
            "a table of width, grade, height, and turns or around, each above 0; or such a table for each region",
            lambda value: has_ramp(value) or is_table(value, has_ramp),
        ),
    },
    "shells": {
        "factors": Kind(
            "a list of numbers from 0 to 10, or three numbers from, to and step",
            lambda value: is_list(value, lambda share: is_number(share, 0, 10), 1)
            or is_table(value, is_number)
            and set(value) == set(SERIES),
        ),
        "mining_rate": ONE_RATE,
        "mill_rate": ONE_RATE,
        "discount": SHARE,
    },
    "schedule": {
        "years": COUNT,
        "per_year": COUNT,
        "when": one_of("start", "mid", "end"),
        "mining_rate": RATE,
        "mill_rate": RATE,
        "process_rates": Kind(
            "a table of such rates",
            lambda value: isinstance(value, dict) and all(map(is_rate, value.values())),
        ),
        "discount": SHARE,
        "sink": COUNT,
        "panel": COUNT,
        "cutoff": one_of("fixed", "by year"),
        "pushbacks": Kind(
            "a list of numbers above 0",
            lambda value: is_list(value, lambda each: is_number(each, 1e-12)),
        ),
        "lead": WHOLE,
        "fixed_cost": COST,
    },
}
METAL = {
    "name": WORD,
    "grade": WORD,
    "price": COST,
    "grade_unit": one_of(*GRADES),
    "price_unit": one_of(*PRICES),
    "recovery": AMOUNT,
    "payable": SHARE,
    "selling": COST,
    "currency": WORD,
}
# Keys that pitplan reads to build the model, and whose values show in the model alone.
TO_BUILD = {"model": {"table", "decimal", "encoding", "skip"}}
PROCESS = {
    "name": WORD,
    "rocks": WORDS,
    "cost": AMOUNT,
    "recovery": Kind("a table of amounts", lambda value: is_table(value, AMOUNT.holds)),
    "payable": Kind("a table of shares", lambda value: is_table(value, SHARE.holds)),
    "dilution": SHARE,
    "mining_recovery": KEPT,
    "rate": COST,
}
# What columns of [model] names.
ROLES = {
    *("id", "x", "y", "z", "dx", "dy", "dz", "tonnes", "density", "rock", "class"),
    *("topography", "ore"),
}
NEEDED = ("metals", "mining", "name", "grade", "price", "cost")
GRID = {
    "origin": Kind("three numbers", lambda value: is_list(value, is_number, 3, 3)),
    "size": SIZES,
    "shape": Kind("three whole numbers", lambda value: is_list(value, is_whole, 3, 3)),
    "rotation": NUMERIC,
}
DIALECT = {
    "separator": Kind("a comma, a semicolon or a tab", lambda value: value in (",", ";", "\t")),
    "decimal": Kind("a point or a comma", lambda value: value in (".", ",")),
    "encoding": Kind(
        "an encoding that Python knows, as utf-8",
        lambda value: is_word(value) and is_encoding(value),
    ),
    "skip": WHOLE,
}
TABLE = Kind("a table", lambda value: isinstance(value, dict))
FACTS = {
    "pitplan": WORD,
    "pit": WORDS,
    "table": WORD,
    "sha256": DIGEST,
    "dialect": TABLE,
    "grid": TABLE,
    "depth": IS_SO,
    "blocks": WHOLE,
    "currency": WORD,
    "has_sub_blocks": IS_SO,
    "has_schedule": IS_SO,
    "settings": WORDS,
    "columns": Kind(
        "the names of the columns x, y and z, and of others",
        lambda value: is_table(value, is_word) and {"x", "y", "z"} <= set(value),
    ),
}
MANIFEST = {
    "key": DIGEST,
    "pit": WORDS,
    "metals": TABLE,
    "waste_classes": WORDS,
    "source": TABLE,
    "files": Kind("a table of sha256", lambda value: is_table(value, DIGEST.holds)),
    "regions": Kind(
        "a table of whole numbers, how many blocks each region of slopes has",
        lambda value: is_table(value, is_whole),
    ),
    "blocks": WHOLE,
    "currency": WORD,
}
SOURCE = {"table": WORD, "sha256": DIGEST}
VERDICT = {
    "pit": WORDS,
    "seconds": COST,
    "host": WORD,
    "factor": Kind(
        "a whole number from 0 to 10,000", lambda value: is_whole(value, 0, 10 * THOUSAND)
    ),
    "file": WORD,
    "count": WHOLE,
    "certificate": DIGEST,
    "worth": Kind(
        "a number in quotes",
        lambda value: is_word(value)
        and re.fullmatch(r"-?\d{1,100}(\.\d{1,9})?", value) is not None,
    ),
}
# of the columns: percents of a block that are rock, of its tonnes that are ore
PART, ORE = (
    "topography",
    "ore",
)
AT = Kind("a whole number from 0 to 65,535", lambda value: is_whole(value, 0, 65_535))
WAY, COLUMNS = {"revenue": AT, "processing": AT}, {"mining": AT, "tonnes": AT}
WAYS = Kind(
    f"a list of 1 to {MOST_WAYS} tables of revenue and processing",
    lambda value: is_list(
        value, lambda way: is_table(way, AT.holds) and set(way) == set(WAY), 1, MOST_WAYS
    ),
)
SETTINGS = {**WAY, **COLUMNS, "ways": WAYS, "slopes": SLOPES, "region": AT, "up": one_of("plus")}
AIR: dict[str, Any] = {"tonnes": 0.0, "rock": "air"}  # what is said of a block of air
PLACES = 3  # fields of a line of mine.blocks after its number, before its columns


def is_encoding(name: str) -> bool:
    """Whether this names an encoding of text."""
    try:
        return isinstance("a".encode(name), bytes)
    except (LookupError, ValueError):
        return False


def shown(value: Any) -> str:
    """A value of a file as its reader finds it there, cut off where it is long."""
    if value is None or isinstance(value, bool):
        return {None: "null", True: "true", False: "false"}[value]
    if isinstance(value, int) and not is_number(value):
        return "a number of very many digits"
    text = repr(value)
    return text if len(text) <= 80 else text[:80] + ".."


def looked_at(
    where: str, table: Any, kinds: Mapping[str, Kind], needed: Collection[str]
) -> dict[str, Any]:
    """A table of a file, each of whose values is one that its key may have.

    Raises
    ------
    Bad
        Where one isn't, or isn't there: the file, the key, what it is and what it has to be.
    """
    if not isinstance(table, dict):
        raise Bad(f"{where.rstrip(':,')} is {shown(table)}, and has to be a table")
    for key, kind in kinds.items():
        if key in table and not kind.holds(table[key]):
            raise Bad(f"{where} {key} is {shown(table[key])}, and has to be {kind.must}")
        if key not in table and key in needed:
            raise Bad(f"{where} {key} isn't there, and has to be {kind.must}")
    return table


# --- The report: lines of ok, WRONG and look ---


class Report:
    """Prints the lines, and counts them."""

    def __init__(self) -> None:
        self.count: Counter[str] = Counter()

    def say(self, kind: str, what: str) -> None:
        self.count[kind] += 1
        print(f"{kind:8}" + "".join(c if c.isprintable() else "?" for c in what), flush=True)

    def check(self, holds: bool, what: str) -> bool:
        self.say("ok" if holds else "WRONG", what)
        return holds

    def attempt(self, what: str, step: Callable[..., Any], *words: Any) -> Any:
        """Makes a step; whatever goes wrong in it is a line, and the steps after it are made all
        the same."""
        try:
            return step(*words)
        except Exception as error:
            self.say("WRONG", f"{what}: {reason(error)}")
            return None


def reason(error: Exception) -> str:
    """Why a step couldn't be made, in words."""
    if isinstance(error, (EOFError, gzip.BadGzipFile, zlib.error)):
        return f"the packed file is damaged: {error}"
    if isinstance(error, OSError) and error.strerror:
        return f"{str(error.filename or '').removeprefix(f'{HERE}/')}: {error.strerror}"
    return str(error) if isinstance(error, Bad) else f"{type(error).__name__}: {error}"


def share_text(factor: int) -> str:
    """A factor in thousandths, as its share of the price."""
    return f"{factor / THOUSAND:g}"


def free_memory() -> int:
    """Bytes of memory that are free on this machine; a gigabyte where the system doesn't say."""
    try:
        with open("/proc/meminfo") as file:
            return next(
                (int(line.split()[1]) * 1024 for line in file if line.startswith("MemAvailable")),
                1 << 30,
            )
    except OSError:
        return 1 << 30


# --- Integrity: each file is listed in SHA256SUMS, with its digest ---


def digest_of(path: Path) -> str:
    """The sha256 of a file."""
    digest = hashlib.sha256()
    with open(path, "rb") as file:
        while data := file.read(CHUNK_SIZE):
            digest.update(data)
    return digest.hexdigest()


def within(name: str) -> Path:
    """A file of the bundle by its name; a name that leads out of the bundle is none. Nor is a pipe
    or a device, which may never end."""
    path = HERE / name
    if (
        "\0" in name
        or Path(name).is_absolute()
        or ".." in Path(name).parts
        or path.is_symlink()
        or HERE not in path.resolve().parents
    ):
        raise Bad(f"{name} leads out of the bundle")
    if path.exists() and not path.is_file():
        raise Bad(f"{name} is no regular file")
    return path


def check_digests(report: Report) -> None:
    """Each file is listed and is the one that was listed."""
    listed: dict[str, str] = {}
    # no other byte ends a line, as for sha256sum
    *lines, rest = text_of(SUMS, "text").split("\n")
    for line in [*lines, rest] if rest else lines:
        found = re.fullmatch(r"([0-9a-f]{64})  ([^\x00-\x1f]+)", line)
        if not found or line is rest:
            raise Bad(f"a line that is none: {line[:100]!r}")
        if found[2] in listed:
            raise Bad(f"a second line for {found[2]}")
        listed[found[2]] = found[1]
    for name, digest in listed.items():
        report.attempt(
            f"sha256 of {name}",
            lambda: report.check(digest_of(within(name)) == digest, f"sha256 of {name}"),
        )
    for name in sorted(names_there() - set(listed) - {SUMS}):
        report.check(False, f"{name} isn't listed in {SUMS}")


def names_there() -> set[str]:
    """The files of the bundle; links too, whatever they lead to."""
    return {
        path.relative_to(HERE).as_posix()
        for path in HERE.rglob("*")
        if not path.is_dir() or path.is_symlink()
    }


def check_names(report: Report, blocks: Blocks, facts: dict[str, Any]) -> None:
    """Each file is one that a check reads, by its whole name, each key of study.toml one that pitplan
    reads, and the columns of mine.blocks are those that facts.json names."""
    certificates = [verdict["file"] for verdict in verdicts_of()]
    known = {SUMS, *KNOWN, *OF_SCHEDULE, facts["table"], *certificates}
    for name in sorted(names_there() - known):
        report.check(False, f"{name}: nothing of a bundle has that name, and no check reads it")
    report.check(
        facts["settings"] == blocks.columns,
        f"the columns of model/mine.blocks are {', '.join(blocks.columns)}, as facts.json says",
    )
    check_keys(report)


# --- Reading JSON and TOML by these schemas ---


def text_of(name: str, kind: str) -> str:
    """A text of the bundle; `kind` says what it is."""
    try:
        return within(name).read_bytes().decode("utf-8")
    except UnicodeDecodeError as error:
        raise Bad(f"{name} isn't {kind} in UTF-8: {error}") from None


def once(pairs: list[tuple[str, Any]]) -> dict[str, Any]:
    """A table of JSON. A key that comes twice has two values, of which a reader takes one."""
    found = dict(pairs)
    if len(found) < len(pairs):
        key = next(key for key, count in Counter(key for key, _ in pairs).items() if count > 1)
        raise Bad(f"the key {shown(key)} comes twice in a table")
    return found


def load(name: str) -> Any:
    """What a JSON file has."""
    return of_json(text_of(name, "JSON"), name)


def of_json(text: str, name: str) -> Any:
    """What the text of a JSON file has."""
    try:
        return json.loads(text, object_pairs_hook=once)
    except Bad as error:
        raise Bad(f"{name}: {error}") from None
    except (ValueError, RecursionError) as error:
        raise Bad(f"{name} isn't JSON: {error}") from None


def toml_of(name: str) -> dict[str, Any]:
    """What the planner's TOML file has, whose lines may end as any editor ends them."""
    text = text_of(name, "TOML").removeprefix("\ufeff")
    return of_toml(text.replace("\r\n", "\n").replace("\r", "\n"), name)


def of_toml(text: str, name: str) -> dict[str, Any]:
    """What the text of a TOML file has."""
    try:
        return tomllib.loads(text)
    except (ValueError, RecursionError) as error:
        raise Bad(f"{name} isn't TOML: {error}") from None


def toml_as_written(name: str) -> dict[str, Any]:
    """What a TOML file of pitplan's own has, which `pit` reads too. Its lines end at a line feed
    alone: at any other control character two programs may end a line or not."""
    text = text_of(name, "TOML")
    strange = next((c for c in text if c != "\n" and not c.isprintable()), None)
    if strange is not None:
        raise Bad(
            f"{name} has the character {shown(strange)}, which pitplan writes into no such file"
        )
    return of_toml(text, name)


def facts_of() -> dict[str, Any]:
    """facts.json: how the table was read, the grid, and what the model has."""
    found = looked_at("facts.json:", load("facts.json"), FACTS, FACTS)
    looked_at("facts.json: grid,", found["grid"], GRID, GRID)
    looked_at("facts.json: dialect,", found["dialect"], DIALECT, DIALECT)
    return found


def manifest_of() -> dict[str, Any]:
    """model/manifest.json: what the model was made from and of."""
    found = looked_at("model/manifest.json:", load("model/manifest.json"), MANIFEST, MANIFEST)
    looked_at("model/manifest.json: source,", found["source"], SOURCE, SOURCE)
    return found


def verdicts_of() -> list[dict[str, Any]]:
    """verdicts.json: what was said of each pit."""
    found = load("verdicts.json")
    if not isinstance(found, list):
        raise Bad(f"verdicts.json is {shown(found)}, and has to be a list of pits")
    return [
        looked_at(f"verdicts.json: pit {i},", verdict, VERDICT, VERDICT)
        for i, verdict in enumerate(found, 1)
    ]


# --- The model that pit was given: places, revenues, costs and slopes of the blocks ---


def millionths(text: str) -> int:
    """An amount of .blocks in millionths, exactly."""
    found = Decimal(text) * MICRO
    if not abs(found) <= MOST_WORTH:
        raise Bad(f"{text} is more than pit reads for a block")
    if found != int(found):
        raise Bad(f"{text} has more than six decimals")
    return int(found)


class Amounts(NamedTuple):
    """What a block brings and what treating it costs, for each way to treat it, and what digging
    it costs: in millionths."""

    ways: tuple[tuple[int, int], ...]
    mining: int

    def worths(self, factor: int) -> list[int]:
        """What each way is worth at a factor in thousandths, in billionths."""
        return [factor * revenue - THOUSAND * processing for revenue, processing in self.ways]


class Blocks:
    """model/mine.blocks: places, what each block brings and costs, and by the slopes of
    model/settings.toml what it rests on.

    Attributes
    ----------
    amounts : list of Amounts
    slopes : list
        The offsets of each region, from region 0 on.
    column : int or None
        The column that says in which region a block is; None where there is one region.
    """

    def __init__(self) -> None:
        name = "model/settings.toml"
        settings = looked_at(
            f"{name}:", toml_as_written(name), SETTINGS, [*COLUMNS, "slopes", "up"]
        )
        self.slopes: list[list[list[int]]] = settings["slopes"]
        self.column: int | None = settings.get("region")
        self.listed = ways_in(settings)
        count = 2 * len(self.listed) + len(COLUMNS)
        wanted = {key: count - len(COLUMNS) + i for i, key in enumerate(COLUMNS)}
        if (
            set(settings) - set(SETTINGS)
            or self.listed != [(2 * i, 2 * i + 1) for i in range(len(self.listed))]
            or {key: settings[key] for key in wanted} != wanted
            or self.column not in (None, count)
        ):
            raise Bad(
                f"{name} names other columns of mine.blocks than pitplan writes, or other keys"
            )
        self.count = count  # of columns without that of regions
        self.rows = block_rows(count + (self.column is not None))
        self.places, self.amounts, self.tonnes = (
            list[tuple[int, ...]](),
            list[Amounts](),
            list[float](),
        )
        for b in range(len(self.rows)):
            self.take(b)

    def take(self, b: int) -> None:
        """Takes in what the line of a block says."""
        x, y, z, *columns = self.rows[b]
        self.places.append((int(x), int(y), int(z)))
        try:
            each = ((millionths(columns[i]), millionths(columns[j])) for i, j in self.listed)
            mining, tonnes = columns[self.count - len(COLUMNS) : self.count]
            self.amounts.append(Amounts(tuple(each), millionths(mining)))
            self.tonnes.append(float(tonnes))
        except Bad as error:
            raise Bad(f"block {b}: {error}") from None

    @property
    def columns(self) -> list[str]:
        """What the columns are, without that of regions, as facts.json has to say it."""
        ways = len(self.listed)
        numbers = [""] if ways == 1 else [f" {number}" for number in range(1, ways + 1)]
        return [*(f"{name}{number}" for number in numbers for name in WAY), *COLUMNS]

    def region(self, block: int) -> int:
        """The region of slopes of a block."""
        if self.column is None:
            return 0
        row = self.rows[block]
        found = row[PLACES + self.column]
        if not re.fullmatch("[0-9]{1,5}", found) or int(found) >= len(self.slopes):
            raise Bad(
                (
                    f"model/mine.blocks: the region of block {block} is {shown(found)}, and has"
                    f" to be a number of the {len(self.slopes)} slopes of model/settings.toml,"
                    " counted from 0"
                )
            )
        return int(found)

    @cached_property
    def at(self) -> dict[tuple[int, ...], int]:
        """The block at each place."""
        found = {place: b for b, place in enumerate(self.places)}
        if len(found) < len(self.places):
            raise Bad("model/mine.blocks: two blocks are at one place")
        return found

    def above(self, block: int) -> list[int]:
        """What a block rests on: the blocks at the offsets of its own region, wherever they lie
        themselves, ascending."""
        x, y, z = self.places[block]
        ways = self.slopes[self.region(block)]
        found = {self.at.get((x + i, y + j, z + k)) for i, j, k in ways}
        return sorted(other for other in found if other is not None)

    def most_pairs(self) -> int:
        """At most so many pairs of a block and another on which it rests there are."""
        count = Counter(map(self.region, range(len(self.places))))
        return sum(min(len(self.slopes[r]), len(self.places)) * n for r, n in count.items())

    def worth(self, block: int, factor: int) -> int:
        """What a block is worth at a factor in thousandths, in billionths."""
        amounts = self.amounts[block]
        return max(0, *amounts.worths(factor)) - THOUSAND * amounts.mining

    def way(self, block: int, factor: int) -> int:
        """Which way a block goes at a factor: the number, from 1, of the first of those that are
        worth most; 0 where none is worth more than 0, and it is waste."""
        worths = self.amounts[block].worths(factor)
        best = max(worths)
        return worths.index(best) + 1 if best > 0 else 0


def block_rows(width: int) -> dict[int, list[str]]:
    """The lines of model/mine.blocks by the number of the block, each without it: its place and so
    many columns. It is read as `pit` reads it, whose lines end at a line feed alone; no line may
    have a byte that pitplan writes into none, as one that parts fields for one program alone."""
    form = re.compile((PLACED + f"(?:{COLUMN}){{{width}}}").encode())
    rows: dict[int, list[str]] = {}
    with open(within("model/mine.blocks"), "rb") as file:
        for n, line in enumerate(file, 1):
            text = line.removesuffix(b"\n")
            first, _, rest = text.partition(b" ")
            if not first.isdigit() or len(first) > 10:
                raise Bad(
                    f"line {n} begins with no number of a block:"
                    f" {shown(line[:80].decode(errors='replace'))}"
                )
            block = int(first)
            if block in rows:
                raise Bad(f"line {n} is a second one of block {block}")
            if text == line or not form.fullmatch(text):
                is_whole = text != line
                raise Bad(
                    f"block {block} is {shown(rest.decode(errors='replace'))}, and has to be a place"
                    " of three whole numbers, and numbers in the columns that model/settings.toml"
                    f" names: {PLACES + width} fields without a plus or a leading 0, a space between"
                    " two, and a line feed" + ("" if is_whole else ", which isn't there")
                )
            rows[block] = rest.decode().split(" ")
    if sorted(rows) != list(range(len(rows))):
        raise Bad("the blocks aren't numbered from 0 on")
    return rows


def ways_in(settings: dict[str, Any]) -> list[tuple[int, int]]:
    """Which columns of mine.blocks have revenue and processing of each way."""
    ways = settings.get("ways")
    if ways is None:
        ways = [looked_at("model/settings.toml:", settings, WAY, list(WAY))]
    elif set(WAY) & set(settings):
        raise Bad("model/settings.toml has ways, and revenue or processing beside them")
    return [(way["revenue"], way["processing"]) for way in ways]


# --- Certificates: each pit is accepted, adds up to its worth, and lies within the next ---


def spelled(nanos: int) -> str:
    """Billionths as `pit` prints a worth."""
    whole, rest = divmod(abs(nanos), NANO)
    return ("-" if nanos < 0 else "") + f"{whole}.{rest:09d}".rstrip("0").rstrip(".")


def pieces(file: BinaryIO, most: int, what: str) -> Iterator[bytes]:
    """What a packed file of pitplan's own has, in pieces; one that unpacks to more than `most`
    bytes, which is more than it can have, isn't read on. It is one member of gzip: where another one
    follows, one program reads on and another doesn't."""
    packed = zlib.decompressobj(31)
    while data := file.read(CHUNK_SIZE):
        while data and not packed.eof:
            text = packed.decompress(data, CHUNK_SIZE)
            data = packed.unconsumed_tail
            most -= len(text)
            if most < 0:
                raise Bad(f"it unpacks to more than {what} can have")
            yield text
        if data or packed.unused_data:
            raise Bad("bytes follow the end of what is packed, as of a second member of gzip")
    if not packed.eof:
        raise EOFError("it was cut off")


def refuse_endless(file: BinaryIO, most: int) -> None:
    """Raises Bad where a packed table, of one member of gzip or several, unpacks to more bytes."""
    with gzip.open(file, "rb") as unpacked:
        while data := unpacked.read(CHUNK_SIZE):
            most -= len(data)
            if most < 0:
                raise Bad("it unpacks to more than a table can have")


class Judged(NamedTuple):
    """A certificate: what `pit check` says, the digest of the bytes that it was given, their PIT
    lines, and what the header says (of how many blocks the mine is, and at which factor in
    thousandths)."""

    said: str
    digest: str
    held: list[int]
    of: int | None
    factor: int | None


def judged(pit: str, path: Path, most: int, what: str) -> Judged:
    """Gives a certificate to `pit check`, one that unpacks to no more than so many bytes."""
    words = [
        "--blocks",
        str(within("model/mine.blocks")),
        "--settings",
        str(within("model/settings.toml")),
    ]
    digest, text = hashlib.sha256(), bytearray()
    run = subprocess.Popen(
        [pit, "check", *words, "/dev/stdin"],
        stdin=subprocess.PIPE,
        stdout=subprocess.PIPE,
        stderr=subprocess.STDOUT,
    )
    assert run.stdin and run.stdout
    try:
        with open(path, "rb") as file:
            for data in pieces(file, most, what):
                digest.update(data)
                text += data
                try:
                    run.stdin.write(data)
                except BrokenPipeError:
                    pass
        try:
            run.stdin.close()
        except BrokenPipeError:
            pass
        said = run.stdout.read().decode(errors="replace").strip()
    finally:
        run.kill()
        run.wait()
    head = re.match(rb"[^\n]*\nBLOCKS (\d{1,10})\n(?:PRICE MILL (\d{1,5})\n)?", text)
    of, factor = (
        (int(number) if number else None for number in head.groups()) if head else (None, None)
    )
    held = [line[4:] for line in bytes(text).split(b"\n") if line.startswith(b"PIT ")]
    strange = next(
        (block for block in held if not re.fullmatch(rb"0|[1-9][0-9]{0,9}", block)), None
    )
    if strange is not None:
        raise Bad(
            f"a PIT line has {shown(strange.decode(errors='replace'))}, and has to have the number of a block"
        )
    return Judged(said, digest.hexdigest(), list(map(int, held)), of, factor)


def other_mine(of: int | None, here: int) -> str:
    """What to add where a certificate's header tells that it is of another mine."""
    return (
        ""
        if of is None or of == here
        else f": the certificate is of another mine, of {of:,} blocks, and the model has {here:,}"
    )


def plainly(paths: list[Path], more: Sequence[str] = ()) -> list[str]:
    """What plainly.py says of these certificates, for each a line, by more words."""
    words = ["--blocks", "model/mine.blocks", "--settings", "model/settings.toml", *more]
    run = subprocess.run(
        [sys.executable, "-I", str(within("plainly.py")), *words, *map(str, paths)],
        cwd=HERE,
        stdout=subprocess.PIPE,
        text=True,
    )
    lines = run.stdout.splitlines()
    # where the model can't be read, that is the one line
    return (
        (lines + lines[-1:] * (len(paths) - len(lines)))[: len(paths)]
        if lines
        else ["no answer"] * len(paths)
    )


def check_pits(report: Report, pit: str, blocks: Blocks, is_plain: bool) -> list[int]:
    """Each certificate, and that its pit lies within the next. Returns the first factor whose pit
    has each block, 0 where none has it."""
    most = LINE * (3 * len(blocks.places) + blocks.most_pairs() + 10)
    room = max(SMALL, free_memory())
    limit = (most, "a certificate of this model") if most <= room else (room, "the free memory")
    shell, below, last = [0] * len(blocks.places), set[int](), -1
    verdicts = verdicts_of()
    plain = plainly([within(verdict["file"]) for verdict in verdicts]) if is_plain else []
    for verdict, line in zip_longest(verdicts, plain):
        factor = verdict["factor"]
        at = f"factor {share_text(factor)}"
        found = report.attempt(
            f"the certificate at {at}", judged, pit, within(verdict["file"]), *limit
        )
        if factor <= last:
            report.check(False, f"{at} comes after {share_text(last)}")
        if not found or factor <= last:
            continue
        there = [block for block in found.held if block < len(shell)]
        if len(there) < len(found.held):
            report.check(
                False,
                f"the pit at {at} has {len(found.held) - len(there):,} blocks that the model hasn't",
            )
        check_pit(report, blocks, verdict, found._replace(held=there), line)
        now = set(there)
        if last >= 0:
            report.check(
                below <= now,
                f"the pit at {share_text(last)} lies within that at {share_text(factor)}",
            )
        for block in now - below:
            shell[block] = shell[block] or factor
        below, last = now, factor
    return shell


def check_pit(
    report: Report, blocks: Blocks, verdict: dict[str, Any], judged: Judged, plain: str | None
) -> None:
    """A certificate: its digest, its factor, `pit check`, what plainly.py says of it if that was
    asked, and its blocks added up. Without the factor a pit that is worth the same at another one,
    as the pit of no block, could stand for a best pit that it isn't."""
    factor, at = verdict["factor"], f"factor {share_text(verdict['factor'])}"
    wanted = f"ACCEPTED {verdict['count']} {verdict['worth']}"
    report.check(
        judged.digest == verdict["certificate"],
        f"the certificate at {at} is the one whose pit is shown",
    )
    its = "no factor" if judged.factor is None else f"factor {share_text(judged.factor)}"
    report.check(judged.factor == factor, f"the certificate at {at} is of {its}")
    report.check(
        judged.said == wanted,
        f"pit check at {at}: {judged.said}"
        + (
            ""
            if judged.said == wanted
            else f", and the bundle says {wanted}{other_mine(judged.of, len(blocks.places))}"
        ),
    )
    if plain is not None:
        report.check(plain == wanted, f"plainly.py at {at}: {plain}")
    worth = spelled(sum(blocks.worth(block, factor) for block in judged.held))
    report.check(
        worth == verdict["worth"] and len(judged.held) == verdict["count"],
        f"its {len(judged.held):,} blocks add up to {worth}",
    )


def check_series(report: Report) -> None:
    """There is a pit for each factor of study.toml, and a certificate for each pit, and no more."""
    verdicts, wanted = verdicts_of(), series(study_of("shells", "factors").get("factors", SERIES))
    ours, theirs = [verdict["factor"] for verdict in verdicts], [
        share_text(factor) for factor in wanted
    ]
    report.check(
        ours == wanted and bool(ours),
        f"the pits are those at the {len(wanted):,} factors of study.toml: {', '.join(theirs)}",
    )
    there = sorted(path.relative_to(HERE).as_posix() for path in (HERE / "certificates").iterdir())
    report.check(
        there == sorted(verdict["file"] for verdict in verdicts),
        "each certificate is that of one pit",
    )


def series(factors: Any) -> list[int]:
    """The factors of [shells], in thousandths."""
    if isinstance(factors, dict):
        low, high, step = (float(factors[key]) for key in SERIES)
        if not step > 0 or not 0 <= (high - low) / step <= 10 * THOUSAND:
            raise Bad(f"factors = {factors} is no series")
        count = int((high - low) / step + 1e-9)
        factors = [low + i * step for i in range(count + 1)]
    return [round(float(share) * THOUSAND) for share in factors]


# --- The economics of study.toml: metals, and processes or a mill ---


def study_of(section: str, *keys: str) -> dict[str, Any]:
    """A section of study.toml, in which each of `keys` has a value that it may have."""
    return looked_at(
        f"study.toml: [{section}]",
        toml_of("study.toml").get(section, {}),
        {key: STUDY[section][key] for key in keys},
        NEEDED,
    )


def check_keys(report: Report) -> None:
    """study.toml has no key that nothing reads: what that says would be in no number. Nor has a file
    of JSON one that pitplan doesn't write."""
    each = {
        "study.toml is one that pitplan reads": keys_known(toml_of("study.toml")),
        "facts.json, model/manifest.json and verdicts.json is one that pitplan writes": keys_written(),
    }
    for what, tables in each.items():
        strange = [
            where + shown(key)
            for where, table, known in tables
            for key in table
            if key not in known
        ]
        report.check(
            not strange,
            f"each key of {what}"
            + (f": not so for {'; '.join(strange[:TOLD])}" if strange else ""),
        )


def keys_written() -> Iterator[tuple[str, dict[str, Any], Collection[Any]]]:
    """The tables of the files of JSON, likewise. Digests of the model and regions are held against
    the files by their names, and metals against study.toml."""
    facts, manifest = facts_of(), manifest_of()
    yield "facts.json: ", facts, FACTS
    yield "facts.json: grid, ", facts["grid"], GRID
    yield "facts.json: dialect, ", facts["dialect"], DIALECT
    yield "facts.json: columns, ", facts["columns"], ROLES
    yield "model/manifest.json: ", manifest, MANIFEST
    yield "model/manifest.json: source, ", manifest["source"], SOURCE
    for i, verdict in enumerate(verdicts_of(), 1):
        yield f"verdicts.json: pit {i}, ", verdict, VERDICT


def keys_known(plan: dict[str, Any]) -> Iterator[tuple[str, dict[str, Any], Collection[Any]]]:
    """The tables of study.toml, each with where it is and the keys that it may have."""
    yield "", plan, STUDY
    for section, kinds in STUDY.items():
        yield f"[{section}] ", table_in(plan, section), {*kinds, *TO_BUILD.get(section, ())}
    yield "[model] columns, ", table_in(table_in(plan, "model"), "columns"), ROLES
    economics = table_in(plan, "economics")
    names = [metal.get("name") for metal in tables_in(economics, "metals")]
    for i, metal in enumerate(tables_in(economics, "metals"), 1):
        yield f"[economics] metals, number {i}, ", metal, METAL
    for i, process in enumerate(tables_in(economics, "processes"), 1):
        yield f"[economics] processes, number {i}, ", process, PROCESS
        for key in ("recovery", "payable"):
            where = f"[economics] processes, number {i}, {key}, "
            yield where, table_in(process, key), names


def table_in(section: dict[str, Any], key: str) -> dict[str, Any]:
    """The table that a key has; one without keys where it has none."""
    found = section.get(key)
    return found if isinstance(found, dict) else {}


def tables_in(section: dict[str, Any], key: str) -> list[dict[str, Any]]:
    """The list of tables that a key has; of what is no table one without keys."""
    found = section.get(key)
    listed = found if isinstance(found, list) else []
    return [each if isinstance(each, dict) else {} for each in listed]


def economics_of() -> dict[str, Any]:
    """[economics] of study.toml, with its metals."""
    found = study_of("economics", *STUDY["economics"])
    for i, metal in enumerate(found["metals"], 1):
        looked_at(f"study.toml: [economics] metals, number {i},", metal, METAL, NEEDED)
    for i, process in enumerate(found.get("processes", ()), 1):
        looked_at(f"study.toml: [economics] processes, number {i},", process, PROCESS, NEEDED)
    both = [key for key in ("processing", "mill") if key in found]
    if "processes" in found and both:
        raise Bad(f"study.toml: [economics] has processes, and {both[0]} beside them")
    if "processes" not in found and "processing" not in found:
        raise Bad("study.toml: [economics] has neither processing nor processes")
    return found


class Treatment(NamedTuple):
    """A way to treat blocks, by study.toml: which rocks it takes (None of all but air), what a
    tonne of feed costs, the share of the ore that gets there, the feed for each tonne of ore, and
    of each metal what is recovered and what share of the price is paid."""

    name: str
    rocks: list[str] | None
    cost: Any
    kept: float
    feed: float
    recovery: dict[str, Any]
    payable: dict[str, float]


def treatments_of(economics: dict[str, Any]) -> list[Treatment]:
    """The processes of [economics], or its mill."""
    listed = economics.get("processes")
    if listed is None:
        mill = {"name": "mill", "cost": economics["processing"], "rocks": economics.get("mill")}
        listed = [mill]
    found = []
    for each in listed:
        kept, more = (
            each.get(key, economics.get(key, usual))
            for key, usual in (("mining_recovery", 1.0), ("dilution", 0.0))
        )
        shares = [
            {
                metal["name"]: each.get(key, {}).get(metal["name"], metal.get(key, 1.0))
                for metal in economics["metals"]
            }
            for key in ("recovery", "payable")
        ]
        rocks = each.get("rocks")
        found.append(Treatment(each["name"], rocks, each["cost"], kept, kept * (1 + more), *shares))
    return found


# --- The planner's table, read anew; sub-blocks added up into whole blocks ---


class Table:
    """The planner's table, read again by the csv module.

    Attributes
    ----------
    rows : dict
        The cells of each row that isn't blank, by its number below the header line.
    passed : dict
        Likewise those that were passed over, as descriptions.
    more : dict
        Likewise rows that stand for blocks that were added, after all others.
    """

    def __init__(self, facts: dict[str, Any], absent: list[str]) -> None:
        self.facts, self.dialect, self.absent = (
            facts,
            facts["dialect"],
            [mark.strip() for mark in absent],
        )
        self.marks = {
            float(plain)
            for mark in self.absent
            if NUMBER.fullmatch(plain := COMMA.sub(r"\1.\2", mark))
        }
        self.name: str = facts["table"]
        self.names, filled = self.read()
        self.more = dict[int, list[str]]()
        self.rows, self.passed = (
            {i: row for i, row in filled.items() if (i >= self.dialect["skip"]) == is_block}
            for is_block in (True, False)
        )
        self.at = {name: i for i, name in enumerate(self.names)}
        for key, column in facts["columns"].items():
            self.asked("facts.json: columns,", key, column)

    def read(self) -> tuple[list[str], dict[int, list[str]]]:
        """The names of the header line, and the cells of each row that isn't blank."""
        path, encoding = within(self.name), self.dialect["encoding"]
        is_packed = path.suffix.lower() == ".gz"
        if is_packed:
            with open(path, "rb") as packed:
                refuse_endless(
                    packed,
                    max(SMALL, min(MOST_TIMES * path.stat().st_size, free_memory() // HELD)),
                )
        try:
            with gzip.open(path, "rt", 9, encoding, newline="") if is_packed else open(
                path, encoding=encoding, newline=""
            ) as file:
                rows = csv.reader(file, delimiter=self.dialect["separator"], skipinitialspace=True)
                names = [name.strip() or f"column {i + 1}" for i, name in enumerate(next(rows, []))]
                return names, {
                    i: row for i, row in enumerate(rows) if any(cell.strip() for cell in row)
                }
        except (csv.Error, UnicodeError) as error:
            raise Bad(
                f"{self.name} can't be read as {encoding}, which facts.json says it is: {error}"
            ) from None

    def asked(self, where: str, key: str, column: str) -> None:
        """Raises Bad where a file names a column that the table hasn't."""
        if column not in self.at:
            raise Bad(
                (
                    f"{where} {key} is {shown(column)}, and has to be a column of {self.name}:"
                    f" {shown(', '.join(self.names))}"
                )
            )

    def word(self, row: int, column: str) -> str:
        """A cell as it stands."""
        cells = self.more[row] if row in self.more else self.rows[row]
        return cells[self.at[column]] if self.at[column] < len(cells) else ""

    def number(self, row: int, column: str) -> float:
        """A cell as a number; what stands for "not estimated" is 0."""
        return self.number_of(Table.word(self, row, column), row, column)

    def number_of(self, word: str, row: int, column: str) -> float:
        """What stands in a cell of a row as a number, likewise."""
        cell = word.strip()
        if cell in self.absent:
            return 0.0
        plain = cell.replace(self.dialect["decimal"], ".")
        if not NUMBER.fullmatch(plain):
            raise Bad(
                f"{self.name}, row {row + 2}, column {column}: the cell is {shown(cell)}, and has to be a number"
            )
        return 0.0 if float(plain) in self.marks else float(plain)

    @cache
    def is_of_numbers(self, column: str) -> bool:
        """Whether each cell of a column is a number, empty, or stands for "not estimated"."""
        cells = {Table.word(self, row, column).strip() for row in self.rows}
        return all(
            not cell
            or cell in self.absent
            or NUMBER.fullmatch(cell.replace(self.dialect["decimal"], "."))
            for cell in cells
        )

    def sizes(self, row: int) -> list[float]:
        """How long a row's block is along the model's axes, by its own columns where there are
        such."""
        columns, size = self.facts["columns"], self.facts["grid"]["size"]
        return [
            Table.number(self, row, columns[key]) if key in columns else float(length)
            for key, length in zip(("dx", "dy", "dz"), size)
        ]

    def tonnes(self, row: int) -> float:
        """Of a row's block: its tonnes, or its density times its volume."""
        if "tonnes" in self.facts["columns"]:
            return Table.number(self, row, self.facts["columns"]["tonnes"])
        size, lengths = self.facts["grid"]["size"], self.sizes(row)
        volume: float = size[0] * size[1] * size[2]
        return (
            Table.number(self, row, self.facts["columns"]["density"])
            * (lengths[0] * lengths[1] * lengths[2] / volume)
            * volume
        )


class AddedUp(Table):
    """The planner's table with its sub-blocks added up again: each whole block stands in its first
    row, with the means of its numbers, weighted by tonnes, and of words and codes what most of its
    tonnes have.

    Attributes
    ----------
    of : dict
        The rows of each block, by its first.
    """

    def __init__(self, facts: dict[str, Any], absent: list[str], codes: set[str]) -> None:
        self.parts = Table(facts, absent)
        self.__dict__.update(self.parts.__dict__)  # read once
        columns = facts["columns"]
        self.places, self.lengths = {columns[key]: i for i, key in enumerate("xyz")}, {
            columns[key]: i for i, key in enumerate(("dx", "dy", "dz")) if key in columns
        }
        self.weighed = columns.get("tonnes", columns.get("density"))
        self.are_words = {columns.get("rock"), columns.get("id")}
        self.codes = {
            column
            for column in self.names
            if column in codes or unicodedata.normalize("NFKC", column) in codes
        }
        at = defaultdict[tuple[int, ...], list[int]](list)
        for row in self.rows:
            at[tuple(round(step) for step in local_steps(self, row, facts))].append(row)
        self.of = {rows[0]: rows for rows in at.values()}

    @cached_property
    def weight(self) -> dict[int, float]:
        """What each row weighs, by its columns unless `weigh_by` says otherwise."""
        return {row: Table.tonnes(self, row) for row in self.rows}

    def weigh_by(self, tonnes: Callable[[int], float]) -> None:
        """From now on sub-blocks weigh what a function says, and the column of their tonnes is one
        as any other."""
        self.weighed, self.weight = None, {row: tonnes(row) for row in self.rows}

    def fault(self) -> str | None:
        """What is wrong with the sub-blocks: one that lies over a side of its block, or more in a
        block than it holds."""
        size = self.facts["grid"]["size"]
        for first, rows in self.of.items():
            filled = 0.0
            for row in rows:
                lengths = self.sizes(row)
                filled += math.prod(lengths) / math.prod(size)
                far = [
                    abs(step - round(step)) + length / side / 2
                    for step, length, side in zip(local_steps(self, row, self.facts), lengths, size)
                ]
                if max(far) > 0.502:
                    return f"row {row + 2} lies over a side of its block"
            if filled > 1.002:
                return f"the sub-blocks of the block of row {first + 2} fill {filled:.3f} of it"
        return None

    def most(self, row: int, column: str) -> str:
        """The cell of a block that most of its tonnes have, the first of those with as many."""
        tonnes, cell_of = dict[Any, float](), dict[Any, str]()
        for part in self.of[row]:
            cell = Table.word(self, part, column)
            is_number = (
                column not in self.are_words
                and self.is_of_numbers(column)
                and (cell.strip() or "" in self.absent)
            )
            value = Table.number(self, part, column) if is_number else cell.strip()
            cell_of.setdefault(value, cell)
            tonnes[value] = tonnes.get(value, 0.0) + self.weight[part]
        # max gives the first of several
        return cell_of[max(tonnes, key=lambda value: tonnes[value])]

    def word(self, row: int, column: str) -> str:
        """The cell of a row; of a block in parts the one that most of its tonnes have."""
        return (
            self.most(row, column)
            if row in self.of and len(self.of[row]) > 1
            else super().word(row, column)
        )

    def is_whole(self, row: int) -> bool:
        """Whether a row is a whole block, and no sub-block."""
        return all(
            abs(length - side) <= 1e-3 * side
            for length, side in zip(self.sizes(row), self.facts["grid"]["size"])
        )

    def number(self, row: int, column: str) -> float:
        """Of a block: the sum of tonnes, its own place and size, what most of its tonnes have of a
        column of codes, and else the mean by tonnes."""
        rows = self.of[row]
        if column in self.lengths:
            return float(self.facts["grid"]["size"][self.lengths[column]])
        if column in self.places and not self.is_whole(row):
            centre = centre_of(
                tuple(round(step) for step in local_steps(self, row, self.facts)), self.facts
            )
            return centre[self.places[column]]
        if column == self.weighed:
            return self.tonnes(row) / (
                1.0
                if "tonnes" in self.facts["columns"]
                else float(math.prod(self.facts["grid"]["size"]))
            )
        found = [Table.number(self, part, column) for part in rows]
        if len(set(found)) == 1:
            return found[0]
        if column in self.codes:
            return self.parts.number_of(self.most(row, column), row, column)
        total = sum(self.weight[part] for part in rows)
        return (
            sum(self.weight[part] * value for part, value in zip(rows, found)) / total
            if total > 0
            else 0.0
        )

    def tonnes(self, row: int) -> float:
        return sum(self.weight[part] for part in self.of[row])


# --- Formulas of study.toml, worked out row by row ---


@cache
def parsed(text: str) -> ast.expr:
    """A formula as a tree: it is the same for each row."""
    return ast.parse(text.strip(), mode="eval").body


def divided(a: float, b: float) -> float:
    """As numpy divides: by 0 that is no number or infinite, which `where` may pass over."""
    return (
        a / b
        if b
        else math.nan
        if not a or math.isnan(a)
        else math.copysign(math.inf, a) * math.copysign(1.0, b)
    )


def raised(a: float, b: float) -> float:
    """A power as numpy has it, likewise."""
    try:
        found: Any = math.inf if not a and b < 0 else a**b
    except OverflowError:
        found = -math.inf if a < 0 and b % 2 == 1 else math.inf
    return math.nan if isinstance(found, complex) else float(found)


class Formula:
    """A formula of study.toml, worked out for one row at a time: numbers, words, columns, operators
    and five functions."""

    BINARY: dict[type, Callable[[Any, Any], Any]] = {
        ast.Add: lambda a, b: a + b,
        ast.Sub: lambda a, b: a - b,
        ast.Mult: lambda a, b: a * b,
        ast.Div: divided,
        ast.Pow: raised,
    }
    ORDER: dict[type, Callable[[Any, Any], Any]] = {
        ast.Gt: lambda a, b: a > b,
        ast.GtE: lambda a, b: a >= b,
        ast.Lt: lambda a, b: a < b,
        ast.LtE: lambda a, b: a <= b,
        ast.Eq: lambda a, b: a == b,
        ast.NotEq: lambda a, b: a != b,
    }
    CALLS: dict[tuple[str, int], Callable[..., Any]] = {
        ("where", 3): lambda a, b, c: b if a else c,
        ("min", 2): min,
        ("max", 2): max,
        ("abs", 1): abs,
        ("sqrt", 1): lambda a: math.sqrt(a) if a >= 0 else math.nan,
    }
    UNARY: dict[type, Callable[[Any], Any]] = {
        ast.USub: lambda a: -a,
        ast.UAdd: lambda a: +a,
        ast.Not: lambda a: not a,
    }

    def __init__(
        self, text: str, cell: Callable[[str], Any], off: dict[str, float] | None = None
    ) -> None:
        self.tree, self.cell, self.off = parsed(text), cell, off or {}

    def compared(self, op: ast.cmpop, a: Any, b: Any, parts: tuple[ast.expr, ast.expr]) -> bool:
        """One comparison; names of `off` may be so much less or more than they are."""
        off = max(self.off.get(ast.unparse(part), 0.0) for part in parts)
        if off and abs(a - b) <= off:
            return isinstance(op, (ast.GtE, ast.LtE, ast.Eq))
        return bool(self.ORDER[type(op)](a, b))

    def value(self, node: ast.expr | None = None) -> Any:
        """What a part of the formula is for the row that `cell` reads."""
        node = node or self.tree
        if isinstance(node, ast.Constant) and isinstance(node.value, (int, float, str)):
            return node.value if isinstance(node.value, str) else float(node.value)
        if isinstance(node, ast.Name):
            return self.cell(node.id)
        if isinstance(node, ast.BinOp) and type(node.op) in self.BINARY:
            return self.BINARY[type(node.op)](self.value(node.left), self.value(node.right))
        if isinstance(node, ast.UnaryOp) and type(node.op) in self.UNARY:
            return self.UNARY[type(node.op)](self.value(node.operand))
        if isinstance(node, ast.Compare) and all(type(op) in self.ORDER for op in node.ops):
            parts = (node.left, *node.comparators)
            sides = [
                side.strip() if isinstance(side, str) else side for side in map(self.value, parts)
            ]
            return all(
                self.compared(op, sides[i], sides[i + 1], (parts[i], parts[i + 1]))
                for i, op in enumerate(node.ops)
            )
        if isinstance(node, ast.BoolOp):
            return (all if isinstance(node.op, ast.And) else any)(
                [self.value(side) for side in node.values]
            )
        if isinstance(node, ast.Call) and isinstance(node.func, ast.Name) and not node.keywords:
            words, called = [self.value(word) for word in node.args], (node.func.id, len(node.args))
            if called == ("column", 1) and isinstance(words[0], str):
                return self.cell(words[0])
            if called in self.CALLS:
                return self.CALLS[called](*words)
        raise Bad(f"{shown(ast.unparse(node))} is no part of a formula")


def finite(value: Any) -> float:
    """A number that a formula gives; Bad where it is none."""
    found = float(value)
    if not math.isfinite(found):
        raise Bad("it gives no number")
    return found


def yes_or_no(value: Any) -> bool:
    """What a comparison gives; Bad where it is something else."""
    if not isinstance(value, bool):
        raise Bad("it says neither yes nor no")
    return value


# --- Revenue and cost of each row, by the economics of study.toml ---


class Worked(NamedTuple):
    """What the table and [economics] make of a block: what becomes of it by each way to treat it,
    what digging it costs, its tonnes, those of its ore, and of each metal of a block that one of
    the ways takes the grade in place.
    """

    ways: list[Treated]
    mining: float
    tonnes: float
    ore: float
    grades: dict[str, float]


class Treated(NamedTuple):
    """What a block brings if it is treated by one way, what that costs, and of each metal what is
    recovered."""

    revenue: float
    processing: float
    metals: dict[str, float]


class OfRows(NamedTuple):
    """What the table says row by row: the list of offsets that each block has, what each is made
    of, which blocks `forbid` keeps, what each weighs, of which no digit is lost, and its resource
    class, where the table has classes."""

    regions: list[int | None]
    worked: list[Worked | None]
    fenced: list[int]
    tonnes: list[float]
    classes: list[str] | None


class Own(NamedTuple):
    """What an added block weighs, and its rock."""

    tonnes: float
    rock: str


class Economics:
    """[economics] of study.toml, worked out again for each row of the table."""

    def __init__(self, plan: dict[str, Any], table: Table, facts: dict[str, Any]) -> None:
        self.plan, self.table, self.columns = plan, table, facts["columns"]
        self.of_parts = Economics(plan, table.parts, facts) if isinstance(table, AddedUp) else None
        self.rounding = float(plan.get("rounding", 1))
        model = study_of("model", "tonnes", "units")
        units = model.get("units", {})
        self.in_tonnes = UNITS["weight"][units.get("weight", "t")]  # one unit of weight
        self.of_cube = UNITS["length"][units.get("length", "m")] ** 3 / self.in_tonnes
        self.weight: str | float | None = model.get("tonnes")
        if self.weight is None and {"tonnes", "density"}.isdisjoint(self.columns):
            raise Bad("facts.json: columns names none of tonnes and density, and [model] no tonnes")
        if isinstance(table, AddedUp) and ORE in self.columns:
            raise Bad("sub-blocks are ore in part, which pitplan refuses")
        self.has_words: dict[str, bool] = {}
        self.is_weighing = False
        self.own = dict[int, Own]()  # of the rows of added blocks
        self.sum_of: Callable[[int], float] | None = None  # what sub-blocks weigh by themselves
        if (
            isinstance(table, AddedUp)
            and self.of_parts
            and (self.weight is not None or PART in self.columns)
        ):
            table.weigh_by(self.of_parts.tonnes)
            self.sum_of = table.tonnes
        for i, metal in enumerate(plan["metals"], 1):
            table.asked(f"study.toml: [economics] metals, number {i},", "grade", metal["grade"])

    def rock(self, row: int) -> str:
        """The rock of a row: of an added block its own, and "rock" where no column says it."""
        if row in self.own:
            return self.own[row].rock
        return (
            self.table.word(row, self.columns["rock"]).strip() if "rock" in self.columns else "rock"
        )

    def tonnes(self, row: int) -> float:
        """Of a block: as the formula of [model] says, or as its columns do; of it the part that is
        rock. Of sub-blocks the sum of what each weighs so."""
        if row in self.own:
            return self.own[row].tonnes
        if self.sum_of is not None:
            return self.sum_of(row)
        if self.weight is None:
            found = self.table.tonnes(row) * (1.0 if "tonnes" in self.columns else self.of_cube)
        elif isinstance(self.weight, str):
            found = self.formula("tonnes", self.weight, row, finite)
        else:
            found = float(self.weight)
        return found * self.part(row, PART)

    def part(self, row: int, of: str) -> float:
        """A part of a block, by the percent of its column; no cell stands for "not estimated"
        there."""
        if of not in self.columns:
            return 1.0
        column = self.columns[of]
        if self.table.word(row, column).strip() in self.table.absent:
            raise Bad(f"{self.table.name}, row {row + 2}, column {column}: there is no percent")
        found = self.table.number(row, column) / 100
        if not 0 <= found <= 1 + 1e-9:
            raise Bad(f"{self.table.name}, row {row + 2}, column {column}: that is no percent")
        return found

    def cell(self, row: int, name: str) -> Any:
        """What a formula gets for a column. Python reads some letters of a plain word as others
        that look alike, as the sign of micro as a Greek mu."""
        if name not in self.table.at:
            name = next(
                (
                    column
                    for column in self.table.names
                    if unicodedata.normalize("NFKC", column) == name
                ),
                name,
            )
        if name in self.table.at:
            word = self.table.word(row, name).strip()
            if name not in self.has_words:
                self.has_words[name] = name in (
                    self.columns.get("rock"),
                    self.columns.get("id"),
                ) or not self.table.is_of_numbers(name)
            return (
                word
                if self.has_words[name]
                else self.table.number(row, name)
                if word or word in self.table.absent
                else math.nan
            )
        if name == "rock" or name == "tonnes" and not self.is_weighing:
            return self.rock(row) if name == "rock" else self.tonnes(row)
        raise Bad(f"it names {shown(name)}, which is no column of {self.table.name}")

    def formula(self, key: str, text: str, row: int, kind: Callable[[Any], Any]) -> Any:
        """What the formula of a key gives for a row, as `kind` makes it of that."""
        section = "model" if key == "tonnes" else "economics"
        self.is_weighing = section == "model"  # which can't rest on its own answer
        try:
            return kind(Formula(text, lambda name: self.cell(row, name)).value())
        except (Bad, *UNWORKABLE) as error:
            why = error if isinstance(error, Bad) else "it is no formula, or it counts with words"
            raise Bad(
                (
                    f"study.toml: [{section}] {key} is {shown(text)}, and has to be a formula"
                    f" that can be worked out; for row {row + 2} of {self.table.name} it can't"
                    f" be: {why}"
                )
            ) from None
        finally:
            self.is_weighing = False

    def amount(self, key: str, value: Any, row: int) -> float:
        """A number, a column, a formula, or a number by rock."""
        if isinstance(value, dict):
            return float(value.get(self.rock(row), value.get("other", 0.0)))
        if isinstance(value, str):
            return (
                self.table.number(row, value)
                if value in self.table.at
                else float(self.formula(key, value, row, finite))
            )
        return float(value)

    def is_fenced(self, row: int) -> bool:
        """Whether a formula of forbid keeps the block of a row, or one of its sub-blocks; it keeps
        no air, which has no tonnes."""
        if self.of_parts and isinstance(self.table, AddedUp):
            return any(map(self.of_parts.is_fenced, self.table.of[row]))
        return self.tonnes(row) > 0 and any(
            self.formula("forbid", text, row, yes_or_no) for text in self.plan.get("forbid", ())
        )

    def is_of_waste(self, row: int) -> bool:
        """Whether the block of a row is of a class that counts as waste. In a column of numbers 3
        and 3.0 are the same class; an empty cell is of class none."""
        wasted = self.plan.get("waste_classes", ())
        if not wasted:
            return False
        if "class" not in self.columns:
            raise Bad(
                "study.toml: [economics] has waste_classes, and facts.json has no column of classes"
            )
        return self.class_of(row) in wasted

    def class_of(self, row: int) -> str:
        """The resource class of the block of a row."""
        cell = self.cell(row, self.columns["class"])
        if isinstance(cell, float):
            cell = "" if math.isnan(cell) else f"{cell:.0f}" if cell.is_integer() else str(cell)
        return str(cell) or NO_CLASS

    def classes(self, rows: list[int]) -> list[str] | None:
        """The class of each block, by their rows; of one without a row it is none. Nothing where the
        table has no classes."""
        if "class" not in self.columns:
            return None
        return [self.class_of(row) if row >= 0 else NO_CLASS for row in rows]

    def of_row(self, row: int) -> Worked:
        """What the block of a row comes to."""
        plan, tonnes = self.plan, self.tonnes(row)
        ore, grades = tonnes * self.part(row, ORE), dict[str, float]()
        ways = [self.treated(row, ore, way, grades) for way in treatments_of(plan)]
        return Worked(ways, self.digging(row), tonnes, ore, grades)

    def digging(self, row: int) -> float:
        """What digging the block of a row costs."""
        return self.tonnes(row) * self.amount("mining", self.plan["mining"], row)

    def treated(self, row: int, ore: float, way: Treatment, grades: dict[str, float]) -> Treated:
        """What the block of a row comes to by one way to treat it, nothing where it may not go
        there; keeps the grades that it asks for."""
        takes = (way.rocks is None or self.rock(row) in way.rocks) and not self.is_of_waste(row)
        metals, revenue, selling = dict[str, float](), 0.0, 0.0
        if not takes:
            return Treated(0.0, 0.0, metals)
        for metal in self.plan["metals"]:
            name = metal["name"]
            content = GRADES[metal.get("grade_unit", "%")] / PRICES[metal.get("price_unit", "t")]
            content *= self.in_tonnes
            grades[name] = grade = self.table.number(row, metal["grade"])
            share = self.amount("recovery", way.recovery[name], row)
            metals[name] = units = ore * way.kept * grade * content * share
            rate = self.rate_of(metal)
            revenue += units * (metal["price"] * rate) * way.payable[name]
            selling += units * (metal.get("selling", 0.0) * rate)
        treating = ore * way.feed * self.amount("processing", way.cost, row) + selling
        return Treated(revenue, treating, metals)

    def rate_of(self, metal: dict[str, Any]) -> float:
        """What a unit of a metal's currency is worth in that of the study."""
        ours = self.plan.get("currency", "$")
        currency = metal.get("currency", ours)
        if currency == ours:
            return 1.0
        rates = self.plan.get("exchange", {})
        if currency not in rates:
            raise Bad(f"study.toml: [economics] exchange says nothing of {shown(currency)}")
        return float(rates[currency])

    def is_near(self, ours: float, theirs: int) -> bool:
        """Whether an amount in millionths is the nearest multiple of `rounding`."""
        return (
            math.isfinite(ours)
            and theirs % round(self.rounding * MICRO) == 0
            # half a unit of what amounts are rounded to, and not a thousandth of it more
            and abs(theirs / MICRO - ours) <= self.rounding * 0.5 + LEFT * abs(ours)
        )


def codes_of(economics: dict[str, Any], by: str | None) -> set[str]:
    """The columns that stand for codes: those that `by`, a comparison or `forbid` names, without
    the grades of metals."""

    def names(tree: ast.AST) -> set[str]:
        nodes = list(ast.walk(tree))
        return {node.id for node in nodes if isinstance(node, ast.Name)} | {
            str(node.args[0].value)
            for node in nodes
            if isinstance(node, ast.Call)
            and ast.unparse(node.func) == "column"
            and node.args
            and isinstance(node.args[0], ast.Constant)
        }

    def tree_of(text: str) -> ast.AST:
        try:
            return parsed(text)
        except UNWORKABLE:
            # a column whose name is no plain word, or no formula, which is told where it is worked out
            return ast.Constant(0)

    amounts = [economics["mining"], *(metal.get("recovery") for metal in economics["metals"])]
    for way in treatments_of(economics):
        amounts += [way.cost, *way.recovery.values()]
    compared = [
        node
        for text in amounts
        if isinstance(text, str)
        for node in ast.walk(tree_of(text))
        if isinstance(node, ast.Compare)
    ]
    found = set().union(
        *map(names, compared), *(names(tree_of(text)) for text in economics.get("forbid", ()))
    )
    return (
        (found | names(tree_of(by or "0"))) - {metal["grade"] for metal in economics["metals"]}
    ) | ({by} if by else set())


# --- Consistency: facts.json and manifest.json agree with the other files ---


def check_facts(report: Report, blocks: Blocks, facts: dict[str, Any]) -> None:
    """What facts.json and model/manifest.json say of the other files is so, and is what study.toml
    asks for."""
    manifest, model = manifest_of(), study_of("model", "size", "rotation", "columns", "z")
    table, grid = digest_of(within(facts["table"])), facts["grid"]
    report.check(
        table == facts["sha256"] == manifest["source"]["sha256"]
        and manifest["source"]["table"] == facts["table"],
        "the table is the one that the model was built from",
    )
    listed = manifest["files"]
    bad = [
        name
        for name, digest in listed.items()
        if name not in OF_MODEL or digest_of(within(f"model/{name}")) != digest
    ]
    key = hashlib.sha256("".join(listed.get(name, "") for name in OF_MODEL).encode()).hexdigest()
    report.check(
        not bad and set(listed) == set(OF_MODEL) and manifest["key"] == key,
        "the files of model/ are those that were built"
        + (f": not so for {', '.join(bad)}" if bad else ""),
    )
    regions = ["default", *study_of("slopes", "regions").get("regions", {})]
    report.check(
        len(blocks.slopes) == len(regions) and list(manifest["regions"]) == regions,
        f"there are as many lists of offsets as slopes in study.toml, {len(regions):,}, by the same names",
    )
    count = Counter(map(blocks.region, range(len(blocks.places))))
    report.check(
        len(blocks.places) == facts["blocks"] == manifest["blocks"]
        and [count[r] for r in range(len(regions))] == list(manifest["regions"].values()),
        f"the model has {len(blocks.places):,} blocks, in each region of slopes as many as it was built with",
    )
    asked = {"size": model.get("size", grid["size"]), "rotation": model.get("rotation", 0.0)}
    columns = {**facts["columns"], **model.get("columns", {})}
    shape = [1 + max(steps) for steps in zip(*blocks.places)]
    report.check(
        asked == {key: grid[key] for key in asked}
        and columns == facts["columns"]
        and facts["depth"] == (model.get("z") == "depth")
        and grid["shape"] == shape,
        "the grid and the columns are those of [model] in study.toml",
    )
    check_sold(report, facts, manifest)
    check_schedule_is_there(report, facts)


def check_sold(report: Report, facts: dict[str, Any], manifest: dict[str, Any]) -> None:
    """What both files say of [economics], and of the program that made the bundle."""
    economics = economics_of()
    currency = economics.get("currency", "$")
    report.check(
        currency == facts["currency"] == manifest["currency"], f"amounts are in {currency}"
    )
    usual = {"grade": None, "grade_unit": "%", "price_unit": "t"}
    metals = {
        metal["name"]: {key: metal.get(key, value) for key, value in usual.items()}
        for metal in economics["metals"]
    }
    report.check(
        manifest["metals"] == metals
        and manifest["waste_classes"] == economics.get("waste_classes", []),
        "model/manifest.json has the metals and the waste_classes of study.toml",
    )
    report.check(
        manifest["pit"] == facts["pit"], "model/manifest.json and facts.json name the same pit"
    )


# --- The plan by years: all its files are there, and pit schedule confirms it ---


def check_schedule_is_there(report: Report, facts: dict[str, Any]) -> None:
    """A plan by years is in the bundle where facts.json says so, with each of its files. Whether
    one was found that isn't in it can't be judged here."""
    there = [name for name in OF_SCHEDULE if within(name).exists()]
    gone = sorted(set(OF_SCHEDULE) - set(there))
    if facts["has_schedule"] or there:
        report.check(
            facts["has_schedule"] and not gone,
            "the plan by years is in the bundle, which recheck_schedule.py checks"
            + (f": not so for {', '.join(gone)}" if gone else "")
            + ("" if facts["has_schedule"] else ": facts.json says that it has none"),
        )
    elif toml_of("study.toml").get("schedule"):  # without any key it asks for nothing
        report.say(
            "look",
            "study.toml asks for a plan by years, and the bundle has none:"
            " ask whether none was found, or it was taken out",
        )


def is_planned_by_blocks() -> bool:
    """Whether study.toml asks for a plan of single blocks, whose bound is over model/; that of panels
    or pushbacks is over a mine of units, which recheck_schedule.py makes again."""
    terms = study_of("schedule", *STUDY["schedule"])
    return terms.get("panel", 1) == 1 and not terms.get("pushbacks")


def of_cutoff() -> str:
    """Of which choice of ways a bound is, by study.toml."""
    cutoff = study_of("schedule", "cutoff").get("cutoff", "fixed")
    where = "where it is worth most at the full price" if cutoff == "fixed" else "by whichever way"
    return f', whose bound is of schedules with each block {where} (cutoff = "{cutoff}")'


def before_costs() -> str:
    """That what `pit schedule` says is before fixed costs, which it doesn't know, where there are any."""
    has_costs = study_of("schedule", "fixed_cost").get("fixed_cost", 0) > 0
    return ", before fixed costs, which recheck_schedule.py takes off" if has_costs else ""


def check_planned(report: Report, pit: str, is_plain: bool) -> None:
    """What `pit schedule` says of the plan by years: of single blocks beside its bound, over the pit at
    the full price; and of that bound plainly.py, where it is asked."""
    if not all(within(name).exists() for name in OF_SCHEDULE):
        return
    words = [
        *("--blocks", str(within("model/mine.blocks"))),
        *("--settings", str(within("model/settings.toml"))),
        *("--uses", str(within("schedule/uses.blocks"))),
        *("--periods", str(within("schedule/periods.toml"))),
    ]
    is_by_blocks = is_planned_by_blocks()
    packed = {"--best": "schedule/bound.cert.gz", "--pit": "certificates/f01000.cert.gz"}
    with tempfile.TemporaryDirectory() as work:
        more = ["--factor", "1000"]
        if is_by_blocks:
            more = [word for option in packed for word in (option, f"{work}/cert{option}")]
            for option, name in packed.items():
                with open(within(name), "rb") as file, open(f"{work}/cert{option}", "wb") as text:
                    text.writelines(pieces(file, MOST_UNPACKED, "a certificate"))
        plan = str(within("schedule/schedule.txt"))
        ran = subprocess.run(
            [pit, "schedule", *words, *more, "--verbose", plan],
            stdout=subprocess.PIPE,
            stderr=subprocess.STDOUT,
            text=True,
        )
    found = PLANNED.fullmatch(ran.stdout)
    is_so = ran.returncode == 0 and found is not None and is_by_blocks == bool(found[3])
    said = " ".join(ran.stdout.split())
    report.check(
        is_so,
        f"pit schedule of the plan by years{of_cutoff() if is_by_blocks else ''}{before_costs()}:"
        f" {said[:400]}",
    )
    if is_plain and is_by_blocks and found:
        pit_of = ["--pit", str(within(packed["--pit"]))]
        (line,) = plainly([within(packed["--best"])], [*words[4:], *pit_of])
        report.check(line == f"BOUND {found[3]}", f"plainly.py of its bound: {line}")


# --- Model against table: place, tonnage, revenue and cost of each block ---


def check_table(report: Report, blocks: Blocks, facts: dict[str, Any]) -> OfRows | None:
    """Each block's place, tonnes and amounts are those of its row of the planner's table, or of its
    sub-blocks added up again. Gives what the rows say, None where they aren't those of the
    blocks."""
    model = study_of("model", "absent", "regularise")
    report.say(
        "look",
        "the columns that were taken: "
        + ", ".join(f"{key} = {name}" for key, name in facts["columns"].items()),
    )
    table = table_of(report, facts, model)
    economics = Economics(economics_of(), table, facts)
    check_passed(report, table, facts)
    rows = [line.row - 2 for line in numbering()]
    if not check_rows(report, table, blocks, rows):
        return None
    is_placed_well = check_places(report, table, economics, blocks, rows)
    asked = asked_for(report, blocks, rows) if is_placed_well else {}
    strange = added_without_need(blocks, rows, asked)
    if strange:
        report.check(
            False,
            f"{len(strange):,} blocks have no row, and study.toml asks for none (widen, missing)",
        )
    found = Added(table, economics, blocks, rows, asked)
    check_added(report, blocks, found)
    fenced = [b for b, row in enumerate(found.rows) if row >= 0 and economics.is_fenced(row)]
    worked = check_amounts(report, economics, blocks, found, set(fenced))
    tonnes = [
        each.tonnes if each else found.sources[b][1] if b in found.sources else blocks.tonnes[b]
        for b, each in enumerate(worked)
    ]
    return OfRows(found.regions(), worked, fenced, tonnes, economics.classes(rows))


def check_rows(report: Report, table: Table, blocks: Blocks, rows: list[int]) -> bool:
    """Each row of the table, or of sub-blocks the first of each block, is that of one block."""
    wanted, what = (
        list(table.rows),
        f"each of the {len(table.rows):,} rows of the table is one block",
    )
    if isinstance(table, AddedUp):
        wanted, what = (
            list(table.of),
            f"the {len(table.rows):,} rows of the table are {len(table.of):,} blocks, each in its first row",
        )
    known = [row for row in rows if row >= 0]
    return report.check(len(rows) == len(blocks.places) and sorted(known) == sorted(wanted), what)


def check_places(
    report: Report, table: Table, economics: Economics, blocks: Blocks, rows: list[int]
) -> bool:
    """Each block lies where its row says, and weighs that; blocks are of the table's own size. Says
    whether all of that holds."""
    steps: dict[str, Callable[[int, int], bool]] = {
        "place": lambda b, row: is_placed(table, row, blocks.places[b], table.facts),
        "tonnage": lambda b, row: is_of_weight(economics.tonnes(row), blocks.tonnes[b]),
    }
    holds = True
    for what, is_right in steps.items():
        bad = [row for b, row in enumerate(rows) if row >= 0 and not is_right(b, row)]
        holds &= report.check(
            not bad,
            f"the {what} of each block is that of its row"
            + (f": not so for {len(bad):,}, the first is row {bad[0] + 2}" if bad else ""),
        )
    fault = fault_of_origin(table, blocks, rows) if holds else None
    holds &= report.check(
        fault is None,
        "the grid begins at the centre of a row" + (f": not so, {fault}" if fault else ""),
    )
    fault = fault_of_size(table, [place for place, row in zip(blocks.places, rows) if row >= 0])
    return holds & report.check(
        fault is None,
        "blocks are as large as the table has them apart" + (f": {fault}" if fault else ""),
    )


def fault_of_origin(table: Table, blocks: Blocks, rows: list[int]) -> str | None:
    """What is wrong with the origin of the grid, by which benches have their elevations: along each
    axis it lies where the first row of the lowest blocks has its centre. Of sub-blocks it isn't
    worked out."""
    facts, known = table.facts, [each for each in zip(rows, blocks.places) if each[0] >= 0]
    if isinstance(table, AddedUp) or not known:
        return None
    for axis, size in zip(range(3), facts["grid"]["size"]):
        low = min(place[axis] for _, place in known)
        row = min(row for row, place in known if place[axis] == low)
        centre = [table.number(row, facts["columns"][key]) for key in "xyz"]
        off = abs(local_steps(table, row, facts)[axis] - low) * size
        if off > LEFT * sum(map(abs, (*centre, *facts["grid"]["origin"]))):
            return f"along {'xyz'[axis]} it is {off:g} off the centre of row {row + 2}"
    return None


def is_of_weight(ours: float, theirs: float) -> bool:
    """Whether tonnes of mine.blocks, which have three decimals, are these, as nearly as that may be."""
    return (
        math.isfinite(theirs)
        and theirs == round(theirs, 3)
        and abs(ours - theirs) <= HALF_OF_TONNES + LEFT * abs(ours)
    )


def fault_of_size(table: Table, places: list[tuple[int, ...]]) -> str | None:
    """What is wrong with the size of blocks, of which these have rows: along an axis no two are
    neighbours; or it isn't the largest in the table's own columns where study.toml gives none."""
    size, columns = table.facts["grid"]["size"], table.facts["columns"]
    for axis, length in zip(range(3), size):
        at = {place[axis] for place in places}
        apart = math.gcd(*(each - min(at) for each in at))
        if apart > 1:
            return f"along {'xyz'[axis]} no two are neighbours, all are {apart} of {length:g} apart"
    if "size" in study_of("model", "size"):
        return None
    for key, length in zip(("dx", "dy", "dz"), size):
        cells = [Table.number(table, row, columns[key]) for row in table.rows if key in columns]
        if not math.isclose(max(cells, default=math.nan), length, rel_tol=1e-9):
            return f"study.toml gives no size, and {length:g} isn't the largest {key} of the table"
    return None


# --- Blocks that have no row: those that [model] adds, and air beside steep ground ---


class Copied(NamedTuple):
    """What an added block is a copy of, by its row, and whether it fills a hole."""

    row: int
    fills: bool


Asked = dict[tuple[int, ...], Copied]  # by place
Columns = dict[tuple[int, ...], dict[int, Copied]]  # by place in plan and level


def asked_for(report: Report, blocks: Blocks, rows: list[int]) -> Asked:
    """The places at which [model] adds blocks, once they are there: holes between the rows of a
    column, each a copy of the next row above it, and then columns on each side, each a copy of the
    nearest one."""
    model = study_of("model", "missing", "widen")
    columns: Columns = defaultdict(dict)
    for place, row in zip(blocks.places, rows):
        if row >= 0:
            columns[place[:2]][place[2]] = Copied(row, False)
    is_open = model.get("missing", "refuse") == "refuse"
    holes = sum(max(each) - min(each) + 1 - len(each) for each in columns.values())
    most = len(blocks.places) - sum(map(len, columns.values()))  # without a row
    if is_open and holes:
        report.check(False, f"{holes:,} places within the model have no row, which pitplan refuses")
    if not is_open and holes > most:
        report.check(
            False, f"study.toml asks for {holes:,} blocks by missing, and {most:,} are there"
        )
    found = {} if is_open or holes > most else filled(columns)
    for place, copied in found.items():
        columns[place[:2]][place[2]] = copied
    if model.get("widen"):
        found |= widened(columns, model["widen"], most)
    there = {place for place, row in zip(blocks.places, rows) if row < 0}
    gone = sorted(set(found) - there)
    if found:
        report.check(
            not gone,
            "the blocks that widen and missing of study.toml ask for are there"
            + (f": not so for {len(gone):,}, the first is at {[*gone[0]]}" if gone else ""),
        )
    return found


def filled(stacks: Columns) -> Asked:
    """The holes of stacks of blocks."""
    found: Asked = {}
    for column, levels in stacks.items():
        above = levels[max(levels)]
        for z in range(max(levels), min(levels), -1):
            above = levels.get(z, above)
            if z not in levels:
                found[(*column, z)] = Copied(above.row, True)
    return found


def widened(stacks: Columns, count: int, most: int) -> Asked:
    """So many columns on each side of others; no more blocks than `most` and one, which is enough
    to see that some aren't there."""
    (low_x, high_x), (low_y, high_y) = ((min(each), max(each)) for each in zip(*stacks))
    sides = (high - low + 1 + 2 * count for low, high in ((low_x, high_x), (low_y, high_y)))
    if math.prod(sides) > MOST_BLOCKS:
        raise Bad(
            f"study.toml: [model] widen is {shown(count)}, and makes more blocks than pit reads"
        )
    found: Asked = {}
    for x in range(low_x - count, high_x + count + 1):
        for y in range(low_y - count, high_y + count + 1):
            near = min(max(x, low_x), high_x), min(max(y, low_y), high_y)
            if near != (x, y):
                found |= {(x, y, z): each for z, each in stacks.get(near, {}).items()}
            if len(found) > most:
                return found
    return found


def fill_of(model: dict[str, Any]) -> dict[str, Any]:
    """What a block that fills a hole is, by the keys of [model]: rock, as `fill` says, or air."""
    if study_of("model", "missing").get("missing") != "rock":
        return AIR
    found: dict[str, Any] = model.get("fill", {})
    if not is_number(found.get("tonnes"), 0) or not is_word(found.get("rock")):
        raise Bad(
            "study.toml: [model] fill says no tonnes or no rock, and missing = 'rock' needs both"
        )
    return found


class Added:
    """The rows of all blocks, where each that was added has one of its own: that of the block of
    which it is a copy, at its own place, with what `fill` says, or of air; of a model of sub-blocks
    such a row is none.

    Attributes
    ----------
    rows : list of int
        -1 of a block without one.
    sources : dict
        By the number of an added block what it is a copy of, and what it weighs.
    """

    def __init__(
        self, table: Table, economics: Economics, blocks: Blocks, rows: list[int], asked: Asked
    ) -> None:
        self.table, self.economics, self.blocks, self.asked = table, economics, blocks, asked
        self.of_table, self.rows, self.fill = rows, list(rows), fill_of(study_of("model", "fill"))
        self.sources, self.over = dict[int, tuple[int, float]](), dict[int, int]()
        self.top = self.tops()
        for b, (place, row) in enumerate(zip(blocks.places, rows)):
            if row < 0 and (place in asked or place[:2] in self.top):
                self.take(b, place)

    def take(self, b: int, place: tuple[int, ...]) -> None:
        """Takes in a block that was added: one that was asked for, or air above another one."""
        copied = self.asked.get(place)
        if copied is None:
            self.over[b] = self.top[place[:2]]
        source = copied.row if copied else self.row_of(self.top[place[:2]])
        fill = AIR if copied is None else self.fill if copied.fills else {}
        self.sources[b] = source, float(fill.get("tonnes", self.economics.tonnes(source)))
        if not isinstance(self.table, AddedUp):
            self.add(b, max(self.table.rows) + len(self.sources), fill)

    def tops(self) -> dict[tuple[int, ...], int]:
        """The highest block of each column that has a row or was asked for."""
        found = dict[tuple[int, ...], int]()
        for b, place in enumerate(self.blocks.places):
            if self.of_table[b] >= 0 or place in self.asked:
                column = place[:2]
                if column not in found or self.blocks.places[found[column]][2] < place[2]:
                    found[column] = b
        return found

    def row_of(self, block: int) -> int:
        """The row of a block, or of that of which it is a copy."""
        row = self.of_table[block]
        return row if row >= 0 else self.asked[self.blocks.places[block]].row

    def add(self, block: int, row: int, fill: dict[str, Any]) -> None:
        """Adds the row of a block."""
        table, (source, weight) = self.table, self.sources[block]
        places = centre_of(self.blocks.places[block], table.facts)
        own = {table.facts["columns"][key]: value for key, value in zip("xyz", places)}
        cells = table.rows[source] + [""] * (len(table.names) - len(table.rows[source]))
        for name, value in {**own, **fill}.items():
            if name in table.at:
                text = value if isinstance(value, str) else repr(value)
                cells[table.at[name]] = (
                    text if isinstance(value, str) else text.replace(".", table.dialect["decimal"])
                )
        rock = str(fill["rock"]) if "rock" in fill else self.economics.rock(source)
        table.more[row], self.economics.own[row] = cells, Own(weight, rock)
        self.rows[block] = row

    def regions(self) -> list[int | None]:
        """The list of offsets of each block. Air above the ground has that of the highest block of
        its column where a formula gives it."""
        found = regions_of(self.table, self.rows, self.economics, self.blocks)
        by = str(study_of("slopes", "by").get("by", ""))
        if by not in (*self.table.at, *self.table.facts["columns"]):
            for block, highest in self.over.items():
                found[block] = found[highest]
        return found


def check_added(report: Report, blocks: Blocks, added: Added) -> None:
    """Blocks without a row weigh what study.toml says, and each that can be worked out is told."""
    bad = [
        b for b, (_, weight) in added.sources.items() if not is_of_weight(weight, blocks.tonnes[b])
    ]
    count = sum(row < 0 for row in added.of_table)
    if not count:
        return
    report.check(
        not bad,
        f"{count:,} blocks have no row (widen, missing, air beside steep ground), and weigh what"
        " study.toml says"
        + (f": not so for {len(bad):,}, the first is block {bad[0]}" if bad else ""),
    )
    unknown = sum(row < 0 for row in added.rows)
    if unknown:
        report.say(
            "look",
            f"{unknown:,} blocks that have no row bring nothing; what digging them costs and their"
            " regions aren't worked out again",
        )


def table_of(report: Report, facts: dict[str, Any], model: dict[str, Any]) -> Table:
    """The planner's table, with its sub-blocks added up where it has such."""
    absent = model.get("absent", [])
    if not facts["has_sub_blocks"]:
        return Table(facts, absent)
    report.check(model.get("regularise") is True, "study.toml asks for sub-blocks to be added up")
    codes = codes_of(economics_of(), study_of("slopes", "by").get("by"))
    codes |= {facts["columns"][key] for key in ("class",) if key in facts["columns"]}
    table = AddedUp(facts, absent, codes)
    fault = table.fault()
    report.check(
        fault is None,
        "each sub-block lies within its block, and none fill more than that"
        + (f": {fault}" if fault else ""),
    )
    return table


def added_without_need(
    blocks: Blocks, rows: list[int], filled_places: Collection[tuple[int, ...]] = ()
) -> list[int]:
    """The blocks without a row that aren't asked for, and aren't air above the ground, which slopes
    lead through beside a cliff: that has no tonnes, brings nothing and costs nothing."""
    ground: dict[tuple[int, ...], int] = {}
    for place, row in zip(blocks.places, rows):
        if row >= 0 or place in filled_places:
            ground[place[:2]] = max(place[2], ground.get(place[:2], -1))
    return [
        b
        for b, (place, row) in enumerate(zip(blocks.places, rows))
        if row < 0
        and place not in filled_places
        and (
            blocks.tonnes[b]
            or any(map(any, blocks.amounts[b].ways))
            or blocks.amounts[b].mining
            or place[2] <= ground.get(place[:2], place[2])
        )
    ]


def regions_of(
    table: Table, rows: list[int], economics: Economics, blocks: Blocks
) -> list[int | None]:
    """Which list of offsets each block has: that of the region that its row names, by the order of
    [slopes] regions; 0, that of `angles`, for all others; None of blocks without a row. In a column
    of numbers 1 and 1.0 are the same region.
    """
    slopes = study_of("slopes", "by", "regions")
    names = list(slopes.get("regions", {}))
    if not names:
        return [0] * len(rows)
    by = slopes.get("by", "")
    if by and by not in (*table.at, *table.facts["columns"]) and not by.isidentifier():
        return regions_by_formula(by, names, rows, economics, blocks)
    by = by if by in table.at else table.facts["columns"].get(by, by)
    table.asked("study.toml: [slopes]", "by", by)
    cells = {table.word(row, by).strip() for row in rows if row >= 0}
    is_numbers = by not in (
        table.facts["columns"].get("rock"),
        table.facts["columns"].get("id"),
    ) and table.is_of_numbers(by)
    of_cell: dict[str, int] = {}
    for cell in cells:
        number = (
            0.0
            if cell in table.absent
            else float(cell.replace(table.dialect["decimal"], "."))
            if is_numbers and cell
            else math.nan
        )
        word = cell if not is_numbers else f"{number:.0f}" if number.is_integer() else str(number)
        of_cell[cell] = 1 + names.index(word) if word in names else 0
    return [of_cell[table.word(row, by).strip()] if row >= 0 else None for row in rows]


def regions_by_formula(
    by: str, names: list[str], rows: list[int], economics: Economics, blocks: Blocks
) -> list[int | None]:
    """As `regions_of`, by a formula over a block's row, its elevation, and how far its centre lies
    below the highest block of its column that weighs something."""
    top: dict[tuple[int, ...], int] = {}
    for place, tonnes in zip(blocks.places, blocks.tonnes):
        if tonnes > 0:
            top[place[:2]] = max(place[2], top.get(place[:2], -1))
    grid, found = facts_of()["grid"], list[int | None]()
    lowest, height = grid["origin"][2], grid["size"][2]

    def word_of(row: int, own: dict[str, float]) -> str:
        def cell(name: str) -> Any:
            is_own = name in own and name not in economics.table.at
            return own[name] if is_own else economics.cell(row, name)

        try:
            off = {name: 1e-3 * height for name in own if name not in economics.table.at}
            word = Formula(by, cell, off).value()
        except (Bad, *UNWORKABLE) as error:
            raise Bad(
                (
                    f"study.toml: [slopes] by is {shown(by)}, which can't be worked out for row"
                    f" {row + 2} of {economics.table.name}: {error}"
                )
            ) from None
        is_whole_number = isinstance(word, float) and word.is_integer()
        return f"{word:.0f}" if is_whole_number else str(word).strip()

    for row, place in zip(rows, blocks.places):
        deep = (top.get(place[:2], -1) - place[2] + 0.5) * height
        own = {"elevation": lowest + place[2] * height, "below_ground": deep}
        word = word_of(row, own) if row >= 0 else ""
        found.append(None if row < 0 else 1 + names.index(word) if word in names else 0)
    return found


def check_passed(report: Report, table: Table, facts: dict[str, Any]) -> None:
    """Lines of descriptions between the header and the first block; a line with three coordinates
    is a block."""
    names = [facts["columns"][key] for key in "xyz"]
    blocks = [
        i
        for i, row in table.passed.items()
        if all(
            NUMBER.fullmatch(row[at].strip().replace(table.dialect["decimal"], "."))
            if (at := table.at[name]) < len(row)
            else False
            for name in names
        )
    ]
    if table.passed:
        report.check(
            not blocks,
            f"{len(table.passed):,} lines below the header are descriptions and no blocks"
            + (f": not so in row {blocks[0] + 2}" if blocks else ""),
        )


class Numbered(NamedTuple):
    """A line of tables/blocks.csv: the number of a block, its row (as a spreadsheet counts it; 0
    where it was added), and its shell as a factor in thousandths, None where the cell is empty."""

    block: str
    row: int
    shell: Decimal | None


def numbering() -> list[Numbered]:
    """tables/blocks.csv."""
    found = [
        Numbered(
            line.word("block"),
            line.whole("row"),
            line.exact("shell") * THOUSAND if line.word("shell") else None,
        )
        for line in read_table("blocks.csv", Numbered._fields)
    ]
    for n, line in enumerate(found, 2):
        if line.row < 2 and line.row:
            raise Bad(
                f"tables/blocks.csv, line {n} has a row that is neither 0 nor below the header"
            )
    return found


def check_amounts(
    report: Report, economics: Economics, blocks: Blocks, added: Added, fenced: set[int]
) -> list[Worked | None]:
    """What each block brings and costs, by the table and [economics]; gives it, None of blocks
    without a row of the table. Those of `fenced` may not be dug, and digging one costs more than
    the mine brings."""
    bad, most = [], 2 * sum(max(way[0] for way in each.ways) for each in blocks.amounts)
    worked = [economics.of_row(row) if row >= 0 else None for row in added.of_table]
    for b, (row, ours) in enumerate(zip(added.rows, worked)):
        ways, mining = blocks.amounts[b]
        if ours is None:
            is_right = not any(map(any, ways)) and 0 <= mining
        else:
            is_right = len(ways) == len(ours.ways) and all(
                economics.is_near(way.revenue, revenue)
                and economics.is_near(way.processing, processing)
                for way, (revenue, processing) in zip(ours.ways, ways)
            )
        if row >= 0:
            digging = economics.digging(row)
            is_right &= mining > most if b in fenced else economics.is_near(digging, mining)
        if not is_right:
            bad.append((b, added.of_table[b]))
    more = f": not so for {len(bad):,} blocks, the first is {bad[0][0]}" if bad else ""
    more += f" of row {bad[0][1] + 2}" if bad and bad[0][1] >= 0 else ""
    report.check(
        not bad,
        "what each block brings and costs in model/mine.blocks is what the table and study.toml come to"
        + more,
    )
    if fenced:
        report.say(
            "ok",
            f"{len(fenced):,} blocks may not be dug by forbid, and cost more than the whole mine brings",
        )
    return worked


def local_steps(table: Table, row: int, facts: dict[str, Any]) -> list[float]:
    """Where a row's coordinates are on the grid, in blocks from its first along the model's
    axes."""
    grid, columns = facts["grid"], facts["columns"]
    east, north, up = (Table.number(table, row, columns[key]) for key in "xyz")
    east, north, up = (
        east - grid["origin"][0],
        north - grid["origin"][1],
        (-up if facts["depth"] else up) - grid["origin"][2],
    )
    turn = math.radians(grid["rotation"])
    local = (
        east * math.cos(turn) - north * math.sin(turn),
        east * math.sin(turn) + north * math.cos(turn),
        up,
    )
    return [value / size for value, size in zip(local, grid["size"])]


def centre_of(place: tuple[int, ...], facts: dict[str, Any]) -> tuple[float, ...]:
    """The coordinates of the centre of a place of the grid, as the table counts them."""
    grid = facts["grid"]
    u, v, up = (i * size for i, size in zip(place, grid["size"]))
    turn = math.radians(grid["rotation"])
    x = grid["origin"][0] + u * math.cos(turn) + v * math.sin(turn)
    y = grid["origin"][1] - u * math.sin(turn) + v * math.cos(turn)
    return x, y, (grid["origin"][2] + up) * (-1 if facts["depth"] else 1)


def is_placed(table: Table, row: int, place: tuple[int, ...], facts: dict[str, Any]) -> bool:
    """Whether a row's coordinates are those of a place of the grid, to 0.06 of a block; of
    sub-blocks, whether they lie nearest to it."""
    if isinstance(table, AddedUp):
        return all(
            tuple(round(step) for step in local_steps(table, part, facts)) == place
            for part in table.of[row]
        )
    grid, columns = facts["grid"], facts["columns"]
    return all(
        abs(table.number(row, columns[key]) - value) <= 0.06 * size
        for key, value, size in zip(
            "xyz", centre_of(place, facts), (min(grid["size"][:2]),) * 2 + (grid["size"][2],)
        )
    )


# --- Tables of results: shells, benches and blocks add up to what the certificates say ---


class Part:
    """What some blocks of a pit, of one way or class, add up to: tonnes of rock and of ore, of each
    metal the ore times its grade, and what is recovered."""

    def __init__(self) -> None:
        self.rock, self.ore = 0.0, 0.0
        self.graded, self.metal = defaultdict[str, float](float), defaultdict[str, float](float)

    def add(self, tonnes: float, worked: Worked | None, number: int) -> None:
        """Counts a block in that goes the way of that number, 0 where it is waste."""
        self.rock += tonnes
        if not number:
            return
        self.ore += worked.ore if worked else tonnes
        if worked:
            for name, units in worked.ways[number - 1].metals.items():
                self.graded[name] += worked.grades[name] * worked.ore
                self.metal[name] += units

    def join(self, other: Part) -> None:
        """Counts in what others add up to."""
        self.rock += other.rock
        self.ore += other.ore
        for name in other.graded:
            self.graded[name] += other.graded[name]
            self.metal[name] += other.metal[name]

    def by_ore(self, metals: list[str]) -> dict[str, float]:
        """Of each metal the tonnes of ore times their grade, by the column of the grade."""
        return {f"grade_{name}": self.graded[name] for name in metals}


class Kinds(NamedTuple):
    """What the tables tell apart: the ways to treat blocks, metals, and resource classes."""

    ways: list[Treatment]
    metals: list[str]
    classes: list[str]

    @classmethod
    def of(cls, of_rows: OfRows | None) -> Kinds:
        """By study.toml, and of classes by what the planner's table says."""
        economics, classes = economics_of(), of_rows.classes if of_rows else None
        metals = [metal["name"] for metal in economics["metals"]]
        return cls(treatments_of(economics), metals, sorted(set(classes or ())))

    def known(self, *own: str) -> set[str]:
        """The columns of a table that has these, with those of its amounts: no other is read."""
        parts = {"": ["ore_t"]}
        if len(self.ways) > 1:
            parts |= {f"process_{way.name}_": ["ore_t", "feed_t"] for way in self.ways}
        parts |= {f"class_{name}_": ["ore_t", "rock_t"] for name in self.classes}
        by_metal = [f"{kind}_{metal}" for metal in self.metals for kind in ("grade", "metal")]
        amounts = {before + name for before, each in parts.items() for name in (*each, *by_metal)}
        return {*own, *amounts, "blocks", "rock_t", "waste_t"}


class Sum:
    """What some blocks of a pit add up to, at the full price: all, by the number of the way that they
    go, and by resource class.

    Attributes
    ----------
    size : int
        What they are worth without signs, in billionths.
    depth : int
        Through how many sums of floats each amount has gone at most: each may err by FLOAT of it.
    rounded : float
        Tonnes by which the rounding in mine.blocks may be off, where the table isn't known.
    """

    def __init__(self) -> None:
        self.blocks, self.worth, self.size, self.rock = 0, 0, 0, 0.0
        self.depth, self.rounded = 0, 0.0
        self.ways, self.classes = defaultdict[int, Part](Part), defaultdict[str, Part](Part)

    @property
    def all(self) -> Part:
        """What goes any way."""
        found = Part()
        for number in sorted(self.ways):
            found.join(self.ways[number])
        return found

    @property
    def ore(self) -> float:
        """Tonnes that are treated."""
        return self.all.ore

    def fed(self, ways: list[Treatment]) -> list[float]:
        """The feed that each way gets."""
        return [self.ways[number].ore * way.feed for number, way in enumerate(ways, 1)]

    def add(self, blocks: Blocks, b: int, of_rows: OfRows | None) -> None:
        """Counts a block in."""
        worth, number = blocks.worth(b, THOUSAND), blocks.way(b, THOUSAND)
        worked, tonnes = None, blocks.tonnes[b]
        if of_rows:
            worked, tonnes = of_rows.worked[b], of_rows.tonnes[b]
        self.blocks, self.depth = self.blocks + 1, self.depth + 1
        self.worth, self.size = self.worth + worth, self.size + abs(worth)
        self.rock += tonnes
        self.rounded += 0.0 if of_rows else HALF_OF_TONNES
        parts = [self.ways[number]] if number else []
        parts += [self.classes[of_rows.classes[b]]] if of_rows and of_rows.classes else []
        for part in parts:
            part.add(tonnes, worked, number)

    def join(self, other: Sum) -> None:
        """Counts in what others add up to."""
        self.blocks, self.depth = self.blocks + other.blocks, max(self.depth, other.depth) + 1
        self.worth, self.size = self.worth + other.worth, self.size + other.size
        self.rock, self.rounded = self.rock + other.rock, self.rounded + other.rounded
        for number, part in other.ways.items():
            self.ways[number].join(part)
        for name, part in other.classes.items():
            self.classes[name].join(part)

    @property
    def left(self) -> float:
        """Which share of an amount, without signs, two sums of it in floats may be apart: each block's
        own by LEFT, and each of the two sums by FLOAT for each step."""
        return LEFT + 2 * self.depth * FLOAT

    def is_worth(self, number: float, less: int = 0) -> bool:
        """Whether a cell is what the blocks are worth, less a fixed cost: whole numbers of millionths,
        which were added up as floats."""
        off = 2 * (self.depth + 4) * FLOAT * (self.size / NANO + less)
        return is_close(number, self.worth / NANO - less, off)

    def is_line(self, line: Line, is_pit: bool, of: Kinds) -> bool:
        """Whether a line of a table has these blocks, tonnes, metals and grades, what goes to each of
        several processes and what is of each class; of a pit the feed and the strip ratio too.
        """
        found, feed = self.all, sum(self.fed(of.ways))
        sums = {
            "rock_t": (self.rock, self.rock),
            "waste_t": (self.rock - found.ore, self.rock + found.ore),
            **({"feed_t": (feed, feed)} if is_pit else {}),
        }
        if (
            not all(self.is_so(line, name, *each) for name, each in sums.items())
            or line.whole("blocks") != self.blocks
        ):
            return False
        strip = {"strip": self.rock - found.ore} if is_pit else {}
        return (
            self.has_part(line, found, "", (of.metals, strip))
            and (len(of.ways) == 1 or self.has_ways(line, of))
            and all(
                self.has_part(line, self.classes[name], f"class_{name}_", (of.metals, {}))
                and self.is_so(line, f"class_{name}_rock_t", *[self.classes[name].rock] * 2)
                for name in of.classes
            )
        )

    def has_ways(self, line: Line, of: Kinds) -> bool:
        """Whether a line has what goes each of several ways."""
        return all(
            self.has_part(line, self.ways[number], f"process_{way.name}_", (of.metals, {}))
            and self.is_so(line, f"process_{way.name}_feed_t", fed, fed)
            for (number, way), fed in zip(enumerate(of.ways, 1), self.fed(of.ways))
        )

    def is_so(self, line: Line, column: str, value: float, size: float) -> bool:
        """Whether a cell is an amount of tonnes or metal, of parts of that size without signs."""
        return is_close(line.number(column), value, self.left * size + 2 * self.rounded)

    def has_part(
        self, line: Line, part: Part, before: str, of: tuple[list[str], dict[str, float]]
    ) -> bool:
        """Whether a line has the ore, the metals and the grades of what goes one way, in columns
        that begin so, and what else is told by tonnes of ore."""
        metals, more = of
        sums = {"ore_t": part.ore} | {f"metal_{name}": part.metal[name] for name in metals}
        if not all(self.is_so(line, before + it, value, value) for it, value in sums.items()):
            return False
        by_ore = part.by_ore(metals) | more
        if not part.ore:
            return all(line.word(before + name) == "" for name in by_ore)
        return all(
            is_close(line.number(before + name), value / part.ore, self.off(name, value, part.ore))
            for name, value in by_ore.items()
        )

    def off(self, name: str, value: float, ore: float) -> float:
        """How far a ratio to tonnes of ore may be off: as far as what is divided and the ore are."""
        parts = 2 * self.rock if name == "strip" else value
        return (self.left * (parts + value) + 2 * self.rounded * (1 + value / ore)) / ore


def is_close(number: float, value: float, far: float) -> bool:
    """Whether a cell is a value from which arithmetic may be so far off, and which is written with
    15 digits: half a unit of the last of these, and no more."""
    return abs(number - value) <= far + HALF_A_DIGIT * abs(value)


class Line(NamedTuple):
    """A line of a table of the bundle: its file, its number there, and its cells by the names of
    the header line."""

    file: str
    at: int
    cells: dict[str, Any]

    def word(self, column: str) -> str:
        """A cell as it stands."""
        found = self.cells.get(column)
        if not isinstance(found, str):
            raise Bad(f"{self.file}, line {self.at} has no cell of column {column}")
        return found

    def number(self, column: str) -> float:
        """A cell as a number."""
        cell = self.word(column)
        if not NUMBER.fullmatch(cell) or not math.isfinite(float(cell)):
            raise Bad(
                f"{self.file}, line {self.at}, column {column}: the cell is {shown(cell)}, and has to be a number"
            )
        return float(cell)

    def exact(self, column: str) -> Decimal:
        """A cell as a number, of which no digit is lost."""
        self.number(column)
        return Decimal(self.word(column))

    def whole(self, column: str) -> int:
        """A cell as a whole number."""
        cell = self.word(column)
        if not re.fullmatch(r"-?[0-9]{1,18}", cell):
            raise Bad(
                f"{self.file}, line {self.at}, column {column}: the cell is {shown(cell)}, and has to be a whole number"
            )
        return int(cell)


def read_table(name: str, known: Collection[str]) -> list[Line]:
    """The lines of a table of the bundle, which has none but known columns: any other would be read by
    people alone."""
    path, found = f"tables/{name}", list[Line]()
    try:
        with open(within(path), newline="", encoding="utf-8") as file:
            rows = csv.reader(file)
            names: list[str] = next(rows, [])
            twice = [shown(column) for column, n in Counter(names).items() if n > 1]
            if twice:
                raise Bad(f"{path} has the column {twice[0]} twice")
            strange = [shown(column) for column in names if column not in known]
            if strange:
                raise Bad(f"{path} has the column {strange[0]}, which no check reads")
            for n, row in enumerate(rows, 2):
                if len(row) > len(names):
                    raise Bad(f"{path}, line {n} has more cells than there are columns")
                found.append(Line(path, n, dict(zip(names, row))))
    except (csv.Error, UnicodeDecodeError) as error:
        raise Bad(f"{path} is no table in UTF-8: {error}") from None
    return found


Benches = dict[tuple[float, int], Sum]  # by the bench's elevation and the shell's factor


def bench_sums(
    blocks: Blocks, facts: dict[str, Any], shell: list[int], of_rows: OfRows | None
) -> Benches:
    """What each shell has on each bench."""
    sums: Benches = {}
    lowest, height = facts["grid"]["origin"][2], facts["grid"]["size"][2]
    for b, factor in enumerate(shell):
        if factor:
            key = (lowest + blocks.places[b][2] * height, factor)
            sums.setdefault(key, Sum()).add(blocks, b, of_rows)
    return sums


def check_tables(
    report: Report,
    blocks: Blocks,
    facts: dict[str, Any],
    shell: list[int],
    of_rows: OfRows | None,
) -> None:
    """The tables say what the certificates do, and of metals what the planner's table does."""
    lines_of = numbering()
    is_counted = [line.block for line in lines_of] == [str(b) for b in range(len(shell))]
    bad = [
        n for n, (ours, line) in enumerate(zip(shell, lines_of), 2) if (ours or None) != line.shell
    ]
    report.check(
        is_counted and not bad,
        "tables/blocks.csv has the number and the shell of each block"
        + (f": not so in line {bad[0]}" if bad else ""),
    )
    benches, of = bench_sums(blocks, facts, shell, of_rows), Kinds.of(of_rows)
    check_pit_by_pit(report, benches, of, of_rows is not None)
    check_benches(report, benches, of, of_rows is not None)


def check_pit_by_pit(report: Report, benches: Benches, of: Kinds, is_whole: bool) -> None:
    """tables/pit_by_pit.csv. Metals, classes and what hangs on tonnes are told by the planner's table,
    where that was read."""
    verdicts, rates = verdicts_of(), Rates.of(benches, of.ways)
    known = of.known(*PIT_BY_PIT)
    of = of if is_whole else of._replace(metals=[])
    lines, bad = read_table("pit_by_pit.csv", known), list[int]()
    for n, (line, verdict) in enumerate(zip(lines, verdicts), 2):
        pit = {key: part for key, part in benches.items() if key[1] <= verdict["factor"]}
        total = Sum()
        for part in pit.values():
            total.join(part)
        if not (
            line.exact("factor") * THOUSAND == verdict["factor"]
            and line.exact("worth_at_factor") == Decimal(verdict["worth"])
            and is_close(line.number("worth_at_base"), total.worth / NANO, 0.0)
            and total.is_line(line, True, of)
            and (not is_whole or rates.is_line(line, pit, of.ways))
        ):
            bad.append(n)
    more = ", the years, the grades and the metals" if is_whole else ""
    report.check(
        len(lines) == len(verdicts) and not bad,
        f"tables/pit_by_pit.csv has the blocks, the tonnes, the worths{more} of each pit"
        + (f": not so in line {bad[0]}" if bad else ""),
    )


def check_benches(report: Report, benches: Benches, of: Kinds, is_whole: bool) -> None:
    """tables/benches.csv, likewise."""
    known = of.known("bench", "shell", "worth")
    of = of if is_whole else of._replace(metals=[])
    rounded = {(round(bench, 3), factor): (bench, factor) for bench, factor in benches}
    lines = read_table("benches.csv", known)
    keys = [(round(line.number("bench"), 3), int(line.exact("shell") * THOUSAND)) for line in lines]
    bad = []
    for n, (key, line) in enumerate(zip(keys, lines), 2):
        place = rounded.get(key)
        if not (
            place
            and is_close(line.number("bench"), place[0], LEFT * far_from(place[0]))
            and line.exact("shell") * THOUSAND == place[1]
            and benches[place].is_worth(line.number("worth"))
            and benches[place].is_line(line, False, of)
        ):
            bad.append(n)
    more = ", the grades and the metals" if is_whole else ""
    report.check(
        sorted(keys) == sorted(rounded) and not bad,
        f"tables/benches.csv has the blocks, the tonnes, the worth{more} of each bench and shell"
        + (f": not so in line {bad[0]}" if bad else ""),
    )


def far_from(elevation: float) -> float:
    """How large the numbers are of which an elevation was made."""
    return abs(elevation) + 2 * abs(float(facts_of()["grid"]["origin"][2]))


# --- Years and discounted worths of a pit: two simple orders, at the rates of study.toml ---


class Rates(NamedTuple):
    """Tonnes of rock, and of the feed of each way, in a year, and the discount of a year."""

    mining: float
    feeds: list[float]
    discount: float

    @classmethod
    def of(cls, benches: Benches, ways: list[Treatment]) -> Rates:
        """Those of [shells] and of the processes; else what takes YEARS for the largest pit."""
        shells = study_of("shells", "mining_rate", "mill_rate", "discount")
        processes = economics_of().get("processes")
        told = [shells.get("mining_rate"), shells.get("mill_rate")]
        if processes is not None:
            told[1:] = [process.get("rate") for process in processes]
        total = Sum()
        for part in benches.values():
            total.join(part)
        amounts = [total.rock, *total.fed(ways)]
        mining, *feeds = (
            float(rate or max(amount / YEARS, 1.0)) for rate, amount in zip(told, amounts)
        )
        return cls(mining, feeds, float(shells.get("discount", 0.1)))

    def worked(self, pieces: list[Sum], ways: list[Treatment]) -> tuple[float, float]:
        """The worth of pieces that are dug one after the other, each as quickly as digging and each
        way allow, discounted to the middle of its time; and how many years all of them take."""
        worth, end = 0.0, 0.0
        for piece in pieces:
            fed = zip(piece.fed(ways), self.feeds)
            takes = max(piece.rock / self.mining, *(feed / rate for feed, rate in fed))
            end += takes
            # a power that is too large for a float discounts to nothing
            share = math.exp(-math.log1p(self.discount) * (end - takes / 2))
            worth += piece.worth / NANO * share
        return worth, end

    def is_line(self, line: Line, pit: Benches, ways: list[Treatment]) -> bool:
        """Whether a line has what a pit is worth dug shell by shell and bench by bench, from the top,
        and the years of the first."""
        best = [pit[key] for key in sorted(pit, key=lambda key: (key[1], -key[0]))]
        by_bench = dict[float, Sum]()
        for bench, factor in sorted(pit, reverse=True):
            by_bench.setdefault(bench, Sum()).join(pit[bench, factor])
        npv, years = self.worked(best, ways)
        worst, _ = self.worked([*by_bench.values()], ways)
        # each sum of a piece, and each of the pieces; what times are off by is discounted
        left = max((each.left for each in by_bench.values()), default=LEFT) + 2 * len(pit) * FLOAT
        size = sum(each.size for each in best) / NANO
        off = left * size * (2 + math.log1p(self.discount) * years)
        return (
            is_close(line.number("npv_best"), npv, off)
            and is_close(line.number("npv_worst"), worst, off)
            and is_close(line.number("years"), years, 2 * left * years)
        )


# --- Slopes: no pit breaks them, and their offsets are those of the angles asked for ---


def check_slopes(report: Report, blocks: Blocks, regions: list[int | None] | None) -> None:
    """A block that has a row of the table is in the region of that row; and how steep the walls are
    that the slopes of model/settings.toml make."""
    if len(blocks.slopes) > 1:
        check_regions(report, blocks, regions)
    check_walls(report, blocks.slopes)


def check_closed(report: Report, blocks: Blocks, shell: list[int]) -> None:
    """Each pit has what its blocks rest on, looked up here by places and by the offsets of each
    block's own region: what `pit check` says too. Pits grow, so that a block's predecessors have to
    be in the first pit that has it."""
    dug = [block for block, first in enumerate(shell) if first]
    bad = next(
        ((b, p) for b in dug for p in blocks.above(b) if not 0 < shell[p] <= shell[b]),
        None,
    )
    report.check(
        bad is None,
        "each pit has what its blocks rest on, by the slopes of model/settings.toml"
        + (f": not so block {bad[0]}, which rests on block {bad[1]}" if bad else ""),
    )


def check_regions(report: Report, blocks: Blocks, regions: list[int | None] | None) -> None:
    """Each block is in the region of slopes that its row names."""
    if not regions:
        report.say("look", "whether each block is in the region that it should be in")
        return
    known = ((b, region) for b, region in enumerate(regions) if region is not None)
    astray = next((b for b, region in known if blocks.region(b) != region), None)
    report.check(
        astray is None,
        "each block is in the region of slopes that its row names"
        + (f": not so block {astray}" if astray is not None else ""),
    )


def check_walls(report: Report, lists: list[list[list[int]]]) -> None:
    """The offsets of each region are those that its angles come to, none left out and none added;
    and how far the walls that they build are from the angles of study.toml: the planner's bounds
    aren't known here, so it is the auditor's to judge; but with `safe` no wall is steeper."""
    grid, slopes = facts_of()["grid"], study_of("slopes", *STUDY["slopes"])
    asked = {"default": slopes.get("angles", 45.0), **slopes.get("regions", {})}
    is_safe = slopes.get("safe", False)
    for offsets, (region, between) in zip(lists, asked.items()):
        wall = Wall(Angles.of(with_ramp(between, slopes.get("ramp", {}), region)), grid)
        step = f"the offsets of {region}"
        report.attempt(step, check_offsets, report, step, offsets, wall, slopes)
        steeper, flatter = Outline(wall, offsets).extremes(True)
        what = (
            f"the slopes of {region}: a deep wall of model/settings.toml is at most"
            f" {degrees(max(0.0, steeper))} degrees steeper and {degrees(max(0.0, -flatter))}"
            " flatter than study.toml asks"
        )
        if is_safe and steeper > ROUNDED:
            report.check(False, f"{what}, by safe = true never steeper")
        else:
            report.say("look", what)


def check_offsets(
    report: Report, step: str, listed: list[list[int]], wall: Wall, slopes: dict[str, Any]
) -> None:
    """The offsets that settings list for a region are the fewest of a wall as steep as asked."""
    there = Counter((i, j, k) for i, j, k in listed)
    wanted = Counter(fewest(wall, slopes.get("safe", False), slopes.get("levels"), set(there)))
    faults = [("lack", [*wanted - there]), ("have too much", [*there - wanted])]
    report.check(
        there == wanted,
        f"{step} in model/settings.toml are the {len(wanted):,} that its angles in study.toml come to"
        + "".join(
            f"; they {what} {', '.join(str([*offset]) for offset in sorted(some)[:TOLD])}"
            + (f" and {len(some) - TOLD:,} more" if len(some) > TOLD else "")
            for what, some in faults
            if some
        ),
    )


def with_ramp(angles: Any, ramp: dict[str, Any], region: str) -> Any:
    """The overall angles of a region whose walls have these between ramps: over the ramp's height
    each of its passes takes its width."""
    own: dict[str, float] = ramp if has_ramp(ramp) else ramp.get(region, {})
    if not own:
        return angles
    height = own["height"]
    passes = own["turns"] if "turns" in own else height / own["grade"] / own["around"]

    def overall(angle: float) -> float:
        plan = height / math.tan(math.radians(angle)) + passes * own["width"]
        return math.degrees(math.atan(height / plan))

    if isinstance(angles, list):
        return [[bearing, overall(angle)] for bearing, angle in angles]
    return overall(angles)


def degrees(value: float) -> str:
    """Degrees with two decimals, or with as many as show that they aren't 0."""
    return f"{value:.2f}" if value <= ROUNDED or value >= 0.005 else f"{value:.6f}"


# --- Geometry of a pit wall: its angle at each bearing, by its offsets ---


class Angles(NamedTuple):
    """The angles of study.toml: pairs of a bearing and degrees, ascending; between two of them the
    angle changes evenly."""

    pairs: list[tuple[float, float]]

    @classmethod
    def of(cls, angles: Any) -> Angles:
        """A number, or a list of bearings with an angle for each."""
        if not isinstance(angles, list):
            return cls([(0.0, float(angles))])
        return cls(sorted({(float(bearing) % 360, float(angle)) for bearing, angle in angles}))

    def at(self, bearing: float) -> float:
        """The degrees at a bearing."""
        bearing %= 360
        low = max((pair for pair in self.pairs if pair[0] <= bearing), default=self.pairs[-1])
        high = min((pair for pair in self.pairs if pair[0] > bearing), default=self.pairs[0])
        gap = (high[0] - low[0]) % 360
        return low[1] + (high[1] - low[1]) * ((bearing - low[0]) % 360) / gap if gap else low[1]

    def leans(self) -> set[float]:
        """By how much the angle rises for each degree of bearing, between one pair and the next."""
        after = self.pairs[1:] + self.pairs[:1]
        return {
            (angle - before) / ((bearing - start) % 360 or 360)
            for (start, before), (bearing, angle) in zip(self.pairs, after)
        }


class Wall:
    """What is asked of a wall: its angles, in blocks of the grid."""

    def __init__(self, angles: Angles, grid: dict[str, Any]) -> None:
        self.asked, (self.x, self.y, self.z) = angles, map(float, grid["size"])
        turn = math.radians(grid["rotation"])
        self.sin, self.cos = math.sin(turn), math.cos(turn)
        self.by_degree, self.leans = [angles.at(bearing) for bearing in range(360)], angles.leans()
        degrees_of = [angle for _, angle in angles.pairs]
        self.flattest, self.steepest = (
            math.tan(math.radians(angle)) for angle in (min(degrees_of), max(degrees_of))
        )

    def plan(self, i: float, j: float) -> tuple[float, float]:
        """Metres east and north of so many blocks along the model's axes."""
        u, v = i * self.x, j * self.y
        return u * self.cos + v * self.sin, v * self.cos - u * self.sin

    def levels_to(self, i: int, j: int) -> float:
        """How many levels up a cone of these angles comes to a column of blocks."""
        if i == j == 0:
            return 0.0
        east, north = self.plan(i, j)
        angle = self.asked.at(math.degrees(math.atan2(east, north)))
        return math.hypot(east, north) * math.tan(math.radians(angle)) / self.z

    def levels(self, blocks: float) -> int:
        """How many levels up the wall is so many blocks out, where it is steepest."""
        return math.ceil(blocks * max(self.x, self.y) * self.steepest / self.z * (1 - TOLERANCE))


class Outline:
    """A deep pit in plan for each metre of its height: the hull of its offsets, each divided by its
    level.

    Attributes
    ----------
    at : list of tuples
        The corners as offsets of one level.
    corners : list of pairs
        The same in metres east and north, by their bearings.
    is_open : bool
        Whether the pit opens to all sides; where it doesn't its walls are upright.
    """

    def __init__(self, wall: Wall, offsets: Collection[Collection[int]]) -> None:
        self.wall, level = wall, math.lcm(*(k for _, _, k in offsets))
        points = sorted({(i * (level // k), j * (level // k)) for i, j, k in offsets})
        hull = [*half_hull(points), *half_hull(points[::-1])]
        self.at = [(i, j, level) for i, j in hull]
        high = level * wall.z
        placed = [wall.plan(i / high, j / high) for i, j in hull]
        by_bearing = sorted((math.degrees(math.atan2(e, n)) % 360, e, n) for e, n in placed)
        self.bearings = [bearing for bearing, _, _ in by_bearing]
        self.corners = [(e, n) for _, e, n in by_bearing]
        self.edges = list(zip(self.corners, self.corners[1:] + self.corners[:1]))
        self.is_open = len(hull) > 2 and all(a * d - b * c < 0 for (a, b), (c, d) in self.edges)

    def angle(self, bearing: float) -> float:
        """Degrees of the wall at a bearing."""
        if not self.is_open:
            return 90.0
        (a, b), (c, d) = self.edges[bisect_right(self.bearings, bearing % 360) - 1]
        east, north = math.sin(math.radians(bearing)), math.cos(math.radians(bearing))
        return math.degrees(math.atan2((c - a) * north - (d - b) * east, b * c - a * d))

    def flattest(self) -> float:
        """The error of the wall at the corner where it is least; above 0 is steeper than asked."""
        return min(
            (self.angle(bearing) - self.wall.asked.at(bearing) for bearing in self.bearings),
            default=90.0,
        )

    def extremes(self, is_exact: bool) -> tuple[float, float]:
        """By how many degrees the wall is steeper than asked, at most and at least; of all bearings
        if that shall be exact.

        An edge of the hull is d out for each metre of height where it is nearest; at an angle a
        from there its wall stands at atan(cos a / d), which rises by -d sin a / (d^2 + cos^2 a) for
        each degree. So the error is least at a corner, and greatest where an edge is nearest, at a
        bearing that study.toml names, or where this is the lean of what is asked.
        """
        bearings = [bearing for bearing, _ in self.wall.asked.pairs]
        for (a, b), (c, d) in self.edges if self.is_open else []:
            nearest = math.degrees(math.atan2(b - d, c - a))
            bearings.append(nearest)
            out = (b * c - a * d) / math.hypot(c - a, d - b)
            for lean in self.wall.leans if is_exact else ():
                rise = lean * (out**2 + 1)
                sine = -2 * rise / (out + math.sqrt(out**2 + 4 * lean * rise))
                if abs(sine) < 1:
                    bearings.append(nearest + math.degrees(math.asin(sine)))
        errors = [self.angle(bearing) - self.wall.asked.at(bearing) for bearing in bearings]
        return max(errors), min(self.flattest(), *errors)

    def by_degree(self) -> list[float]:
        """By how many degrees the wall is steeper than asked at each whole degree of bearing."""
        return [self.angle(bearing) - asked for bearing, asked in enumerate(self.wall.by_degree)]


def half_hull(points: list[tuple[int, int]]) -> list[tuple[int, int]]:
    """The corners on one side of the hull of sorted points, without the last."""
    found: list[tuple[int, int]] = []
    for i, j in points:
        while len(found) > 1 and (found[-1][0] - found[-2][0]) * (j - found[-2][1]) <= (
            found[-1][1] - found[-2][1]
        ) * (i - found[-2][0]):
            found.pop()
        found.append((i, j))
    return found[:-1]


# --- The fewest offsets of a wall, searched again ---


class Cones:
    """The cones of a wall, up to some levels, the angles of each stretched by a share of their
    tangents. A set of columns of blocks is a whole number, a bit for each column, so that sets are
    moved and joined at once."""

    def __init__(self, wall: Wall, levels: int, widest: float) -> None:
        self.top, self.widest = levels, widest
        reach = widest * levels * wall.z / wall.flattest
        across, along = int(reach / wall.x) + 1, int(reach / wall.y) + 1
        self.across, self.along, self.wide = across, along, 2 * across + 1
        columns = sorted(
            (wall.levels_to(i, j), i, j)
            for i in range(-across, across + 1)
            for j in range(-along, along + 1)
        )
        columns = [column for column in columns if column[0] <= widest * levels * (1 + TOLERANCE)]
        self.far = [far for far, _, _ in columns]
        self.bits = [1 << ((j + along) * self.wide + i + across) for _, i, j in columns]
        self.unions = [0]
        for at in range(0, len(self.bits), UNION):
            self.unions.append(self.unions[-1] | sum(self.bits[at : at + UNION]))

    def nearest(self, levels: float) -> int:
        """The columns that a cone comes to within some levels; of columns as far away as each other
        all or none."""
        count = bisect_right(self.far, levels * (1 + TOLERANCE))
        while 0 < count < len(self.far) and self.far[count] <= self.far[count - 1] * (
            1 + TOLERANCE
        ):
            count += 1
        return self.unions[count // UNION] | sum(self.bits[count // UNION * UNION : count])

    def stretches(self, narrowest: float, most: int) -> list[float]:
        """The shares at which a cone has one block more, ascending; where there are too many, those
        of the lower levels."""
        found, low, high = [1.0], narrowest * (1 - TOLERANCE), self.widest * (1 + TOLERANCE)
        for k in range(1, self.top + 1):
            found = sorted([*found, *(far / k for far in self.far if low <= far / k <= high)])
            found = [
                each
                for before, each in zip([-1.0, *found], found)
                if each > before * (1 + TOLERANCE)
            ]
            if len(found) >= most:
                break
        return found[:: -(-len(found) // most)]

    def grown(self, stretch: float) -> Iterator[list[tuple[int, int, int]]]:
        """The offsets of a cone that no sum of others comes to: all of them up to each level that
        has one, as long as `pit` takes so many."""
        found, reached = list[tuple[int, int, int]](), [1 << (self.along * self.wide + self.across)]
        for k in range(1, self.top + 1):
            sums = 0
            for i, j, up in found:
                by = j * self.wide + i
                sums |= reached[k - up] << by if by >= 0 else reached[k - up] >> -by
            held = self.nearest(stretch * k)
            reached.append(sums | held)
            new = held & ~sums
            if len(found) + new.bit_count() > OFFSETS_AT_MOST:
                return
            while new:
                row, at = divmod((new & -new).bit_length() - 1, self.wide)
                found.append((at - self.across, row - self.along, k))
                new &= new - 1
            if found and found[-1][2] == k:
                yield found.copy()


class Found(NamedTuple):
    """Offsets, the share by which the worst of their wall's errors passes what is allowed (at most
    1 where none does), and the greatest error."""

    offsets: list[tuple[int, int, int]]
    badness: float
    steepest: float

    @property
    def is_held(self) -> bool:
        return self.badness <= 1 + TOLERANCE

    def is_better(self, other: Found | None) -> bool:
        """Whether these are fewer, or as few and the wall errs less; a wall that errs too much comes
        after each that doesn't."""
        if other is None or self.is_held != other.is_held:
            return other is None or self.is_held
        if self.is_held and len(self.offsets) != len(other.offsets):
            return len(self.offsets) < len(other.offsets)
        return self.badness < other.badness * (1 - TOLERANCE)


class Search:
    """Looks for the fewest offsets whose wall errs by no more than is allowed.

    Parameters
    ----------
    listed : set of tuples
        Of several answers as good as each other these offsets are the one.
    """

    def __init__(self, wall: Wall, is_safe: bool, listed: set[tuple[int, int, int]]) -> None:
        self.wall, self.is_safe, self.listed = wall, is_safe, listed

    def judged(self, outline: Outline, least: float) -> tuple[float, float]:
        """The badness of a wall, and its greatest error. Where the extremes alone are worse than
        `least`, nothing more is looked at."""
        steepest, flattest = outline.extremes(self.is_safe)
        if self.worst(steepest, flattest) > least:
            return math.inf, steepest
        even = outline.by_degree()
        steepest, flattest = max(steepest, *even), min(flattest, *even)
        worst, mean = self.worst(steepest, flattest), sum(abs(off) for off in even) / 360 / MEAN
        if self.is_safe:
            return max(worst, mean), steepest
        most, less = max(steepest, -flattest), min(steepest, -flattest)
        is_one_sided = most > EVEN and less < SIDE * most
        lean = abs(sum(even)) / 360 / SIGNED
        return max(worst, mean, lean, 1.5 if is_one_sided else 0), steepest

    def worst(self, steepest: float, flattest: float) -> float:
        """The badness of a wall by its extremes alone."""
        steep = TOO_STEEP * (1 + steepest) if self.is_safe and steepest > EVEN else 0.0
        return max(steepest, -flattest) / WORST + steep

    def best(self, cones: Cones, stretches: list[float]) -> Found | None:
        """The best offsets of these cones, up to whichever level; None where there are none."""
        best: Found | None = None
        seen = dict[tuple[Any, ...], tuple[float, float]]()
        for stretch in stretches:
            corners, count = list[tuple[int, int, int]](), 0
            least = math.inf if best is None else max(1.0, best.badness) * (1 + TOLERANCE)
            for offsets in cones.grown(stretch):
                if best and best.is_held and len(offsets) > len(best.offsets):
                    break
                outline = Outline(self.wall, corners + offsets[count:])
                corners, count = outline.at or list(offsets), len(offsets)
                if -outline.flattest() > least * WORST:
                    break  # further levels make it flatter still
                key = tuple(outline.corners)
                if key not in seen:
                    seen[key] = self.judged(outline, least)
                found = Found(offsets, *seen[key])
                is_listed = set(offsets) == self.listed
                if found.is_better(best) or is_listed and best and not best.is_better(found):
                    best = found
                    least = max(1.0, best.badness) * (1 + TOLERANCE)
        return best

    def flatter(self, levels: int) -> Found | None:
        """The best of cones that are stretched so far that none of their walls is too steep; None
        where one level of them has more offsets than `pit` takes."""
        narrow = WIDEST
        while next(Cones(self.wall, 1, narrow).grown(narrow), None):
            cones = Cones(self.wall, levels, 2 * narrow)
            found = self.best(cones, [*cones.stretches(narrow, TRIES[0][1]), cones.widest])
            if found and found.steepest <= EVEN:
                return found
            narrow = cones.widest
        return None


def fewest(
    wall: Wall, is_safe: bool, levels: int | None, listed: set[tuple[int, int, int]]
) -> list[tuple[int, int, int]]:
    """The fewest offsets of a wall that is as steep as asked: of cones stretched a little, without
    each offset that sums of others come to. It is looked for so many levels up that the wall comes
    10 blocks out, and where none is good enough 24.

    Raises
    ------
    Bad
        Where no wall that has to be safe is.
    """
    search, best, before, most_up = Search(wall, is_safe, listed), None, 0, levels or MOST_LEVELS
    for blocks, most in TRIES:
        high = min(most_up, wall.levels(blocks))
        if high == before:
            break
        before, cones = high, Cones(wall, high, WIDEST)
        found = search.best(cones, cones.stretches(NARROWEST, most))
        found = found or search.best(cones, cones.stretches(0.0, most))
        if found and found.is_better(best):
            best = found
        if best and best.is_held:
            break
    if is_safe and best and best.steepest > EVEN:
        best = search.flatter(min(before, wall.levels(3)))
    if best is None:
        raise Bad("no offsets make a wall that study.toml asks for")
    return best.offsets


# --- All checks, each after those that it depends on ---


def check_all(report: Report, pit: str, is_plain: bool) -> None:
    """All steps, in the order of what rests on what."""
    report.attempt(SUMS, check_digests, report)
    facts, blocks = report.attempt("facts.json", facts_of), report.attempt(
        "model/mine.blocks", Blocks
    )
    said = report.attempt(
        f"{pit} --version",
        lambda: subprocess.run([pit, "--version"], stdout=subprocess.PIPE, text=True).stdout.split(
            "\n"
        ),
    )
    if facts is None or blocks is None or said is None:
        return
    here = [line for line in said if line]
    report.say(
        "ok" if here == facts["pit"] else "look",
        f"the program here is {', '.join(here)}; the bundle was made by {', '.join(facts['pit'])}",
    )
    report.attempt("the names of files and keys", check_names, report, blocks, facts)
    report.attempt("facts.json, model/manifest.json", check_facts, report, blocks, facts)
    found = report.attempt("the table", check_table, report, blocks, facts)
    report.attempt("the slopes", check_slopes, report, blocks, found.regions if found else None)
    report.attempt("the factors", check_series, report)
    shell = report.attempt("verdicts.json", check_pits, report, pit, blocks, is_plain)
    if shell is not None and found and found.fenced:
        dug = [b for b in found.fenced if shell[b]]
        report.check(
            not dug,
            "no pit has a block that forbid keeps"
            + (f": not so for {len(dug):,}, the first is block {dug[0]}" if dug else ""),
        )
    report.attempt("the plan by years", check_planned, report, pit, is_plain)
    if shell is not None:
        report.attempt("the slopes of the pits", check_closed, report, blocks, shell)
        report.attempt(
            "the tables",
            check_tables,
            report,
            blocks,
            facts,
            shell,
            found,
        )


def has_plan() -> bool:
    """Whether anything of a plan by years is in the bundle."""
    try:
        return any(within(name).exists() for name in OF_SCHEDULE)
    except (Bad, OSError):
        return True


def main() -> int:
    """Checks the bundle in this script's folder, and gives the exit status."""
    words = [word for word in sys.argv[1:] if word != "--plainly"]
    if len(words) > 1 or any(word.startswith("-") for word in words):
        print(__doc__)
        return 2
    if isinstance(sys.stdout, io.TextIOWrapper):
        sys.stdout.reconfigure(errors="replace")
    report = Report()
    check_all(report, words[0] if words else "pit", "--plainly" in sys.argv)
    try:
        print(
            f"sha256 of {SUMS}: {digest_of(within(SUMS))} (compare it with the one that you were told)"
        )
    except (Bad, OSError):
        pass
    bad, looks = report.count["WRONG"], report.count["look"]
    said = (
        f"{bad} of {report.count.total()} things are WRONG"
        if bad
        else f"everything that was looked at holds: {report.count['ok']} things"
        + (f"; {looks} lines begin with look, and are yours to judge" if looks else "")
    )
    print(said + ("; recheck_schedule.py checks the plan by years" if has_plan() else ""))
    return 1 if bad else 0


if __name__ == "__main__":
    sys.exit(main())
