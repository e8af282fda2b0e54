#!/usr/bin/env python3
"""Checks the schedule of this bundle and its bound again, by Python's standard library alone (3.11 or later).

    python3 recheck_schedule.py

It reads study.toml, the planner's table, the model in model/, the pit at the full price in
certificates/, schedule/ and tables/, by the readers of recheck.py, which has to lie beside it. What
periods weigh and have and what blocks use is worked out again. Of the certificate of the bound it
takes the flow alone, and compares the bound with the one that the planner was shown. No pit needs to
be trusted, and none is run. That the pit at the full price is a best one, and the slopes, are for
recheck.py. A line begins with ok or WRONG; the exit status is 0 where nothing is WRONG.
"""
from __future__ import annotations

import sys

if __name__ == "__main__" and not (sys.flags.isolated or getattr(sys.flags, "safe_path", False)):
    del sys.path[0]  # no file beside this one is run for one of Python's library

import copy
import importlib.util
import json
import math
import re
import zlib
from collections.abc import Collection, Iterator
from decimal import Decimal, localcontext
from importlib.machinery import ModuleSpec, SourceFileLoader
from itertools import zip_longest
from pathlib import Path
from types import CodeType
from typing import TYPE_CHECKING, Any, BinaryIO, NamedTuple

HERE = Path(__file__).resolve().parent


# --- The readers of recheck.py, loaded from its text beside this script ---


class TextLoader(SourceFileLoader):
    """Loads a script from its text alone: never from code that lies compiled beside it."""

    def get_code(self, fullname: str) -> CodeType:
        path = self.get_filename(fullname)
        code: CodeType = self.source_to_code(self.get_data(path), path)
        return code


if TYPE_CHECKING:
    from . import recheck
else:
    sys.dont_write_bytecode = True  # a file that no digest is of would be WRONG
    _loader = TextLoader("recheck", str(HERE / "recheck.py"))
    recheck = importlib.util.module_from_spec(ModuleSpec("recheck", _loader))
    recheck.__file__ = _loader.path
    sys.modules["recheck"] = recheck
    _loader.exec_module(recheck)

# --- Limits, and the values that the keys of [schedule] may have ---
THOUSAND, MILLION = 1000, 10**6
CHUNK_SIZE, MOST_TEXT, MOST_BYTES = (
    1 << 20,
    1 << 26,
    1 << 34,
)  # bytes: read at a time, of small texts, of others
HELD = 10**30  # what a node is worth less whose block waits beyond its period, in 10^-15
FULL = 0.995  # of a rate, from which on it is said to bind, whatever still fits
WHEN = {"start": Decimal(0), "mid": Decimal("0.5"), "end": Decimal(1)}
CUTOFFS = ("fixed", "by year")
ENDS = {"SOURCE": 1, "REST": 2, "SINK": 1}  # how many nodes a line of the flow names
TERMS = recheck.STUDY["schedule"]
MOST_PERIODS, MOST_LEAD, MOST_COST = 200, 1000, 10**12  # that pitplan plans with
# The values that each key of schedule/periods.toml and schedule/terms.json may have.
Kind, MOST_NUMBER = recheck.Kind, 10**60


def is_amount(value: Any) -> bool:
    """Whether this is a whole number of at least 0; nan, inf, 1.0 and true are none."""
    return recheck.is_whole(value, 0, MOST_NUMBER)


def whole_to(least: int, most: int) -> recheck.Kind:
    """A whole number in a range."""
    must = f"a whole number from {least} to {most:,}"
    return Kind(must, lambda value: recheck.is_whole(value, least, most))


def is_row(value: Any) -> bool:
    """Whether this is a list of whole numbers of at least 0, and of one at least."""
    return recheck.is_list(value, is_amount, 1)


ROW = Kind("a list of 1 or more whole numbers of at least 0", is_row)
ROWS = Kind(
    "a list of lists of 1 or more whole numbers of at least 0",
    lambda value: recheck.is_list(value, is_row, 1),
)
OF_PERIODS = {
    "weights": Kind(
        f"a list of 1 to {MOST_PERIODS:,} whole numbers of at least 0",
        lambda value: recheck.is_list(value, is_amount, 1, MOST_PERIODS),
    ),
    "resources": Kind(
        "a list of columns: whole numbers of at least 0, or lists of such",
        lambda value: recheck.is_list(value, lambda one: is_amount(one) or is_row(one), 1),
    ),
    "capacities": ROWS,
    "multipliers": ROWS,
    "waits": ROW,
    "lag": whole_to(1, MOST_PERIODS),
}
SOLD = Kind(
    "an amount in quotes, as pitplan writes it, with no 0 at the end of its decimals",
    lambda value: isinstance(value, str)
    and re.fullmatch(r"-?(?:0|[1-9][0-9]{0,59})(?:\.[0-9]{0,19}[1-9])?", value) is not None,
)
OF_TERMS = {
    "sink": Kind(
        "null or a whole number from 1 on",
        lambda value: value is None or recheck.is_whole(value, 1),
    ),
    "lag": whole_to(1, MOST_PERIODS),
    "pushbacks": Kind(
        f"a list of whole numbers from 1 to {THOUSAND:,}",
        lambda value: recheck.is_list(value, lambda one: recheck.is_whole(one, 1, THOUSAND)),
    ),
    "lead": whole_to(0, MOST_LEAD),
    "fixed_cost": whole_to(0, MOST_COST),
    "npv": SOLD,
    "bound": SOLD,
}
LINE = re.compile(rb"[A-Z0-9-]+(?: [A-Z0-9-]+)*")  # of a text that pit reads, but for those in TOML
WHOLE = re.compile("0|-?[1-9][0-9]{0,59}")  # a number there, as pitplan writes it
# What Python raises where a file contradicts another in a way that no check above names.
UNFIT = (
    *(EOFError, zlib.error, AttributeError, ArithmeticError, ValueError, KeyError, IndexError),
    *(TypeError, MemoryError, RecursionError),
)
Rows = list[list[int]]  # of each block or unit those that it rests on


# --- What is read: the mine, and its periods with their capacities and uses ---


class Wrong(Exception):
    """What is wrong."""


class Quiet(recheck.Report):
    """The lines of recheck.py, of which one that is WRONG ends the check."""

    def say(self, kind: str, what: str) -> None:
        need(kind != "WRONG", what)


class Mine(NamedTuple):
    """The model: its blocks, of each what digging it costs and what it gains by each way at the full
    price, 0 where nothing, in whole units of currency; the number of the way by which it is worth most,
    from 1, and 0 of waste; whether it is rock, and what it rests on."""

    blocks: recheck.Blocks
    costs: list[int]
    gains: Rows
    ways: list[int]
    is_rock: list[bool]
    above: Rows

    def gain(self, block: int, way: int) -> int:
        """What a block gains by a way, from 1; nothing as waste, which is 0."""
        return self.gains[block][way - 1] if way else 0


class Periods(NamedTuple):
    """What schedule/ says: weights in millionths, what each period has and what a unit of that is
    priced at, uses by resource and block, the unit of each block of the pit, the sink rate, the way,
    from 1, of each block that is sent (None where each goes that by which it is worth most), the
    pushback of each block, how far one is ahead of the next, and what a period costs in which rock is
    dug. `told` is what the planner was shown: the worth of the schedule, and its bound."""

    weights: list[int]
    capacities: Rows
    multipliers: Rows
    uses: Rows
    unit: dict[int, int]
    sink: int | None
    lag: int
    sent: dict[int, int] | None
    pushback: dict[int, int]
    lead: int
    fixed_cost: int
    told: tuple[str, str] = ("0", "0")

    def goes(self, mine: Mine, block: int) -> int:
        """Which way a block goes once it is dug, from 1; 0 to waste."""
        return mine.ways[block] if self.sent is None else self.sent.get(block, 0)


def need(holds: bool, what: str) -> None:
    """Ends the check where something doesn't hold."""
    if not holds:
        raise Wrong(what)


def words_of(name: str) -> Iterator[list[str]]:
    """The lines of a text of the bundle, as words, read as pit reads it: a line ends at a line feed
    alone, and a space parts two words, as pitplan writes it. One that is packed may hold some
    thousand times its size, in lines of a usual length."""
    rest = b""
    with open(recheck.within(name), "rb") as file:
        for text in parts_of_text(name, file):
            *lines, rest = (rest + text).split(b"\n")
            need(len(rest) <= CHUNK_SIZE, f"{name} has a line of more than {CHUNK_SIZE:,} bytes")
            for line in lines:
                is_plain = LINE.fullmatch(line) is not None
                need(
                    is_plain, f"{name} has the line {recheck.shown(line.decode(errors='replace'))}"
                )
                yield line.decode().split(" ")
    need(not rest, f"{name} has no line feed at its end, or was cut off")


def whole_number(where: str, word: str) -> int:
    """A number of a text, in the one form that pitplan writes, which no two programs read apart."""
    is_plain = WHOLE.fullmatch(word) is not None
    need(
        is_plain,
        f"{where}, has {recheck.shown(word)}, and has to have a plain whole number, as 0, 12 or -3",
    )
    return int(word)


def numbers_of(name: str, what: str, least: int, most: int | None = None) -> Iterator[list[int]]:
    """The lines of a text that has numbers alone, of which each line has so many; `what` says which
    they are."""
    for n, words in enumerate(words_of(name), 1):
        where = f"{name}, line {n}"
        need(
            least <= len(words) <= (most or len(words)),
            f"{where}, has {len(words)} words, and has to have {what}",
        )
        yield [whole_number(where, word) for word in words]


def parts_of_text(name: str, file: BinaryIO) -> Iterator[bytes]:
    """What a text of that name has, in pieces."""
    if not name.endswith(".gz"):
        while data := file.read(CHUNK_SIZE):
            yield data
        return
    try:
        yield from recheck.pieces(file, MOST_BYTES, "a certificate")
    except (recheck.Bad, EOFError, zlib.error) as error:
        raise Wrong(f"{name}: {recheck.reason(error)}") from None


def text_in(name: str) -> str:
    """A small text of the bundle."""
    path = recheck.within(name)
    need(path.stat().st_size <= MOST_TEXT, f"{name} has more than {MOST_TEXT:,} bytes")
    return recheck.text_of(name, "a text")


def stated_periods() -> dict[str, Any]:
    """What schedule/periods.toml says."""
    name = "schedule/periods.toml"
    text = text_in(name)
    found = recheck.toml_as_written(name)
    need_known("periods.toml", found, OF_PERIODS)
    recheck.looked_at(f"{name}:", found, OF_PERIODS, list(OF_PERIODS)[:4])
    # No comment, no number of another form, and keys in the order of the kinds above.
    ours = "".join(f"{key} = {found[key]}\n" for key in OF_PERIODS if key in found)
    need_written(name, text, ours)
    return found


def stated_terms() -> dict[str, Any]:
    """What schedule/terms.json says."""
    name = "schedule/terms.json"
    text = text_in(name)
    found = recheck.of_json(text, name)
    recheck.looked_at(f"{name}:", found, OF_TERMS, OF_TERMS)
    need_known("terms.json", found, OF_TERMS)
    need_written(name, text, json.dumps(found))
    return dict(found)


def need_written(name: str, text: str, ours: str) -> None:
    """Ends the check where a text isn't, byte for byte, the one that pitplan writes for its values."""
    for n, (line, wanted) in enumerate(zip_longest(text.split("\n"), ours.split("\n")), 1):
        need(
            line == wanted,
            f"{name}, line {n}, is {recheck.shown(line or '')}, and pitplan writes these values as"
            f" {recheck.shown(wanted or '')}",
        )


def need_known(name: str, values: dict[str, Any], known: Collection[str]) -> None:
    """Ends the check where a table has a key that nothing reads."""
    strange = [recheck.shown(key) for key in values if key not in known]
    need(not strange, f"{name} has {', '.join(strange)}, which pitplan writes into no such file")


def read_mine() -> Mine:
    """The model as pit was given it."""
    blocks, costs, gains = recheck.Blocks(), list[int](), list[list[int]]()
    need(bool(blocks.amounts), "model/mine.blocks has no block")
    for number, (each, mining) in enumerate(blocks.amounts):
        of_ways = [max(0, revenue - processing) for revenue, processing in each]
        is_whole = not any(amount % MILLION for amount in (*of_ways, mining))
        need(is_whole, f"block {number} isn't worth whole units of currency")
        costs.append(mining // MILLION)
        gains.append([gain // MILLION for gain in of_ways])
    above = [blocks.above(number) for number in range(len(costs))]
    ways = [blocks.way(number, THOUSAND) for number in range(len(costs))]
    return Mine(blocks, costs, gains, ways, [tonnes > 0 for tonnes in blocks.tonnes], above)


def read_periods(mine: Mine) -> Periods:
    """What schedule/ says of the periods, each number in its range."""
    stated, terms = stated_periods(), stated_terms()
    weights, count = stated["weights"], len(stated["weights"])
    resources = 1 + len(mine.blocks.amounts[0].ways)
    for t in range(1, count):
        need(
            weights[t] <= weights[t - 1],
            f"schedule/periods.toml: weights rise: period {t + 1} weighs {weights[t]}, and the one"
            f" before it {weights[t - 1]}",
        )
    for name in ("capacities", "multipliers"):
        need(
            [len(row) for row in stated[name]] == [count] * resources,
            f"schedule/periods.toml: {name} aren't lists of {count} periods for {resources} resources",
        )
    unit = read_units(len(mine.costs))
    return Periods(
        weights,
        stated["capacities"],
        stated["multipliers"],
        read_uses(mine, resources),
        unit,
        terms["sink"],
        terms["lag"],
        read_sent(mine),
        read_pushbacks(terms["pushbacks"], unit),
        terms["lead"],
        terms["fixed_cost"],
        (terms["npv"], terms["bound"]),
    )


def read_uses(mine: Mine, resources: int) -> Rows:
    """What each block uses of each resource."""
    name, uses = "schedule/uses.blocks", list[list[int]]()
    what = f"a block, its place, what it uses of {resources} resources, and what it waits for"
    for number, row in enumerate(numbers_of(name, what, 4 + resources)):
        where = f"{name}, line {number + 1}"
        need(row[0] == number, f"{where}, is of block {row[0]}: blocks aren't in their order")
        need(number < len(mine.costs), f"{where}, is of block {number}, which isn't in the model")
        is_there = tuple(row[1:4]) == mine.blocks.places[number]
        need(is_there, f"{where}, has block {number} at another place than model/mine.blocks")
        uses.append(row[4 : 4 + resources])
        need(min(uses[-1]) >= 0, f"{where}, has a use below 0")
    need(len(uses) == len(mine.costs), f"{name} hasn't a line for each block of the model")
    return [list(row) for row in zip(*uses)]


def read_units(size: int) -> dict[int, int]:
    """The unit of each block of the pit, by lines of blocks of a model of that size."""
    name, found = "schedule/units.txt", dict[int, int]()
    for n, (block, unit) in enumerate(numbers_of(name, "2: a block and its unit", 2, 2), 1):
        need(0 <= block < size, f"{name}, line {n}, is of block {block}, which isn't in the model")
        need(block not in found, f"{name} has a second line of block {block}: line {n}")
        found[block] = unit
    need(bool(found), f"{name} is empty: it has to have a line for each block of the pit")
    for block, unit in found.items():
        need(
            0 <= unit < len(found),
            f"{name}: block {block} has unit {unit}, and has to have a number from 0 to"
            f" {len(found) - 1:,}, as the pit has {len(found):,} blocks",
        )
    return found


def planned_rows(mine: Mine) -> Iterator[tuple[int, list[int]]]:
    """The lines of schedule/schedule.txt, with their numbers: a block of the model, its period, and
    its way where a schedule says which; that of waste has the number of the ways."""
    name, waste = "schedule/schedule.txt", len(mine.blocks.amounts[0].ways)
    size, count = len(mine.costs), 0
    for n, row in enumerate(numbers_of(name, "2 or 3: a block, its period and its way", 2, 3), 1):
        where = f"{name}, line {n}"
        need(0 <= row[0] < size, f"{where}, is of block {row[0]}, which isn't in the model")
        count = count or len(row)
        need(len(row) == count, f"{where}: the schedule has a way for some blocks alone")
        need(all(0 <= way <= waste for way in row[2:]), f"{where}: block {row[0]}: its way is none")
        yield n, row
    need(bool(count), f"{name} is empty: it has to have a line for each block that is dug")


def read_sent(mine: Mine) -> dict[int, int] | None:
    """The way, from 1, of each block that a schedule sends, where it says which. None where it doesn't
    say."""
    waste = len(mine.blocks.amounts[0].ways)
    rows = [row for _, row in planned_rows(mine) if len(row) > 2]
    return {block: way + 1 for block, _, way in rows if way != waste} if rows else None


def read_pushbacks(factors: list[int], unit: dict[int, int]) -> dict[int, int]:
    """The pushback of each block of the pit: how many of the pits of these factors don't have it."""
    need(
        all(a < b for a, b in zip(factors, factors[1:])),
        "schedule/terms.json: the factors of pushbacks don't ascend",
    )
    pits = [pit_of(factor) for factor in factors]
    return {block: sum(block not in pit for pit in pits) for block in unit}


def pit_of(factor: int) -> set[int]:
    """The blocks of the pit at a factor, by its certificate: as many as verdicts.json says."""
    name = f"certificates/f{factor:05d}.cert.gz"
    found = list[int]()
    for n, words in enumerate(words_of(name), 1):
        if words[0] == "PIT":
            where = f"{name}, line {n}"
            need(
                len(words) == 2, f"{where}, has {len(words)} words, and has to have PIT and a block"
            )
            found.append(whole_number(where, words[1]))
    said = [each["count"] for each in recheck.verdicts_of() if each["file"] == name]
    need(
        said == [len(found)] and len(found) == len(set(found)),
        f"{name} has {len(found):,} PIT lines, and verdicts.json says {said}",
    )
    return set(found)


# --- The sink rate: the block that each block waits for ---


def sinking(mine: Mine, periods: Periods) -> Rows:
    """Of each block of the pit the block of rock that the sink rate asks for a year before: so many
    benches straight above it, where a block lies at each bench between."""
    found: Rows = [[] for _ in mine.costs]
    benches = [z for _, _, z in mine.blocks.places]
    # No column of blocks has more benches: a larger number asks for nothing, and isn't counted out.
    if periods.sink is None or periods.sink > max(benches) - min(benches):
        return found
    number = {place: block for block, place in enumerate(mine.blocks.places)}
    for block in periods.unit:
        x, y, z = mine.blocks.places[block]
        column = [number.get((x, y, z + step)) for step in range(1, periods.sink + 1)]
        top = column[-1]
        if None not in column and top is not None and mine.is_rock[block] and mine.is_rock[top]:
            found[block].append(top)
    return found


# --- The texts that pit was given say the same of uses and of the sink rate ---


def check_texts(periods: Periods, lagged: Rows) -> None:
    """What schedule/ tells pit of uses and of the sink rate: in which columns stands what a block uses,
    and by ways where a schedule chooses them; and after them for which block each waits, its own
    number where for none, and for how many periods."""
    stated, uses = stated_periods(), len(periods.uses)
    columns = [] if periods.sink is None else [uses]
    need(stated.get("waits", []) == columns, "periods.toml hasn't the column of the sink rate")
    lag = periods.lag if columns else None
    need(stated.get("lag") == lag, "periods.toml hasn't the lag of the sink rate")
    zeros = uses + len(columns)  # a column that has nothing: other ways use none of a resource
    named: list[Any] = list(range(uses))
    if chooses(periods):
        named[1:] = [[r if r == way else zeros for way in range(1, uses)] for r in range(1, uses)]
    need(stated["resources"] == named, "periods.toml has other columns of uses")
    rest = [0] if chooses(periods) and uses > 2 else []
    for block, row in enumerate(numbers_of("schedule/uses.blocks", "uses", 4 + uses)):
        waits = row[4 + uses :]
        ours = ((lagged[block] or [block]) if columns else []) + rest
        need(waits == ours, f"block {block} waits for {waits}, and by the sink rate for {ours}")


# --- Feasibility: slopes, sink rate, pushbacks and capacities hold; net present value ---


def read_schedule(mine: Mine, never: int) -> dict[int, int]:
    """The period of each block that is dug, of so many. Where it has a way too, this is one by which
    the block gains, or waste."""
    when, waste = dict[int, int](), len(mine.blocks.amounts[0].ways)
    for n, (block, period, *ways) in planned_rows(mine):
        where = f"schedule/schedule.txt, line {n}"
        is_first = block not in when
        need(is_first, f"schedule/schedule.txt has a second line of block {block}: line {n}")
        need(0 <= period < never, f"{where}, digs block {block} in period {period} of {never}")
        gaining = [way for way in range(waste) if mine.gains[block][way]]
        need(all(way in (waste, *gaining) for way in ways), f"{where}: block {block}: its way")
        when[block] = period
    return when


def check_schedule(mine: Mine, periods: Periods, lagged: Rows, when: dict[int, int]) -> Decimal:
    """The net present value of a schedule, once it keeps slopes, sink rate and capacities."""
    never = len(periods.weights)
    together = dict[int, int]()
    for block, period in when.items():
        need(block in periods.unit, f"block {block} isn't of the pit")
        need(
            together.setdefault(periods.unit[block], period) == period,
            f"block {block} isn't dug with its panel",
        )
        for other in mine.above[block]:
            need(when.get(other, never) <= period, f"block {block} is dug before block {other}")
        for other in lagged[block]:
            need(
                when.get(other, never) + periods.lag <= period,
                f"block {block} breaks the sink rate",
            )
    check_pushbacks(mine, periods, when)
    need(
        periods.sent is None
        or all(block in when and mine.gain(block, way) for block, way in periods.sent.items()),
        "a block is sent that isn't dug, or gains nothing by its way",
    )
    for resource, (uses, rooms) in enumerate(zip(periods.uses, periods.capacities)):
        of_way = {block for block in when if periods.goes(mine, block) == resource}
        used, taking = [0] * never, of_way if resource else set(when)
        for block in taking:
            used[when[block]] += uses[block]
        for period, (amount, room) in enumerate(zip(used, rooms)):
            need(amount <= room, f"period {period + 1} uses {amount} of {room}")
    return Decimal(npv_of(mine, periods, when)) / MILLION


def npv_of(mine: Mine, periods: Periods, when: dict[int, int]) -> int:
    """What a schedule is worth, less the fixed costs of the periods in which it digs rock, in
    millionths."""
    total = 0
    for block, period in when.items():
        gain = mine.gain(block, periods.goes(mine, block))
        total += periods.weights[period] * (gain - mine.costs[block])
    open_in = {period for block, period in when.items() if periods.uses[0][block]}
    return total - periods.fixed_cost * sum(periods.weights[period] for period in open_in)


def check_pushbacks(mine: Mine, periods: Periods, when: dict[int, int]) -> None:
    """A block waits for all blocks of the pushbacks before its own, down to so many benches below
    it."""
    ahead = ahead_of(mine, periods, when)
    for block, period in when.items():
        need(ahead[block] <= period, f"block {block} is dug before the pushbacks ahead of it")


def ahead_of(mine: Mine, periods: Periods, when: dict[int, int]) -> dict[int, int]:
    """Of each block of the pit the last period of what lies ahead of it by pushbacks; -1 where nothing
    does."""
    latest, never = dict[tuple[int, int], int](), len(periods.weights)
    benches = [mine.blocks.places[block][2] for block in periods.unit]
    low, high = min(benches), max(benches)
    for block, pushback in periods.pushback.items():
        place = pushback, mine.blocks.places[block][2]
        latest[place] = max(latest.get(place, -1), when.get(block, never))
    for pushback in range(max(periods.pushback.values()) + 1):
        for bench in range(high, low - 1, -1):
            latest[pushback, bench] = max(
                latest.get((pushback, bench), -1),
                latest.get((pushback, bench + 1), -1),
                latest.get((pushback - 1, bench), -1),
            )
    found = dict[int, int]()
    for block in periods.unit:
        bench = max(mine.blocks.places[block][2] - periods.lead, low)
        found[block] = latest.get((periods.pushback[block] - 1, bench), -1)
    return found


# --- Which limits bind: the sink rate, and rates that are full ---


def kept_by_sink(
    mine: Mine, periods: Periods, lagged: Rows, when: dict[int, int]
) -> dict[int, list[tuple[int, ...]]]:
    """By period the places of the blocks of rock that the sink rate alone keeps out of it: all else
    that they or their panel rest on is dug by then, and they are dug in the period after it."""
    above, sunk = dict[int, int](), dict[int, int]()
    ahead, never = ahead_of(mine, periods, when), len(periods.weights)
    for block in when:
        unit = periods.unit[block]
        over = [when.get(b, never) for b in mine.above[block] if periods.unit[b] != unit]
        above[unit] = max(above.get(unit, -1), ahead[block], *over)
        lags = [when.get(b, never) + periods.lag for b in lagged[block]]
        sunk[unit] = max([sunk.get(unit, -1), *lags])
    found = dict[int, list[tuple[int, ...]]]()
    for block, period in when.items():
        unit = periods.unit[block]
        if mine.is_rock[block] and above[unit] < period == sunk[unit]:
            found.setdefault(period - 1, []).append(mine.blocks.places[block])
    return found


def could_be_dug(
    mine: Mine, periods: Periods, lagged: Rows, when: dict[int, int]
) -> dict[int, range]:
    """The periods in which each unit could be dug, and isn't: from where all that it rests on is dug to
    the one before its own."""
    ahead, never = ahead_of(mine, periods, when), len(periods.weights)
    first, own = dict[int, int](), dict[int, int]()
    for block, unit in periods.unit.items():
        over = [when.get(b, never) for b in mine.above[block] if periods.unit.get(b) != unit]
        over += [when.get(b, never) + periods.lag for b in lagged[block]]
        first[unit] = max(first.get(unit, 0), ahead[block], *over)
        own[unit] = when.get(block, never)
    return {unit: range(first[unit], own[unit]) for unit in own}


def full_rates(
    mine: Mine, periods: Periods, lagged: Rows, when: dict[int, int], asked: Asked
) -> set[tuple[int, int]]:
    """Of which rates and periods nothing more that could be dug, or be sent another way, fits into what
    is left, where there is something: whole units of rock or feed, or blocks that a schedule sends.
    """
    could, never = could_be_dug(mine, periods, lagged, when), len(periods.weights)
    least, used = dict[tuple[int, int], int](), dict[tuple[int, int], int]()

    def may_add(resource: int, period: int, amount: int) -> None:
        place = resource, period
        if amount:
            least[place] = min(least.get(place, amount), amount)

    for resource, uses in enumerate(least_uses(periods, 1 + max(periods.unit.values()))):
        for unit, amount in enumerate(uses):
            for period in could[unit]:
                may_add(resource, period, amount)
    for block, unit in periods.unit.items():
        at, way = when.get(block, never), periods.goes(mine, block)
        for resource, uses in enumerate(periods.uses):
            if at < never and resource in (0, way):
                used[resource, at] = used.get((resource, at), 0) + uses[block]
            if chooses(periods) and resource and mine.gain(block, resource):
                here = [at] if at < never and resource != way else []
                for period in [*could[unit], *here]:
                    may_add(resource, period, uses[block])
    return {
        (resource, period)
        for (resource, period), amount in least.items()
        if asked.rates[resource]
        and asked.room(resource, period) - used.get((resource, period), 0) < amount
    }


# --- The mine of units: precedence, gates of pushbacks, and the clock of panels ---


def of_units(rows: Rows, unit: dict[int, int], is_apart: bool) -> list[set[int]]:
    """What each unit rests on, by its blocks; what lies outside the pit is wrong."""
    found: list[set[int]] = [set() for _ in range(max(unit.values()) + 1)]
    for block, mine in unit.items():
        for other in rows[block]:
            need(other in unit, f"block {block} of the pit rests on block {other} outside it")
            if not is_apart or unit[other] != mine:
                found[mine].add(unit[other])
    return found


def add_gates(mine: Mine, periods: Periods, above: list[set[int]]) -> list[int]:
    """Adds the gates of pushbacks after the units: one for each pushback but the last and each
    bench, from the top down, which rests on all of these pushbacks there and above. Gives the units
    and gates in an order in which what one rests on comes before it."""
    benches = {block: mine.blocks.places[block][2] for block in periods.unit}
    low, high = min(benches.values()), max(benches.values())
    units, last = len(above), max(periods.pushback.values())
    rank = {
        unit: (2 * periods.pushback[block], -benches[block]) for block, unit in periods.unit.items()
    }

    def gate(pushback: int, bench: int) -> int:
        return units + pushback * (high - low + 1) + high - max(bench, low)

    for pushback in range(last):
        for bench in range(high, low - 1, -1):
            over = {gate(pushback, bench + 1)} if bench < high else set[int]()
            above.append(over | ({gate(pushback - 1, bench)} if pushback else set()))
            rank[len(above) - 1] = 2 * pushback + 1, -bench
    for block, unit in periods.unit.items():
        pushback = periods.pushback[block]
        if pushback < last:
            above[gate(pushback, benches[block])].add(unit)
        if pushback:
            above[unit].add(gate(pushback - 1, benches[block] - periods.lead))
    return sorted(rank, key=lambda unit: rank[unit])


def counts_cones(periods: Periods) -> bool:
    """Whether the bound counts cones: where units are panels, or have an order of pushbacks."""
    return max(periods.pushback.values()) > 0 or len(set(periods.unit.values())) < len(periods.unit)


def cone_periods(periods: Periods, order: list[int], above: list[set[int]]) -> list[int]:
    """The first period by which each unit may be dug whole: all that it rests on, directly or not, is
    dug by then too, and needs room in the capacities so far. The one after all where there is none.
    """
    found = [0] * len(above)
    cones = [0] * len(above)  # a bit for each unit that it holds
    for unit in order:
        cones[unit] = 1 << unit
        for other in above[unit]:
            cones[unit] |= cones[other]
    for uses, rooms in zip(least_uses(periods, len(above)), periods.capacities):
        planes = [
            sum(1 << unit for unit, use in enumerate(uses) if use >> place & 1)
            for place in range(max(uses).bit_length())
        ]
        so_far = [sum(rooms[: t + 1]) for t in range(len(rooms))]
        for unit, cone in enumerate(cones):
            used = sum((cone & plane).bit_count() << k for k, plane in enumerate(planes))
            found[unit] = max(found[unit], sum(room < used for room in so_far))
    return found


def least_uses(periods: Periods, units: int) -> Rows:
    """What each unit uses of rock and of each feed whichever way its blocks go."""
    found = [[0] * units for _ in periods.uses]
    for block, unit in periods.unit.items():
        for resource, uses in enumerate(periods.uses):
            found[resource][unit] += uses[block] if not resource or not chooses(periods) else 0
    return found


def add_ties(mine: Mine, periods: Periods, above: list[set[int]]) -> dict[int, int]:
    """Adds a node for each block that may be sent beyond the first of its unit: it rests on its unit
    as that does on it. Gives the node of each that may be sent."""
    found, units = dict[int, int](), set[int]()
    for block, unit in sorted(periods.unit.items()):
        if not chooses(periods) or not any(mine.gains[block]):
            continue
        found[block] = len(above) if unit in units else unit
        if unit in units:
            above[unit].add(len(above))
            above.append({unit})
        units.add(unit)
    return found


def add_clock(
    firsts: list[int], count: int, lag: int, pairs: tuple[list[set[int]], list[set[int]]]
) -> None:
    """Adds a clock, where cones keep some units back: its tick k waits for the one before, so that it
    comes after k lags, and a unit rests on the last tick before its first period. One that has no
    room in so many periods rests on a tick that comes after all of them."""
    above, sunk = pairs
    ticks = [first // lag if first < count else -(-count // lag) for first in firsts]
    if not any(ticks):
        return
    begin = len(above)
    for unit, tick in enumerate(ticks):
        if tick:
            above[unit].add(begin + tick)
    above.extend(set() for _ in range(max(ticks) + 1))
    sunk.extend({begin + tick - 1} if tick else set() for tick in range(max(ticks) + 1))


# --- The bound on every schedule: its flow is balanced, and proves it ---


def check_bound(mine: Mine, periods: Periods, lagged: Rows) -> Decimal:
    """What no schedule of the pit's blocks is worth more than, by the flow of the certificate. Its
    nodes are t * n + b for units, ties and ticks b of n by the end of period t; amounts are in 10^-15.
    """
    above = of_units(mine.above, periods.unit, True)
    sunk = of_units(lagged, periods.unit, False)
    order, count = add_gates(mine, periods, above), len(periods.weights)
    firsts = cone_periods(periods, order, above) if counts_cones(periods) else [0] * len(above)
    lag = periods.lag if any(sunk) else 1
    node_of = add_ties(mine, periods, above)
    sunk += [set() for _ in above[len(sunk) :]]
    add_clock(firsts, count, lag, (above, sunk))
    leaves = left_by_nodes(mine, periods, node_of, len(above))
    node = [(b, t) for t in range(count) for b in range(len(above))]
    worths = [
        (leaves[b][t] - leaves[b][t + 1]) * MILLION - (HELD if sunk[b] and t < lag else 0)
        for b, t in node
    ]
    source = flow_of(node, worths, above, sunk, lag)
    closed = sum(max(worth, 0) for worth in worths) - source
    rooms = 0  # a period pays for its capacities and has its fixed cost, or digs nothing
    for t, weight in enumerate(periods.weights):
        paid = sum(
            prices[t] * row[t] for prices, row in zip(periods.multipliers, periods.capacities)
        )
        rooms += max(paid - weight * periods.fixed_cost * THOUSAND, 0)
    return Decimal(closed + rooms * MILLION) / (MILLION * THOUSAND * MILLION)


def chooses(periods: Periods) -> bool:
    """Whether a schedule says which blocks go to the mill."""
    return periods.sent is not None


def of_ways(periods: Periods) -> str:
    """Of which schedules the bound is: with a fixed cut-off of those by one choice of ways alone."""
    by_year = f'with each block by whichever way (cutoff = "{CUTOFFS[1]}")'
    fixed = f'with each block where it is worth most at the full price (cutoff = "{CUTOFFS[0]}")'
    return by_year if chooses(periods) else fixed


def left_by_nodes(mine: Mine, periods: Periods, node_of: dict[int, int], nodes: int) -> Rows:
    """What each unit, tie and tick leaves in each period, and nothing after the last: what it is worth
    less what it uses at the multipliers, in billionths; by the best of all ways and waste for each
    block where a schedule may choose."""
    values, more = [0] * nodes, [[0] * len(periods.weights) for _ in range(nodes)]
    uses = [[0] * nodes for _ in periods.uses]
    for block, unit in periods.unit.items():
        way = mine.ways[block]
        values[unit] -= mine.costs[block]
        uses[0][unit] += periods.uses[0][block]
        if not way:
            continue
        if not chooses(periods):
            values[unit] += mine.gain(block, way)
            uses[way][unit] += periods.uses[way][block]
            continue
        each = list(zip(mine.gains[block], [row[block] for row in periods.uses[1:]]))
        for t, weight in enumerate(periods.weights):
            prices = [row[t] for row in periods.multipliers[1:]]
            of_ways = [weight * g * THOUSAND - f * p for (g, f), p in zip(each, prices)]
            more[node_of[block]][t] += max(0, *of_ways)
    both = list(zip(uses, periods.multipliers))
    return [
        [
            weight * values[b] * THOUSAND + more[b][t] - sum(row[b] * each[t] for row, each in both)
            for t, weight in enumerate(periods.weights)
        ]
        + [0]
        for b in range(nodes)
    ]


def flow_of(
    node: list[tuple[int, int]],
    worths: list[int],
    above: list[set[int]],
    sunk: list[set[int]],
    lag: int,
) -> int:
    """What the flow takes from the source, once it is one: within what blocks have, along pairs,
    and as much out of each as comes in."""
    over, ends_of, source, is_whole = [0] * len(node), [0] * len(node), 0, False
    name, other_mine = "schedule/bound.cert.gz", ": the certificate isn't one of these periods"
    for n, words in enumerate(words_of(name), 1):
        is_whole = words == ["END"]
        if words[0] not in ENDS:
            continue
        where, count = f"{name}, line {n}", ENDS[words[0]]
        need(
            len(words) == count + 3,
            f"{where}, has {len(words)} words, and has to have {words[0]}, {count} of the nodes and 2"
            " numbers",
        )
        *ends, amount, second = [whole_number(where, word) for word in words[1:]]
        need(
            all(0 <= end < len(node) for end in ends),
            f"{where}: no such node among {len(node):,}{other_mine}",
        )
        need(amount > 0 and second == 0, f"{where}, has no amount above 0, or a second one")
        if words[0] == "SOURCE":
            ends_of[ends[0]] += amount  # a node may have several lines
            need(
                ends_of[ends[0]] <= worths[ends[0]],
                f"{where}: more flows into {ends[0]} than it is worth{other_mine}",
            )
            over[ends[0]] += amount
            source += amount
        elif words[0] == "SINK":
            ends_of[ends[0]] += amount
            need(
                ends_of[ends[0]] <= -worths[ends[0]],
                f"{where}: more flows out of {ends[0]} than it costs{other_mine}",
            )
            over[ends[0]] -= amount
        else:
            (unit, t), (other, s) = node[ends[0]], node[ends[1]]
            need(
                unit == other
                and s == t + 1
                or s == t
                and other in above[unit]
                or s == t - lag
                and other in sunk[unit],
                f"{where}: the flow goes from {ends[0]} to {ends[1]}, which is no pair{other_mine}",
            )
            over[ends[0]] -= amount
            over[ends[1]] += amount
    need(is_whole, f"{name} was cut off: it doesn't end with END")
    need(not any(over), f"{name}: what flows into a block doesn't flow out of it")
    return source


# --- The blocks that are scheduled are those of the pit at the full price ---


def check_pit(periods: Periods) -> None:
    """The blocks that are scheduled are those of the pit at the full price."""
    need(
        pit_of(THOUSAND) == set(periods.unit),
        "the blocks of the schedule aren't the pit at the full price",
    )


# --- Terms: weights, capacities, panels and fixed cost, worked out from study.toml ---


class Asked(NamedTuple):
    """What study.toml says: [schedule], the rates by resource, empty where there is none, and the
    discount."""

    terms: dict[str, Any]
    rates: list[list[Decimal]]
    discount: Decimal

    @classmethod
    def read(cls) -> Asked:
        """Rates and the discount are those of [shells] where [schedule] has none."""
        plan = recheck.toml_of("study.toml")
        terms = recheck.looked_at("study.toml: [schedule]", plan.get("schedule", {}), TERMS, ())
        strange = sorted(set(terms) - set(TERMS))
        need(not strange, f"[schedule] has {', '.join(strange)}, which this script doesn't know")
        of_shells = recheck.looked_at("study.toml: [shells]", plan.get("shells", {}), TERMS, ())
        both = {**{name: of_shells[name] for name in TERMS if name in of_shells}, **terms}
        processes = recheck.economics_of().get("processes")
        if processes is not None:
            need("mill_rate" not in both, "there are processes, and a mill_rate beside them")
        own = [both.get("mill_rate", [])]
        told = dict(both.get("process_rates", {}))
        if processes is not None:
            own = [told.pop(each["name"], each.get("rate", [])) for each in processes]
        need(not told, f"process_rates names {', '.join(told)}, and no process is called so")
        found = [both.get("mining_rate", []), *own]
        rates = [rate if isinstance(rate, list) else [rate] for rate in found]
        return cls(
            terms,
            [[Decimal(str(each)) for each in row] for row in rates],
            Decimal(str(both.get("discount", 0.1))),
        )

    @property
    def per_year(self) -> int:
        """Periods in a year."""
        return int(self.terms.get("per_year", 1))

    def weights(self, count: int) -> list[int]:
        """What money of each of so many periods is worth today, in millionths."""
        when = WHEN[self.terms.get("when", "mid")]
        with localcontext() as exact:
            exact.prec = 50
            return [
                round(MILLION / (1 + self.discount) ** ((t + when) / self.per_year))
                for t in range(count)
            ]

    def room(self, resource: int, period: int) -> int:
        """What a period has of a resource, in thousandths of a tonne; the last rate stays."""
        rates = self.rates[resource]
        rate = rates[min(period // self.per_year, len(rates) - 1)]
        return int(rate * THOUSAND / self.per_year)

    def years(self, totals: list[float]) -> int:
        """How many years there are for so many thousandths of a tonne of each resource: as many as
        the rates need and one more, where study.toml has no number. More than MOST_PERIODS aren't
        counted out: pitplan plans no more."""
        if "years" in self.terms:
            return int(self.terms["years"])
        most = 0
        for rates, total in zip(self.rates, totals):
            year, left = 0, total / THOUSAND
            while rates and 0 < left and (year < len(rates) or rates[-1]) and year < MOST_PERIODS:
                left -= float(rates[min(year, len(rates) - 1)])
                year += 1
            most = max(most, year)
        return most + 1


def check_terms(mine: Mine, periods: Periods, asked: Asked) -> None:
    """What periods weigh and have, the sink rate and the panels are those of study.toml."""
    count = len(periods.weights)
    totals = [sum(row[block] for block in periods.unit) for row in periods.uses]
    by_best = [
        sum(row[b] for b in periods.unit if not resource or mine.ways[b] == resource)
        for resource, row in enumerate(periods.uses)
    ]
    years = {
        asked.years([total * share for total in by_best]) for share in (1 - 1e-9, 1.0, 1 + 1e-9)
    }
    need(
        count in {year * asked.per_year for year in years},
        f"schedule/periods.toml has {count} periods, and study.toml asks for others",
    )
    need(
        (periods.sink, periods.lag) == (asked.terms.get("sink"), asked.per_year),
        "schedule/terms.json: the sink rate isn't that of study.toml",
    )
    need(
        (periods.sent is not None) == (asked.terms.get("cutoff") == CUTOFFS[1]),
        "schedule/schedule.txt: the cut-off isn't that of study.toml",
    )
    factors = [round(share * THOUSAND) for share in asked.terms.get("pushbacks", [])]
    is_same = periods.pushback == read_pushbacks(factors, periods.unit)
    need(
        is_same and periods.lead == asked.terms.get("lead", 0),
        "schedule/terms.json: the pushbacks aren't those of study.toml",
    )
    fixed = Decimal(str(asked.terms.get("fixed_cost", 0))) / asked.per_year
    need(
        periods.fixed_cost == round(fixed),
        "schedule/terms.json: the fixed cost isn't that of study.toml",
    )
    wanted = asked.weights(count)
    for t, (weight, ours) in enumerate(zip(periods.weights, wanted)):
        need(
            weight == ours,
            f"schedule/periods.toml: period {t + 1} weighs {weight}, and by study.toml {ours}",
        )
    panel = asked.terms.get("panel", 1)
    square = {
        block: (x // panel, y // panel, z, periods.pushback[block] if panel > 1 else 0)
        for block, (x, y, z) in zip(periods.unit, map(mine.blocks.places.__getitem__, periods.unit))
    }
    pairs = {(unit, square[block]) for block, unit in periods.unit.items()}
    need(
        len(pairs) == len({unit for unit, _ in pairs}) == len({place for _, place in pairs}),
        "schedule/units.txt isn't the panels of study.toml"
        if panel > 1
        else "schedule/units.txt joins blocks, and study.toml asks for no panels",
    )


def check_rooms(periods: Periods, asked: Asked) -> None:
    """What periods have is the rates of study.toml, as far as what blocks use fills them."""
    totals = [sum(row[block] for block in periods.unit) for row in periods.uses]
    names, parts = resources_of(recheck.treatments_of(recheck.economics_of())), parts_of(periods)
    for resource, (name, row) in enumerate(zip(names, periods.capacities)):
        for t, room in enumerate(row):
            ours = asked.room(resource, t) if asked.rates[resource] else totals[resource]
            ours -= ours % parts[resource]
            need(
                room == ours,
                f"schedule/periods.toml: period {t + 1} has {room} of {name}, and by study.toml {ours}",
            )


def parts_of(periods: Periods) -> list[int]:
    """Of each resource the greatest amount of which all that a unit uses, or a block that may be sent, is a multiple.
    Units are dug whole, so no schedule fills more of a capacity than a multiple of it."""
    rows = least_uses(periods, 1 + max(periods.unit.values()))
    if chooses(periods):
        rows[1:] = [[uses[block] for block in periods.unit] for uses in periods.uses[1:]]
    return [math.gcd(*row) or 1 for row in rows]


def resources_of(ways: list[recheck.Treatment]) -> list[str]:
    """What rates are of: digging, and the mill or each process."""
    return ["mining", *(way.name for way in ways)]


# --- What blocks use, worked out from the planner's table ---


def check_uses(mine: Mine, periods: Periods, rows: recheck.OfRows) -> None:
    """What the pit's blocks use is the nearest to what their rows of the planner's table say: a
    block takes the feed of the process by which it is worth most, and of no other, or where a schedule
    chooses of each by which it gains."""
    ways = recheck.treatments_of(recheck.economics_of())
    for block in periods.unit:
        row, best, gains = rows.worked[block], mine.ways[block], mine.gains[block]
        takes = [
            gains[way] > 0 if chooses(periods) else best == way + 1 for way in range(len(ways))
        ]
        fed = [row.ore * way.feed if row and does else 0.0 for way, does in zip(ways, takes)]
        rock = rows.tonnes[block]
        for name, kept, ours in zip(
            resources_of(ways), (uses[block] for uses in periods.uses), [rock, *fed]
        ):
            # half a thousandth of a tonne, which uses are counted in
            off = 0.5 + recheck.LEFT * ours * THOUSAND
            need(
                abs(kept - ours * THOUSAND) <= off,
                f"schedule/uses.blocks: block {block} uses {kept} of {name}, and by the table {ours * THOUSAND:.3f}",
            )


# --- Tables of results: periods and benches, added up again ---


class Sums(NamedTuple):
    """What the rock of each period, and of each period, bench and pushback from 1, comes to."""

    periods: dict[int, recheck.Sum]
    benches: dict[tuple[int, float, int], recheck.Sum]

    @classmethod
    def of(
        cls,
        mine: Mine,
        periods: Periods,
        when: dict[int, int],
        rows: recheck.OfRows,
        grid: Any,
    ) -> Sums:
        """The elevation of a bench is that of its blocks' centres. No table tells classes apart."""
        found, blocks = cls({}, {}), as_dug(mine, periods)
        of_rows = rows._replace(classes=None)
        for block, period in when.items():
            if mine.is_rock[block]:
                bench = grid["origin"][2] + mine.blocks.places[block][2] * grid["size"][2]
                place = period, bench, periods.pushback[block] + 1
                of_bench = found.benches.setdefault(place, recheck.Sum())
                for each in (of_bench, found.periods.setdefault(period, recheck.Sum())):
                    each.add(blocks, block, of_rows)
        return found


def as_dug(mine: Mine, periods: Periods) -> recheck.Blocks:
    """The blocks, each of which brings nothing by other ways than the one that it goes."""
    found = copy.copy(mine.blocks)
    found.amounts = [
        amounts._replace(
            ways=tuple(
                each if number == periods.goes(mine, block) else (0, 0)
                for number, each in enumerate(amounts.ways, 1)
            )
        )
        for block, amounts in enumerate(mine.blocks.amounts)
    ]
    return found


def is_line(line: recheck.Line, total: recheck.Sum, of: recheck.Kinds, fixed: int = 0) -> bool:
    """Whether a line of a table has these blocks, its cash flow less a fixed cost."""
    feed, waste = sum(total.fed(of.ways)), total.rock - total.ore
    return (
        total.is_line(line, False, of)
        and total.is_worth(line.number("cash_flow"), fixed)
        and total.is_so(line, "feed_t", feed, feed)
        and (
            line.word("strip") == ""
            if not total.ore
            else recheck.is_close(
                line.number("strip"), waste / total.ore, total.off("strip", waste, total.ore)
            )
        )
    )


AMOUNTS = ("period", "year", "feed_t", "strip", "cash_flow")  # columns of both tables


def columns_of(kinds: recheck.Kinds, periods: Periods) -> set[str]:
    """The columns of tables/schedule.csv."""
    names = resources_of(kinds.ways)
    own = ["weight", "discounted", "npv", "binds", "bottom"]
    own += [used_cell(names, resource) for resource in range(len(names))]
    own += ["fixed_cost"] if periods.fixed_cost else []
    if periods.sink is not None:
        own += ["sink_columns", "sink_x", "sink_y", "sink_bench"]
    return kinds.known(*AMOUNTS, *own)


def used_cell(names: list[str], resource: int) -> str:
    """The column that has the share of a rate that is used."""
    is_process = resource and len(names) > 2
    return f"process_{names[resource]}_used" if is_process else f"{names[resource]}_used"


def check_tables(
    mine: Mine,
    periods: Periods,
    asked: Asked,
    when: dict[int, int],
    rows: recheck.OfRows,
) -> None:
    """tables/schedule.csv and tables/schedule_benches.csv say what the schedule does."""
    kinds = recheck.Kinds.of(rows)._replace(classes=[])
    sums = Sums.of(mine, periods, when, rows, recheck.facts_of()["grid"])
    check_years(mine, periods, asked, when, (kinds, sums))
    check_benches(periods, asked, kinds, sums)


def check_years(
    mine: Mine,
    periods: Periods,
    asked: Asked,
    when: dict[int, int],
    of: tuple[recheck.Kinds, Sums],
) -> None:
    """tables/schedule.csv: a line for each period."""
    (kinds, sums), grid = of, recheck.facts_of()["grid"]
    lagged = sinking(mine, periods)
    kept = kept_by_sink(mine, periods, lagged, when)
    full = full_rates(mine, periods, lagged, when, asked)
    lines = recheck.read_table("schedule.csv", columns_of(kinds, periods))
    need(len(lines) == max(when.values()) + 1, "tables/schedule.csv hasn't a line for each period")
    npv, off = 0.0, 0.0
    for t, line in enumerate(lines):
        what = f"tables/schedule.csv, line {line.at}, isn't what period {t + 1} comes to"
        found = sums.periods.get(t, recheck.Sum())
        need((line.whole("period"), line.whole("year")) == (t + 1, t // asked.per_year + 1), what)
        fixed = periods.fixed_cost if found.rock else 0
        need(is_line(line, found, kinds, fixed), what)
        if periods.fixed_cost:
            need(line.exact("fixed_cost") == fixed, f"{what}: fixed_cost")
        weight = periods.weights[t] / MILLION
        need(line.exact("weight") == Decimal(periods.weights[t]) / MILLION, f"{what}: weight")
        paid = (found.worth / recheck.NANO - fixed) * weight
        # as far as the cash flow may be off, and the sum of all so far
        one = recheck.FLOAT * (found.size / recheck.NANO + fixed) * 2 * (found.depth + 8)
        npv, off = npv + paid, off + one + recheck.FLOAT * 2 * len(lines) * abs(paid)
        need(recheck.is_close(line.number("discounted"), paid, one), f"{what}: discounted")
        need(recheck.is_close(line.number("npv"), npv, off), f"{what}: npv")
        is_sunk = periods.sink is not None and check_sink(line, what, kept.get(t, []), grid)
        names, tonnes = resources_of(kinds.ways), [found.rock, *found.fed(kinds.ways)]
        used = [(used_cell(names, r), tonnes[r], (r, t) in full) for r in range(len(names))]
        need(
            line.word("binds")
            == "; ".join(
                binding(line, what, asked, (t, found.left), used, names) + ["sink"] * is_sunk
            ),
            f"{what}: binds",
        )
        dug = [bench for period, bench, _ in sums.benches if period == t]
        toe = min(dug) - grid["size"][2] / 2 if dug else None
        need(is_bottom(line.word("bottom"), toe), f"{what}: bottom")


def check_benches(periods: Periods, asked: Asked, kinds: recheck.Kinds, sums: Sums) -> None:
    """tables/schedule_benches.csv: a line for each period, bench and pushback."""
    has_pushbacks = bool(asked.terms.get("pushbacks"))
    known = kinds.known(*AMOUNTS, "bench", *(["pushback"] if has_pushbacks else []))
    rounded = {(t, round(bench, 3), n): (t, bench, n) for t, bench, n in sums.benches}
    lines = dict[tuple[int, float, int], recheck.Line]()
    for line in recheck.read_table("schedule_benches.csv", known):
        pushback = line.whole("pushback") if has_pushbacks else 1
        key = line.whole("period") - 1, round(line.number("bench"), 3), pushback
        need(key not in lines, f"{line.file}, line {line.at}, is a second one of its bench")
        lines[key] = line
    need(set(lines) == set(rounded), "tables/schedule_benches.csv has other benches")
    for key, line in lines.items():
        place = rounded[key]
        what = f"tables/schedule_benches.csv, line {line.at}, isn't what its blocks come to"
        need(line.whole("year") == place[0] // asked.per_year + 1, what)
        need(is_elevation(line.number("bench"), place[1]), f"{what}: bench")
        need(is_line(line, sums.benches[place], kinds), what)


def is_elevation(number: float, ours: float) -> bool:
    """Whether a cell is an elevation, as nearly as arithmetic comes to it."""
    return recheck.is_close(number, ours, recheck.LEFT * recheck.far_from(ours))


def is_bottom(word: str, toe: float | None) -> bool:
    """Whether a cell says how deep a period comes; of one in which no rock is dug it is empty."""
    if toe is None or not word:
        return toe is None and not word
    return recheck.NUMBER.fullmatch(word) is not None and is_elevation(float(word), toe)


def check_sink(line: recheck.Line, what: str, kept: list[tuple[int, ...]], grid: Any) -> bool:
    """Whether the sink rate keeps blocks out of a period, as a line says: in so many columns, and the
    lowest of the blocks."""
    columns = len({place[:2] for place in kept})
    need(line.whole("sink_columns") == columns, f"{what}: sink_columns")
    cells = ("sink_x", "sink_y", "sink_bench")
    if not kept:
        need(not any(map(line.word, cells)), f"{what}: sink_bench")
        return False
    low = min(z for _, _, z in kept)
    at = [line.number(cell) for cell in cells]
    need(
        any(is_place(at, world(place, grid)) for place in kept if place[2] == low),
        f"{what}: sink_bench",
    )
    return True


def is_place(at: list[float], ours: tuple[float, float, float]) -> bool:
    """Whether three cells are a place, as nearly as arithmetic comes to it: sums of coordinates none
    of which is larger than the largest of the place and of the grid's origin."""
    far = sum(map(abs, (*ours, *recheck.facts_of()["grid"]["origin"])))
    return all(recheck.is_close(cell, one, recheck.LEFT * far) for cell, one in zip(at, ours))


def world(place: tuple[int, ...], grid: Any) -> tuple[float, float, float]:
    """East, north and elevation of a block's centre."""
    turn = math.radians(grid["rotation"])
    u, v, w = (at * size for at, size in zip(place, grid["size"]))
    east, north, up = grid["origin"]
    return (
        east + u * math.cos(turn) + v * math.sin(turn),
        north - u * math.sin(turn) + v * math.cos(turn),
        up + w,
    )


def binding(
    line: recheck.Line,
    what: str,
    asked: Asked,
    of: tuple[int, float],
    used: list[tuple[str, float, bool]],
    names: list[str],
) -> list[str]:
    """The rates that bind in a period: those of which FULL is used, or that are full as far as whole
    units fill them. The shares that a line says it uses are these.

    Parameters
    ----------
    of : int and float
        The period, and which share of its tonnes arithmetic may leave.
    used : list of tuples
        Of each rate the column, the tonnes, and whether it is full.
    """
    (period, left), binds = of, list[str]()
    for resource, (cell, tonnes, is_full) in enumerate(used):
        room = asked.room(resource, period) if asked.rates[resource] else 0
        if not room:
            need(line.word(cell) == "", f"{what}: {cell}")
            binds += [names[resource]] if is_full else []  # as before a mill starts
            continue
        share = tonnes * THOUSAND / room
        need(recheck.is_close(line.number(cell), share, left * share), f"{what}: {cell}")
        binds += [names[resource]] if is_full or line.number(cell) >= FULL else []
    return binds


# --- What the planner was shown: the schedule's worth, and its bound ---


def check_told(periods: Periods, npv: Decimal, bound: Decimal) -> None:
    """What the planner was shown is what is found here; a bound was rounded up to millionths. So a
    certificate that proves less than the planner's is told, although it is a flow."""
    with localcontext() as exact:
        exact.prec = 100
        rounded = bound.quantize(Decimal(1) / MILLION, "ROUND_CEILING")
    for what, told, ours in zip(("npv", "bound"), periods.told, (npv, rounded)):
        need(
            Decimal(told) == ours,
            f"schedule/terms.json: {what}, which the planner was shown, is {told}, and here it"
            f" comes to {ours:f}",
        )


# --- All checks, in their order ---


def main() -> int:
    """Says what holds."""
    try:
        mine = read_mine()
        periods = read_periods(mine)
        when = read_schedule(mine, len(periods.weights))
        check_pit(periods)
        asked = Asked.read()
        # What others follow from comes first, so that a cause is told.
        check_terms(mine, periods, asked)
        rows = recheck.check_table(Quiet(), mine.blocks, recheck.facts_of())
        need(rows is not None, "the rows of the table aren't the blocks")
        assert rows is not None
        check_uses(mine, periods, rows)
        check_rooms(periods, asked)
        lagged = sinking(mine, periods)
        check_texts(periods, lagged)
        npv = check_schedule(mine, periods, lagged, when)
        bound = check_bound(mine, periods, lagged)
        need(npv <= bound, f"the schedule is worth {npv:,f}, and its bound is {bound:,f}")
        check_tables(mine, periods, asked, when, rows)
        check_told(periods, npv, bound)
    except (Wrong, recheck.Bad) as error:
        print(f"WRONG {error}")
        return 1
    except OSError as error:
        print(f"WRONG {recheck.reason(error)}")
        return 1
    except UNFIT as error:
        print(f"WRONG the files of the bundle don't fit together: {recheck.reason(error)}")
        return 1
    print(f"ok    the schedule keeps slopes, sink rate and capacities, and is worth {npv:,f}")
    print(
        f"ok    no schedule of the pit's blocks by these terms, {of_ways(periods)}, is worth more than {bound:,f}"
    )
    print(
        "ok    what periods weigh and have is what study.toml says, and what the pit's blocks use"
    )
    print("      and bring what it and the planner's table say")
    print("ok    worth and bound are those that the planner was shown")
    print(
        "ok    tables/schedule.csv and tables/schedule_benches.csv are what the schedule comes to"
    )
    return 0


if __name__ == "__main__":
    sys.exit(main())
