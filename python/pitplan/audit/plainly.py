#!/usr/bin/env python3
"""Checks a certificate of a pit without `pit`: slowly, by Python's standard library alone (3.9 or
later).

    python3 plainly.py (--prec FILE --upit FILE | [--prec FILE] --blocks FILE --settings FILE) CERTIFICATE ..
    python3 plainly.py --upit FILE --blocks FILE --settings FILE CERTIFICATE ..
    python3 plainly.py .. --uses FILE --periods FILE [--pit CERTIFICATE] CERTIFICATE ..

The answer to each is a line as `pit check` prints it: ACCEPTED count worth (status 0), REFUSED why
(1), or fault: certificate why (3); the status of several is the greatest. The model is read once. A
certificate whose name ends in .gz is unpacked as it is read.

What ACCEPTED says, over the model that these files denote: the pit holds each predecessor of each
of its blocks, and no such set of blocks is worth more. The proof is the flow of the certificate.
Ore gives no more than it is worth, waste takes no more than it costs, and each block passes on what
it gets. So the ore of any pit pays its own waste at least out of this flow, and no pit is worth
more than all ore less the flow; this pit is worth that.

With --periods a certificate is one of the mine of blocks and periods, and the answer is the line of
`pit bound`: BOUND amount, and no feasible schedule is worth more. With --pit that mine has the blocks
of a best pit alone, whose certificate is checked first. The text of periods has a key and its value in
each line, as pitplan writes it.

This file was written from docs/FORMATS.md of pit, and has no line in common with it.
"""
from __future__ import annotations

import sys

if __name__ == "__main__" and not (sys.flags.isolated or getattr(sys.flags, "safe_path", False)):
    del sys.path[0]  # no file beside this one is run for one of Python's library

import argparse
import gzip
import json
import re
from array import array
from collections.abc import Iterator, Sequence
from fractions import Fraction
from typing import IO, Any, cast

LINE, WHOLE_128 = 65536, 1 << 127
MOST_BLOCKS, MOST_PAIRS, MOST_OFFSETS, MOST_REGIONS = 1 << 24, 1 << 27, 4096, 64
MOST_WAYS = 8  # to treat a block
MICRO, NANO, FEMTO = 10**6, 10**9, 10**15
SPLIT = re.compile(rb"[ \t:\r]+")
WHOLE = re.compile(rb"[0-9]{1,39}")
SIGNED = re.compile(rb"[+-]?[0-9]{1,39}")
DECIMAL = re.compile(rb"([+-]?)(?=\.?[0-9])([0-9]*)(?:\.([0-9]*))?(?:[eE]([+-]?[0-9]+))?")
SPELLED = re.compile(rb"0|-?[1-9][0-9]*")
SETTING = re.compile(r"\s*(\w+)\s*=\s*(\d+)\s*(?:#.*)?")
WAYS, WAY = re.compile(r"^[ \t]*ways[ \t]*=\s*\[([^\]]*)\]", re.M), re.compile(r"\{([^{}]*)\}")
SLOPES, UP = re.compile(r"^[ \t]*slopes[ \t]*=", re.M), re.compile(r'\s*up\s*=\s*"(\w+)"\s*')
KINDS = (b"PIT", b"SOURCE", b"REST", b"SINK", b"END")


class Wrong(Exception):
    """A file of the model can't be read: nothing is said of the certificate."""


class Slope(Wrong):
    """The settings' slopes give nothing for these blocks: the line, in the words of FORMATS."""


class Refused(Exception):
    """The certificate proves nothing, and why."""


class Fault(Exception):
    """The certificate isn't spelled as a certificate, and where."""


UNREADABLE = (Wrong, OSError, EOFError, UnicodeDecodeError)


def open_file(name: str) -> IO[bytes]:
    return cast(IO[bytes], gzip.open(name, "rb")) if name.endswith(".gz") else open(name, "rb")


def records(name: str) -> Iterator[tuple[int, list[bytes]]]:
    """The lines of a file of the model that have a record: the number of the line, and its
    fields."""
    with open_file(name) as file:
        number = 0
        while True:
            line = file.readline(LINE + 2)
            if not line:
                return
            number += 1
            if len(line.rstrip(b"\n")) > LINE:
                raise Wrong("%s, line %d is too long" % (name, number))
            fields = [field for field in SPLIT.split(line.rstrip(b"\n")) if field]
            if fields and not fields[0].startswith(b"%"):
                yield number, fields


def whole(field: bytes, below: int, where: str) -> int:
    """A field as a whole number below a bound."""
    if not WHOLE.fullmatch(field) or int(field) >= below:
        raise Wrong(
            "%s: %r is no whole number below %d" % (where, field.decode(errors="replace"), below)
        )
    return int(field)


def millionths(field: bytes, where: str) -> int:
    """A decimal in millionths, rounded to the nearest, ties away from zero."""
    found = DECIMAL.fullmatch(field)
    if not found:
        raise Wrong("%s: %r is no decimal" % (where, field.decode(errors="replace")))
    sign, left, right, power = found.groups()
    right, power = right or b"", int(power or 0)
    if len(left) + len(right) > 36 or abs(power) > 40:
        raise Wrong("%s: %r has too many digits" % (where, field.decode()))
    exact = Fraction(int(left + right), 10 ** len(right)) * Fraction(10) ** power * MICRO
    nearest = (2 * exact.numerator + exact.denominator) // (2 * exact.denominator)
    if nearest > 10**12 * MICRO:
        raise Wrong("%s: %r is above 10^12" % (where, field.decode()))
    return -nearest if sign == b"-" else nearest


class Settings:
    """The columns of a priced model, of lines KEY = NUMBER, and its slopes where it has some: the
    offsets of each region, the column of regions, and which way is up. Other keys of pit's settings
    aren't looked at, and columns of prices neither where values have a file of their own."""

    def __init__(self, name: str, has_prices: bool = True) -> None:
        self.name, found = name, dict[str, int]()
        with open(name, encoding="utf-8") as file:
            text = "".join(line.split("#")[0].rstrip() + "\n" for line in file)
        self.is_up = True
        for line in text.split("\n"):
            setting, up = SETTING.fullmatch(line), UP.fullmatch(line)
            if setting:
                found[setting[1]] = int(setting[2])
            if up:
                self.is_up = up[1] == "plus"
        at = SLOPES.search(text)
        self.slopes = None if at is None else self.listed(text[at.end() :])
        self.region = found.get("region")
        self.columns = self.prices(found, WAYS.search(text)) if has_prices else []

    def prices(self, counts: dict[str, int], ways: re.Match[str] | None) -> list[int]:
        """The columns of prices: revenue and processing of each way to treat a block, and after
        them mining; or revenue and cost."""
        if ways is not None:
            if {"revenue", "processing", "cost"} & set(counts) or "mining" not in counts:
                raise Wrong("%s names ways beside other columns, or no mining" % self.name)
            return [*self.listed_ways(ways[1]), counts["mining"]]
        if "revenue" in counts and "cost" in counts and not {"processing", "mining"} & set(counts):
            return [counts["revenue"], counts["cost"]]
        if {"revenue", "processing", "mining"} <= set(counts) and "cost" not in counts:
            return [counts["revenue"], counts["processing"], counts["mining"]]
        raise Wrong(
            "%s names neither revenue and cost nor revenue, processing and mining" % self.name
        )

    def listed_ways(self, text: str) -> list[int]:
        """The columns of each way, of tables as { revenue = 0, processing = 1 }."""
        columns: list[int] = []
        tables = [
            [SETTING.fullmatch(part) for part in table.split(",")] for table in WAY.findall(text)
        ]
        for table in tables:
            named = {part[1]: int(part[2]) for part in table if part}
            if len(table) != 2 or set(named) != {"revenue", "processing"}:
                raise Wrong("%s: a way has other keys than revenue and processing" % self.name)
            columns += [named["revenue"], named["processing"]]
        if not 1 <= len(tables) <= MOST_WAYS or re.sub(r"[\s,]", "", WAY.sub("", text)):
            raise Wrong("%s: ways are no list of 1 to %d tables" % (self.name, MOST_WAYS))
        return columns

    def listed(self, text: str) -> list[list[tuple[int, ...]]]:
        """The list of lists that a text begins with, each offset of three whole numbers."""
        depth = end = 0
        for end, letter in enumerate(text, 1):
            depth += (letter == "[") - (letter == "]")
            if letter == "]" and depth == 0:
                break
        try:  # JSON has no comma after the last of a list, and no _ in a number
            found = json.loads(re.sub(r",(?=\s*\])", "", text[:end].replace("_", "")))
            lists = [[tuple(map(int, offset)) for offset in each] for each in found]
        except (ValueError, TypeError):
            raise Wrong("%s: slopes are no list of lists of offsets" % self.name) from None
        if any(len(offset) != 3 for each in lists for offset in each):
            raise Wrong("%s: an offset has other than three numbers" % self.name)
        return lists

    def offsets(self) -> list[set[tuple[int, ...]]]:
        """The differences of place between a block and its predecessors, for each region."""
        lists = self.slopes or []
        for number, each in enumerate(lists):
            if any(offset[2] < 1 for offset in each):
                first = next(i for i, offset in enumerate(each) if offset[2] < 1)
                raise Slope("fault: slope NotUpward(%d, %d)" % (number, first))
        for number, each in enumerate(lists):
            if len(each) > MOST_OFFSETS:
                raise Slope("fault: slope TooManyOffsets(%d)" % number)
        if len(lists) > MOST_REGIONS:
            raise Slope("fault: slope TooManyRegions")
        return [{(i, j, k if self.is_up else -k) for i, j, k in each} for each in lists]


class Blocks:
    """For each column of prices what each block has there, in millionths, and where blocks are."""

    def __init__(self, name: str, columns: list[int], region: int | None = None) -> None:
        self.name = name
        kept: dict[int, list[int]] = {}
        places: dict[int, tuple[int, ...]] = {}
        wanted = columns if region is None else [*columns, region]
        for number, fields in records(name):
            where = "%s, line %d" % (name, number)
            if len(kept) >= MOST_BLOCKS:
                raise Wrong(where + ": too many blocks")
            if len(fields) <= 4 + max(wanted, default=-1):
                raise Wrong(where + ": a column is missing")
            block = whole(fields[0], 1 << 64, where)
            if block in kept:
                raise Wrong(where + ": a second record for the block")
            for field in fields[1:4]:
                if not SIGNED.fullmatch(field) or not -(1 << 31) <= int(field) < 1 << 31:
                    raise Wrong(where + ": a coordinate is no whole number of 32 bits")
            places[block] = tuple(map(int, fields[1:4]))
            kept[block] = [millionths(fields[4 + column], where) for column in wanted]
            if any(revenue < 0 for revenue in kept[block][: len(columns) // 2 * 2 : 2]):
                raise Wrong(where + ": a revenue below 0")
        if any(block >= len(kept) for block in kept):
            raise Wrong("%s: the blocks aren't numbered from 0 to %d" % (name, len(kept) - 1))
        self.table = [[kept[block][i] for block in range(len(kept))] for i in range(len(columns))]
        self.places = [places[block] for block in range(len(kept))]
        self.regions = [
            0 if region is None else kept[block][len(columns)] for block in range(len(kept))
        ]


def read_values(name: str) -> list[int]:
    """What each block of a .upit file is worth, in millionths."""
    values: list[int] = []
    count: int | None = None
    is_header, seen = True, set[int]()
    for number, fields in records(name):
        where = "%s, line %d" % (name, number)
        if is_header:
            if fields[0] == b"TYPE" and fields[1:2] != [b"UPIT"]:
                raise Wrong(where + ": the type isn't UPIT")
            if fields[0] == b"NBLOCKS":
                found = whole(fields[1] if len(fields) > 1 else b"", MOST_BLOCKS + 1, where)
                if count not in (None, found):
                    raise Wrong(where + ": another number of blocks")
                count = found
            if fields[0] == b"OBJECTIVE_FUNCTION":
                if count is None:
                    raise Wrong(where + ": no number of blocks before it")
                is_header, values = False, [0] * count
            continue
        if fields == [b"EOF"]:
            break
        if len(fields) != 2:
            raise Wrong(where + ": a value has two fields")
        block = whole(fields[0], len(values), where)
        if block in seen:
            raise Wrong(where + ": a second record for the block")
        seen.add(block)
        values[block] = millionths(fields[1], where)
    if is_header:
        raise Wrong("%s has no OBJECTIVE_FUNCTION" % name)
    return values


class Rests:
    """What rests on what."""

    def of(self, block: int) -> Sequence[int]:
        """The predecessors of the block."""
        raise NotImplementedError

    def has(self, block: int, other: int) -> bool:
        raise NotImplementedError


class Predecessors(Rests):
    """The predecessors of each block, in one array."""

    def __init__(self, name: str, count: int) -> None:
        self.listed, self.first, self.after = (
            array("I"),
            array("Q", bytes(8 * count)),
            array("Q", bytes(8 * count)),
        )
        seen = bytearray(count)
        for number, fields in records(name):
            where = "%s, line %d" % (name, number)
            block = whole(fields[0], count, where)
            if len(fields) < 2 or whole(fields[1], 1 << 64, where) != len(fields) - 2:
                raise Wrong(where + ": a wrong number of predecessors")
            if seen[block]:
                raise Wrong(where + ": a second record for the block")
            seen[block] = 1
            if len(self.listed) + len(fields) - 2 > MOST_PAIRS:
                raise Wrong(where + ": too many predecessors")
            self.first[block] = len(self.listed)
            self.listed.extend(
                sorted({whole(field, count, where) for field in fields[2:]} - {block})
            )
            self.after[block] = len(self.listed)

    def of(self, block: int) -> Sequence[int]:
        """The predecessors of the block, by its row."""
        return self.listed[self.first[block] : self.after[block]]

    def has(self, block: int, other: int) -> bool:
        """Whether the other one is a predecessor of the block."""
        return other in self.of(block)


class Above(Rests):
    """The predecessors of each block, where no file lists them: the blocks whose places less its
    own are offsets of its own region."""

    def __init__(self, blocks: Blocks, settings: Settings) -> None:
        self.places, self.at = blocks.places, dict[tuple[int, ...], int]()
        for block, place in enumerate(self.places):
            if self.at.setdefault(place, block) != block:
                raise Slope("fault: slope SamePlace(%d, %d)" % (self.at[place], block))
        lists = settings.slopes or []
        for block, region in enumerate(blocks.regions):
            if region < 0 or region % MICRO or region // MICRO >= len(lists):
                raise Slope("fault: slope UnknownRegion(%d)" % block)
        offsets = settings.offsets()
        self.offsets = [offsets[region // MICRO] for region in blocks.regions]

    def of(self, block: int) -> Sequence[int]:
        """The blocks at the offsets of its region."""
        x, y, z = self.places[block]
        found = (self.at.get((x + i, y + j, z + k)) for i, j, k in self.offsets[block])
        return sorted(other for other in found if other is not None)

    def has(self, block: int, other: int) -> bool:
        """Whether the other one is a predecessor of the block."""
        way = tuple(b - a for a, b in zip(self.places[block], self.places[other]))
        return way in self.offsets[block]


def ways_of(
    price: list[bytes], table: list[list[int]], values: list[int] | None
) -> list[list[int]]:
    """What each block is worth by each way that it may go, in billionths, by the price line of a
    certificate: exact whole numbers. Where there are several the last one is to waste."""
    if values is not None:
        if price != [b"OBJECTIVE"]:
            raise Fault("WrongPrice")
        return [[1000 * value for value in values]]
    if len(table) >= 3:
        if len(price) != 2:
            raise Fault("WrongPrice")
        k, (*ways, mining) = int(price[1]), table
        treated = [
            [
                k * revenue - 1000 * (treating + digging)
                for revenue, treating, digging in zip(revenues, costs, mining)
            ]
            for revenues, costs in zip(ways[::2], ways[1::2])
        ]
        return [*treated, [-1000 * digging for digging in mining]]
    if len(price) != 1 or price == [b"OBJECTIVE"]:
        raise Fault("WrongPrice")
    k = int(price[0])
    return [[k * revenue - 1000 * cost for revenue, cost in zip(*table)]]


def worths_of(price: list[bytes], table: list[list[int]], values: list[int] | None) -> list[int]:
    """What each block is worth by the best of them."""
    return [max(each) for each in zip(*ways_of(price, table, values))]


def fits(*numbers: int) -> bool:
    return all(-WHOLE_128 <= number < WHOLE_128 for number in numbers)


class Certificate:
    """The lines of a certificate, one after the other, with the faults that FORMATS names."""

    def __init__(self, name: str) -> None:
        self.file, self.number = open_file(name), 0

    def line(self) -> list[bytes]:
        """The words of the next line."""
        line = self.file.readline(LINE + 2)
        self.number += 1
        if len(line.rstrip(b"\n")) > LINE:
            raise self.text()
        if not line.endswith(b"\n"):
            raise Fault("Truncated")
        return line[:-1].split(b" ")

    def text(self) -> Fault:
        return Fault("Text(%d)" % self.number)

    def whole(self, word: bytes, most: int | None = None) -> int:
        """A number as certificates spell it, and of a block that there is one."""
        if (
            not SPELLED.fullmatch(word)
            or not fits(int(word))
            or (most is not None and not 0 <= int(word) <= most)
        ):
            raise Fault("Number(%d)" % self.number)
        return int(word)

    def header(self) -> tuple[int, list[bytes], str]:
        """The number of blocks, the words of the price, and the group."""
        first = self.line()
        if first not in ([b"PITCERT", b"1"], [b"PITCERT", b"2"]):
            raise self.text()
        blocks = self.line()
        if len(blocks) != 2 or blocks[0] != b"BLOCKS":
            raise self.text()
        count = self.whole(blocks[1])
        price = self.line()
        is_mill = len(price) == 3 and price[1] == b"MILL"
        if (
            price[0] != b"PRICE"
            or len(price) != (3 if is_mill else 2)
            or is_mill != (first[1] == b"2")
        ):
            raise self.text()
        if price[1] != b"OBJECTIVE":
            self.whole(price[-1], 10_000)
        group = self.line()
        if (
            len(group) != 2
            or group[0] != b"GROUP"
            or group[1] not in (b"WORTH", b"PAIR", b"SCALED")
        ):
            raise self.text()
        return count, price[1:], group[1].decode()


class Check:
    """A check of one certificate over one model."""

    def __init__(
        self, certificate: Certificate, rests: Rests, worths: list[int], group: str
    ) -> None:
        self.certificate, self.rests, self.group = certificate, rests, group
        self.price: list[bytes] = []
        self.worths = worths
        n = len(worths)
        if group == "PAIR":
            self.amounts = [(worth, -1) for worth in worths]
        elif group == "SCALED":
            self.amounts = [(worth * (n + 1) - 1, 0) for worth in worths]
        else:
            self.amounts = [(worth, 0) for worth in worths]
        ore = [sum(part) for part in zip(*[a for a in self.amounts if a > (0, 0)])] or [0, 0]
        if not all(fits(*a) for a in self.amounts) or not fits(*ore):
            raise Wrong("the amounts are too large")
        self.ore = ore  # what is left of it: less what the source has given so far
        self.pit: list[int] = []
        self.is_in, self.dug = bytearray(n), [0, 0]
        self.balance = [[0, 0] for _ in range(n)]

    def run(self) -> None:
        """Reads all lines: returns where the certificate holds, else raises Fault or Refused."""
        before: tuple[int, ...] = (-1,)
        is_closed = False
        while True:
            words = self.certificate.line()
            place, blocks, amount = self.parsed(words)
            if place <= before:
                raise Fault("OutOfOrder(%d)" % self.certificate.number)
            before = place
            if words[0] == b"REST" and not self.rests.has(*blocks):
                raise Fault("UnknownPair(%d)" % self.certificate.number)
            if words[0] != b"PIT" and not is_closed:
                self.closed()
                is_closed = True
            if words[0] == b"END":
                return self.ended()
            self.take(words[0], blocks, amount)

    def parsed(self, words: list[bytes]) -> tuple[tuple[int, ...], list[int], tuple[int, ...]]:
        """A line's place in the order, its blocks and its amount."""
        if words[0] not in KINDS or len(words) != {b"PIT": 2, b"REST": 5, b"END": 1}.get(
            words[0], 4
        ):
            raise self.certificate.text()
        many = {b"PIT": 1, b"REST": 2, b"END": 0}.get(words[0], 1)
        blocks = [
            self.certificate.whole(word, len(self.worths) - 1) for word in words[1 : 1 + many]
        ]
        amount = tuple(self.certificate.whole(word) for word in words[1 + many :])
        if amount and (amount == (0, 0) or (self.group != "PAIR" and amount[1])):
            raise Fault("Number(%d)" % self.certificate.number)
        return (KINDS.index(words[0]), *blocks), blocks, amount

    def closed(self) -> None:
        """Each predecessor of each block of the pit is in the pit."""
        for block in self.pit:
            for other in self.rests.of(block):
                if not self.is_in[other]:
                    raise Refused("NotClosed(%d, %d)" % (block, other))

    def take(self, kind: bytes, blocks: list[int], amount: tuple[int, ...]) -> None:
        """Adds up what a line says."""
        block = blocks[0]
        if kind == b"PIT":
            self.pit.append(block)
            self.is_in[block] = 1
            self.add(self.dug, self.amounts[block], 1)
            return
        if amount < (0, 0):
            raise Refused("Negative")
        worth = self.amounts[block]
        room = worth if kind == b"SOURCE" else (-worth[0], -worth[1])
        if kind != b"REST" and amount > max(room, (0, 0)):
            raise Refused("OverCapacity(%d)" % block)
        self.add(self.balance[block], amount, 1 if kind == b"SOURCE" else -1)
        if kind == b"REST":
            self.add(self.balance[blocks[1]], amount, 1)
        if kind == b"SOURCE":
            self.add(self.ore, amount, -1)

    @staticmethod
    def add(total: list[int], amount: tuple[int, ...], sign: int) -> None:
        """Adds to a total; one that doesn't fit 128 bits is refused."""
        for i in (0, 1):
            total[i] += sign * amount[i]
        if not fits(*total):
            raise Refused("TooLarge")

    def ended(self) -> None:
        """What is asked of the whole, once END is read."""
        if self.certificate.file.read(1):
            self.certificate.number += 1
            raise self.certificate.text()
        for block, left in enumerate(self.balance):
            if left != [0, 0]:
                raise Refused("Unbalanced(%d)" % block)
        if self.dug != self.ore:
            raise Refused("NotTight")


def spelled(parts: int, whole: int = NANO) -> str:
    """Billionths, or other parts of 1, as a decimal without zeros at its end."""
    number, rest = divmod(abs(parts), whole)
    text = "%d.%0*d" % (number, len(str(whole)) - 1, rest)
    return ("-" if parts < 0 else "") + text.rstrip("0").rstrip(".")


class Model:
    """The files of a model, read: what its blocks are worth, by values or by a table of prices, and
    their predecessors, by a list or by the slopes of its settings."""

    def __init__(self, options: argparse.Namespace) -> None:
        self.values: list[int] | None = None
        self.table: list[list[int]] = []
        if not options.settings:
            self.values = read_values(options.upit)
            self.rests: Rests = Predecessors(options.prec, len(self.values))
            self.count = len(self.values)
            return
        settings = Settings(options.settings, not options.upit)
        if options.prec is None and settings.slopes is None:
            raise Slope("fault: settings Missing(slopes)")
        if options.prec is not None and settings.slopes is not None:
            raise Slope("fault: settings Unused(slopes)")
        blocks = Blocks(options.blocks, settings.columns, settings.region)
        self.table, self.count = blocks.table, len(blocks.places)
        if options.upit:
            self.values = read_values(options.upit)
            if len(self.values) != self.count:
                raise Wrong("%s has another number of blocks" % options.upit)
        self.rests = (
            Above(blocks, settings)
            if options.prec is None
            else Predecessors(options.prec, self.count)
        )


class Periods:
    """What periods weigh and have, at which prices, what blocks use by each way, and for which others
    each waits."""

    def __init__(self, name: str, uses: str, count: int) -> None:
        self.name, found = name, dict[str, str]()
        with open(name, encoding="utf-8") as file:
            for line in file:
                key, _, value = line.split("#")[0].partition("=")
                if key.strip():
                    found[key.strip()] = value
        self.weights = self.listed(found, "weights")
        self.capacities = self.listed(found, "capacities")
        self.prices = self.listed(found, "multipliers")
        resources = self.listed(found, "resources")
        waits, self.lag = self.listed(found, "waits", "[]"), int(found.get("lag", "1"))
        columns = [each if isinstance(each, list) else [each] for each in resources]
        blocks = Blocks(uses, [*sum(columns, []), *waits])
        if len(blocks.places) != count:
            raise Wrong("%s has another number of blocks" % uses)
        if min((min(row) for row in blocks.table), default=0) < 0:
            raise Wrong("%s: a use is below 0" % uses)
        rows = iter(blocks.table)
        amounts = [[next(rows) for _ in each] for each in columns]
        self.uses = [
            (own, isinstance(each, list)) for own, each in zip(amounts, resources)
        ]  # of each resource a row, or one for each way
        self.waits: list[set[int]] = [set() for _ in range(count)]
        for row in rows:
            for block, other in enumerate(row):
                if other // MICRO >= count:
                    raise Wrong("%s: a block waits for one that isn't there" % uses)
                self.waits[block] |= {other // MICRO} - {block}
        shape = [len(self.weights)] * len(resources)
        if any([len(row) for row in each] != shape for each in (self.capacities, self.prices)):
            raise Wrong("%s: a row isn't of as many periods as weights" % name)
        falls = [b - a for a, b in zip([MICRO, *self.weights], [*self.weights, 0])]
        if max(falls) > 0 or min(sum(self.capacities + self.prices, [0])) < 0:
            raise Wrong("%s: weights rise, or a number is below 0" % name)

    def listed(self, found: dict[str, str], key: str, default: str | None = None) -> list[Any]:
        """The list of a key."""
        text = found.get(key, default)
        if text is None:
            raise Wrong("%s has no %s" % (self.name, key))
        try:
            return list(json.loads(text.replace("_", "")))
        except (ValueError, TypeError):
            raise Wrong("%s: %s is no list" % (self.name, key)) from None

    def left(self, block: int, ways: list[list[int]]) -> list[int]:
        """What a block leaves in each period, by the way that leaves most then, in 10^-15; and
        nothing after the last."""
        found = []
        for t, weight in enumerate(self.weights):
            each = [weight * row[block] for row in ways]
            for (rows, by_way), prices in zip(self.uses, self.prices):
                for d in range(len(ways)):
                    if not by_way:
                        each[d] -= rows[0][block] * prices[t]
                    elif d < len(rows):  # the last way is to waste
                        each[d] -= rows[d][block] * prices[t]
            found.append(max(each))
        return [*found, 0]

    def paid(self) -> int:
        """All capacities at their prices, in 10^-15."""
        both = zip(sum(self.capacities, []), sum(self.prices, []))
        total: int = sum(room * price for room, price in both)
        return total * MICRO


class Nodes(Rests):
    """The mine of blocks and periods, node t * n + b for block b of n by the end of period t; of the
    blocks of a pit where one is given."""

    def __init__(self, model: Model, periods: Periods, pit: list[int] | None) -> None:
        self.rests, self.periods = model.rests, periods
        self.blocks = list(range(model.count)) if pit is None else pit
        self.number = {block: at for at, block in enumerate(self.blocks)}
        self.n, self.count = len(self.blocks), len(self.blocks) * len(periods.weights)

    def worths(self, ways: list[list[int]]) -> list[int]:
        """What each node is worth."""
        found = [0] * self.count
        for at, block in enumerate(self.blocks):
            left = self.periods.left(block, ways)
            waits = any(other in self.number for other in self.periods.waits[block])
            for t in range(len(left) - 1):
                held = FEMTO * FEMTO if waits and t < self.periods.lag else 0
                found[t * self.n + at] = left[t] - left[t + 1] - held
        return found

    def of(self, node: int) -> Sequence[int]:
        """The predecessors of the node."""
        t, at = divmod(node, self.n)
        found, block, before = [], self.blocks[at], (t - self.periods.lag) * self.n
        there = (self.number.get(other) for other in self.rests.of(block))
        found += [t * self.n + other for other in there if other is not None]
        if before >= 0:
            late = (self.number.get(other) for other in self.periods.waits[block])
            found += [before + other for other in late if other is not None]
        return found + ([node + self.n] if node + self.n < self.count else [])

    def has(self, node: int, other: int) -> bool:
        """Whether the other one is a predecessor of the node."""
        (t, a), (s, b) = divmod(node, self.n), divmod(other, self.n)
        low, high = self.blocks[a], self.blocks[b]
        return (
            a == b
            and s == t + 1
            or s == t
            and a != b
            and self.rests.has(low, high)
            or s == t - self.periods.lag
            and high in self.periods.waits[low]
        )


def bound_of(model: Model, options: argparse.Namespace, name: str) -> tuple[str, int]:
    """The line that `pit bound` would print of a certificate, and its exit status."""
    certificate, pit = Certificate(name), None
    try:
        if options.pit:
            best = checked(model, Certificate(options.pit))
            pit = best.pit
        periods = Periods(options.periods, options.uses, model.count)
        nodes = Nodes(model, periods, pit)
        found, price, group = certificate.header()
        if found != nodes.count:
            raise Fault("Number(2)")
        if options.pit and price != best.price:
            raise Fault("WrongPrice")
        if group != "WORTH":
            raise Fault("Text(4)")
        check = Check(
            certificate, nodes, nodes.worths(ways_of(price, model.table, model.values)), group
        )
        check.run()
    except Fault as fault:
        return "fault: certificate %s" % fault, 3
    except Refused as why:
        return "REFUSED %s" % why, 1
    finally:
        certificate.file.close()
    worth = sum(check.worths[node] for node in check.pit)
    return "BOUND %s" % spelled(worth + periods.paid(), FEMTO), 0


def checked(model: Model, certificate: Certificate) -> Check:
    """A certificate of a pit once it holds; raises Fault or Refused where it doesn't."""
    found, price, group = certificate.header()
    if found != model.count:
        raise Fault("Number(2)")
    check = Check(certificate, model.rests, worths_of(price, model.table, model.values), group)
    check.price = price
    check.run()
    return check


def answer(model: Model, name: str) -> tuple[str, int]:
    """The line that `pit check` would print of a certificate, and its exit status."""
    certificate = Certificate(name)
    try:
        check = checked(model, certificate)
    except Fault as fault:
        return "fault: certificate %s" % fault, 3
    except Refused as why:
        return "REFUSED %s" % why, 1
    finally:
        certificate.file.close()
    worth = sum(check.worths[block] for block in check.pit)
    return (
        "ACCEPTED %d %s%s"
        % (len(check.pit), spelled(worth), " GROUP WORTH" if check.group == "WORTH" else ""),
        0,
    )


def attempted(model: Model, options: argparse.Namespace, name: str) -> tuple[str, int]:
    """The same, or that of `pit bound` where periods are given; or a line that says why it can't be
    read."""
    try:
        return bound_of(model, options, name) if options.periods else answer(model, name)
    except UNREADABLE as error:
        return "plainly: %s" % error, 3


def main() -> int:
    """Judges the certificates that the words name, and gives the exit status."""
    reading = argparse.ArgumentParser(description=__doc__.split("\n\n")[0])
    for name in ("prec", "upit", "blocks", "settings", "uses", "periods", "pit"):
        reading.add_argument("--" + name)
    reading.add_argument("certificates", nargs="+", metavar="certificate")
    options = reading.parse_args()
    if bool(options.blocks) != bool(options.settings) or not (options.upit or options.blocks):
        reading.error("either --upit, or --blocks and --settings, or all three")
    if options.upit and bool(options.prec) == bool(options.settings):
        reading.error("beside --upit, either --prec or settings say what rests on what")
    if bool(options.uses) != bool(options.periods) or options.pit and not options.periods:
        reading.error("--uses and --periods together, and --pit beside them")
    worst = 0
    try:
        model = Model(options)
        for name in options.certificates:
            line, status = attempted(model, options, name)
            print(line, flush=True)
            worst = max(worst, status)
    except UNREADABLE as error:
        print(error if isinstance(error, Slope) else "plainly: %s" % error)
        return 3
    return worst


if __name__ == "__main__":
    sys.exit(main())
