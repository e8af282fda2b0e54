"""Amounts of money as whole numbers, so that sums are exact: what this package adds up is `pit`'s
worth to the last digit."""
from __future__ import annotations

from dataclasses import dataclass, field, replace
from decimal import Decimal

import numpy as np

from .arrays import Bools, Floats, Ints, Texts
from .errors import PlanError, Remedy


THOUSAND = 1000  # a factor is in thousandths
MOST_WORTH = Decimal(10) ** 12  # the most that `pit` reads for a block
LARGEST_FACTOR = 10_000  # that `pit` takes, in thousandths
# blocks whose worths are added up at a time: what stays near the processor takes a third of the
# time
_BLOCKS_AT_A_TIME = 1 << 15
_HALF = 31  # bits of a number that are added up apart from those above them


def rounding_of(rounding: float | str | Decimal) -> Decimal:
    """What amounts are rounded to, exactly: 1 is whole units of currency, 0.01 hundredths, 1000
    thousands.

    Raises
    ------
    PlanError
        Where it isn't above 0, or has more than the six decimals that `pit` keeps.
    """
    try:
        found = Decimal(str(rounding))
    except ArithmeticError:
        raise PlanError(f"rounding = {rounding!r} is no number") from None
    if not found.is_finite() or not 0 < found <= MOST_WORTH or found != round(found, 6):
        raise PlanError(
            (
                f"rounding = {rounding} has to be above 0 and at most {MOST_WORTH:,}, with at most six"
                " decimals"
            ),
            try_this=Remedy(("economics", "rounding"), 1),
        )
    return found


@dataclass
class Way:
    """How blocks are treated by one process.

    Attributes
    ----------
    name : str
        "mill" of a study without processes.
    revenue, processing : int arrays of shape (blocks,)
        In whole multiples of the rounding: what a block brings at factor 1000 if it is treated so,
        and what that costs. Both are 0 where it can't be.
    metal : dict of float arrays
        The metal that is recovered of each block then, in the unit of its price.
    feed : float
        Tonnes that the process gets for each tonne of ore in place.
    """

    name: str
    revenue: Ints
    processing: Ints
    metal: dict[str, Floats] = field(default_factory=dict)
    feed: float = 1.0

    def first(self, count: int) -> Way:
        """That of the first blocks."""
        return replace(
            self,
            revenue=self.revenue[:count],
            processing=self.processing[:count],
            metal={name: amounts[:count] for name, amounts in self.metal.items()},
        )

    def gain(self, part: slice | Ints, factor: int) -> Ints:
        """What treating each block brings at a factor, in thousandths of the rounding."""
        found: Ints = self.revenue[part] * factor
        found -= self.processing[part] * THOUSAND
        return found


@dataclass
class Priced:
    """What each block brings and costs, in whole multiples of `rounding` units of currency.

    A block goes the first way, in their order, by which it is worth most at a factor, and to waste
    where no way is worth more than 0. What digging it costs is paid wherever it goes.

    Attributes
    ----------
    ways : tuple of Way
        At least one.
    mining : int array of shape (blocks,)
        What digging a block costs.
    rounding : Decimal
    grade : dict of float arrays
        The grade of each block in place, in its own unit.
    forbidden : bool array of shape (blocks,)
        Which blocks may not be dug: `mining` has a price for them that keeps them from every pit.
        Default: none.
    unfenced : int array of shape (forbidden blocks,), or empty
        What digging each of these would cost. Empty where a study was built before this was kept.
    part : float array of shape (blocks,), or None
        The part of each block's tonnes that is ore and may be treated. Default: all of it.
    """

    ways: tuple[Way, ...]
    mining: Ints
    rounding: Decimal = Decimal(1)
    grade: dict[str, Floats] = field(default_factory=dict)
    forbidden: Bools = field(default_factory=lambda: np.zeros(0, bool))
    unfenced: Ints = field(default_factory=lambda: np.zeros(0, np.int64))
    part: Floats | None = None

    def __post_init__(self) -> None:
        if not len(self.forbidden):
            self.forbidden = np.zeros(len(self), bool)

    def __len__(self) -> int:
        return len(self.mining)

    @property
    def process_names(self) -> list[str]:
        """Those of the processes, where there are several; else none: then tables don't tell them
        apart."""
        return [way.name for way in self.ways] if len(self.ways) > 1 else []

    @property
    def most_revenue(self) -> Ints:
        """What each block brings at most, by any way."""
        found = self.ways[0].revenue
        for way in self.ways[1:]:
            found = np.maximum(found, way.revenue)
        return found

    def first(self, count: int) -> Priced:
        """Those of the first blocks: of a table's, without the air that was added after them."""
        return replace(
            self,
            ways=tuple(way.first(count) for way in self.ways),
            mining=self.mining[:count],
            grade={name: grades[:count] for name, grades in self.grade.items()},
            forbidden=self.forbidden[:count],
            part=None if self.part is None else self.part[:count],
        )

    def thousandths(self, factor: int) -> Ints:
        """What each block is worth at a factor, in thousandths of `rounding`: whole numbers, exact.

        Parameters
        ----------
        factor : int
            Of the revenue, in thousandths.

        Raises
        ------
        PlanError
            Where a product doesn't fit 64 bits.
        """
        self.check_room(factor)
        return self.of_part(slice(None), factor)

    def check_room(self, factor: int) -> None:
        """Raises PlanError where a product at a factor doesn't fit 64 bits."""
        largest = max(
            max(_furthest(way.revenue) for way in self.ways) * max(factor, THOUSAND),
            max(_furthest(way.processing) for way in self.ways) * THOUSAND,
            _furthest(self.mining) * THOUSAND,
        )
        if largest >= 1 << 61:
            larger = self.rounding
            while largest * float(self.rounding / larger) >= 1 << 61:
                larger *= 10
            raise PlanError(
                (
                    f"an amount of {largest / THOUSAND * float(self.rounding):g} for one block is"
                    f" too large to count with in units of {self.rounding:f}"
                ),
                try_this=Remedy(
                    ("economics", "rounding"), int(larger) if larger >= 1 else float(larger)
                ),
            )

    def of_part(self, part: slice, factor: int) -> Ints:
        """`thousandths` of some of the blocks, where `check_room` has passed."""
        worth = self.ways[0].gain(part, factor)
        for way in self.ways[1:]:
            np.maximum(worth, way.gain(part, factor), out=worth)
        np.maximum(worth, 0, out=worth)
        worth -= self.mining[part] * THOUSAND
        return worth

    def way_of(self, factor: int) -> Ints:
        """Which way each block goes at a factor (in thousandths), once it is dug: the number, from
        1, of the first of those by which it is worth most; 0 where it is waste."""
        best = self.ways[0].gain(slice(None), factor)
        found: Ints = (best > 0).astype(np.int64)
        np.maximum(best, 0, out=best)
        for number, way in enumerate(self.ways[1:], 2):
            worth = way.gain(slice(None), factor)
            better = worth > best  # of as much the first counts
            found[better], best[better] = number, worth[better]
        return found

    def by_way(self, factor: int) -> list[tuple[Way, Bools]]:
        """Each way with the blocks that go there at a factor, once they are dug."""
        goes = self.way_of(factor)
        return [(way, goes == number) for number, way in enumerate(self.ways, 1)]

    def goes(self, factor: int) -> dict[str, Bools]:
        """The blocks that go to each process at a factor, by its name, and those that are waste."""
        way = self.way_of(factor)
        found = {each.name: way == number for number, each in enumerate(self.ways, 1)}
        return found | {"waste": way == 0}

    def destinations(self, factor: int) -> Texts:
        """Where each block goes at a factor, in words: the name of its process, or "waste"."""
        names = np.array(["waste", *(way.name for way in self.ways)], object)
        found: Texts = names[self.way_of(factor)]
        return found

    def worth(self, factor: int) -> Floats:
        """What each block is worth at a factor (in thousandths), in units of currency, of shape
        (blocks,): for pictures and tables."""
        worth: Floats = self.thousandths(factor) * (float(self.rounding) / THOUSAND)
        return worth

    def worth_unfenced(self, factor: int) -> Floats:
        """As `worth`; a block that may not be dug is worth what it would be if it might, or not a
        number where that wasn't kept."""
        found = self.worth(factor)
        if not self.forbidden.any():
            return found
        if len(self.unfenced):
            fence = self.mining[self.forbidden] - self.unfenced
            found[self.forbidden] = (
                self.thousandths(factor)[self.forbidden] + fence * THOUSAND
            ) * (float(self.rounding) / THOUSAND)
        else:
            found[self.forbidden] = np.nan
        return found

    def treated(self, factor: int) -> Bools:
        """Whether a block, once it is dug, is treated at a factor (in thousandths)."""
        treated: Bools = self.way_of(factor) > 0
        return treated

    def ore_of(self, tonnes: Floats, factor: int) -> Floats:
        """The tonnes of each block that are treated at a factor (in thousandths), once it is dug;
        `tonnes` are those of the blocks."""
        found: Floats = tonnes * self.treated(factor)
        return found if self.part is None else found * self.part

    def feeds_of(self, tonnes: Floats, factor: int) -> list[Floats]:
        """The tonnes that each process gets of each block, likewise."""
        whole = tonnes if self.part is None else tonnes * self.part
        return [whole * here * way.feed for way, here in self.by_way(factor)]

    def feeds_gained(self, tonnes: Floats, factor: int) -> list[Floats]:
        """The tonnes that each process would get of each block that gains by it at a factor, whether
        or not another process is better; `tonnes` are those of the blocks."""
        whole = tonnes if self.part is None else tonnes * self.part
        return [whole * (way.gain(slice(None), factor) > 0) * way.feed for way in self.ways]

    def sent_by(self, goes: Ints) -> Priced:
        """The same where blocks go given ways, each by its number from 1, and to waste by 0: any other
        brings nothing.

        Parameters
        ----------
        goes : int array of shape (blocks,)
        """
        ways = tuple(
            replace(
                way,
                revenue=np.where(goes == number, way.revenue, 0),
                processing=np.where(goes == number, way.processing, 0),
            )
            for number, way in enumerate(self.ways, 1)
        )
        return replace(self, ways=ways)

    def metal_of(self, factor: int) -> dict[str, Floats]:
        """The metal that is recovered of each block at a factor, once it is dug."""
        found: dict[str, Floats] = {}
        for way, here in self.by_way(factor):
            for name, units in way.metal.items():
                found[name] = found[name] + units * here if name in found else units * here
        return found

    def gains(self, factor: int) -> Ints:
        """What treating each block by the way that it goes brings at a factor, in thousandths of
        `rounding`; 0 of waste."""
        found: Ints = self.thousandths(factor) + self.mining * THOUSAND
        return found

    def worth_of(self, blocks: Bools, factor: int) -> str:
        """What a set of blocks is worth at a factor, exactly, spelled as `pit` spells a worth.

        Parameters
        ----------
        blocks : bool array of shape (len(self),)
        factor : int
            In thousandths.
        """
        self.check_room(factor)
        parts = (slice(at, at + _BLOCKS_AT_A_TIME) for at in range(0, len(self), _BLOCKS_AT_A_TIME))
        return self.spelled(
            sum(exact_sum(self.of_part(part, factor) * blocks[part]) for part in parts)
        )

    def spelled(self, thousandths: int) -> str:
        """Thousandths of `rounding` as `pit` spells a worth."""
        return spelled(Decimal(thousandths) * self.rounding / THOUSAND)


def _furthest(values: Ints) -> int:
    """How far from 0 whole numbers go."""
    return max(int(values.max(initial=0)), -int(values.min(initial=0)))


def exact_sum(values: Ints) -> int:
    """The sum of whole numbers as Python's whole number: it is never rounded and never overflows,
    for up to 2^31 of them."""
    # of a number below 0 too: it is high times 2^31 and low, from 0 on
    high = int((values >> _HALF).sum(dtype=np.int64))
    return (high << _HALF) + int((values & (1 << _HALF) - 1).sum(dtype=np.int64))


def spelled(value: Decimal) -> str:
    """A decimal with at most nine places and no trailing zeros, as `pit` prints a worth.

    >>> spelled(Decimal("-12.500")), spelled(Decimal("1E+3")), spelled(Decimal("-0.0"))
    ('-12.5', '1000', '0')
    """
    text = format(value, "f")
    if "." in text:
        text = text.rstrip("0").rstrip(".")
    return "0" if text in ("-0", "") else text


def as_text(values: Ints, rounding: Decimal) -> Texts | Ints:
    """Amounts as `.blocks` has them: exact decimals, whole numbers where `rounding` is one."""
    if rounding == rounding.to_integral_value():
        whole: Ints = values * int(rounding)
        return whole
    return np.array([spelled(Decimal(int(v)) * rounding) for v in values], dtype=object)
