"""The units of a schedule as a mine of `pit`.

Each unit is a block of it, which costs what its blocks bring without a mill and gains by each way,
the mill or a process, what the first of its blocks that may be sent does. Each other one that may be
sent is a block of its own, which rests on its unit as that does on it: they are dug together. Last
comes a clock,
where cones keep units back: its block k waits for the one before, so that none is dug before k lags
have gone by. A unit that no schedule digs before rests on it. So whoever digs the units of a
feasible schedule, and the clock as early as it may be, keeps all that `pit` reads here.
"""
from __future__ import annotations

from pathlib import Path

import numpy as np

from ..base.arrays import Ints
from ..base.files import whole_file
from ..pit.program import Files, Periodic, Pit
from ..study.building import write_numbers
from .bounds import Bounds
from .pairs import Pairs
from .periods_text import columns_of, periods_text
from .production import Production
from .destinations import Timetable

_ROWS = 50_000  # blocks whose lines are made at a time
_MOST_WAITS = (
    8  # columns that `pit` reads; fewer waits than there are make a bound higher, never untrue
)


class UnitTexts(Bounds):
    """The bounds of a production by its units.

    Parameters
    ----------
    production : Production

    Attributes
    ----------
    block : int array of shape (rows of `Millable`,)
        Which block of the mine stands for the block of each row.
    ways : int
        How many ways there are to send a block.
    lag : int
        Periods that blocks wait.
    clock : int array of shape (units,)
        For how many lags each unit stays, by its cone.
    """

    def __init__(self, production: Production) -> None:
        super().__init__(production)
        units, millable = production.units, production.millable
        unit = millable.unit[millable.is_first]
        is_other = np.ones(len(unit), bool)
        is_other[np.unique(unit, return_index=True)[1]] = False
        own: Ints = np.where(is_other, units + np.cumsum(is_other) - 1, unit)
        self.block: Ints = own[millable.place]
        self.ties = int(is_other.sum())
        self.ways = len(production.uses) - 1 if production.terms.is_by_year else 1
        self.lag = production.terms.per_year if len(production.sinking.other) else 1
        first, never = production.first_by_room, production.periods
        self.clock: Ints = np.where(first < never, first // self.lag, -(-never // self.lag))
        self.ticks = int(self.clock.max(initial=0))
        self.count = units + self.ties + (self.ticks + 1 if self.ticks else 0)

    def written(self, program: Pit, folder: Path, seconds: float | None = None) -> Periodic:
        """What each block rests on, brings, costs and uses, and which others it waits for."""
        files = Files(folder / "units.blocks", folder / "units.toml", folder / "units.prec")
        if not files.blocks.exists():
            with whole_file(folder / "units.prec") as part:
                _write_pairs(part, self.above())
            of_ways = ", ".join(
                f"{{ revenue = {w}, processing = {self.ways} }}" for w in range(self.ways)
            )
            files.settings.write_text(f"ways = [{of_ways}]\nmining = {self.ways + 1}\n")
            with whole_file(files.blocks) as part:
                write_numbers(part, {f"{at}": each for at, each in enumerate(self.rows())})
        return Periodic(files, files.blocks, folder / "periods.toml")

    def periods(self, multipliers: Ints) -> str:
        """The uses stand after what blocks bring and cost; what treating a block costs is a column of
        zeros."""
        first = self.ways + 2
        columns = columns_of(self.production, self.ways, first)
        after = first + len(self.production.uses)
        waits = range(after, after + len(self.waits()))
        return periods_text(self.production, columns, waits, multipliers, self.lag)

    def above(self) -> Pairs:
        """What each block rests on."""
        made, units = self.production, self.production.units
        ties = np.flatnonzero((self.block >= units) & made.millable.is_first)
        low, high = made.millable.unit[ties], self.block[ties]
        later = np.flatnonzero(self.clock)
        ticks = units + self.ties + self.clock[later]
        return Pairs.of(
            np.concatenate([made.above.blocks, low, high, later]),
            np.concatenate([made.above.other, high, low, ticks]),
            self.count,
        )

    def waits(self) -> Ints:
        """Columns of what each block waits for."""
        made = self.production
        ticks = made.units + self.ties + np.arange(1, self.ticks + 1)
        return Pairs.of(
            np.append(made.sinking.blocks, ticks),
            np.append(made.sinking.other, ticks - 1),
            self.count,
        ).columns()[:_MOST_WAITS]

    def rows(self) -> list[Ints]:
        """The columns: number and place, what a block brings by each way and costs, uses and waits."""
        made, millable = self.production, self.production.millable
        numbers, none = np.arange(self.count), np.zeros(self.count, np.int64)
        revenue, mining = np.zeros((self.ways, self.count), np.int64), none.copy()
        uses = np.zeros((len(made.uses), self.count), np.int64)
        revenue[millable.resource - 1, self.block] = millable.gains
        mining[: made.units] = -made.values
        uses[:, : made.units] = made.uses
        uses[millable.resource, self.block] = millable.feeds
        return [numbers, none, none, numbers, *revenue, none, mining, *uses, *self.waits()]

    def schedule_rows(self, plan: Timetable) -> dict[str, Ints]:
        """A schedule of the units as one of this mine: its blocks, their periods and, where that is
        chosen, their ways."""
        made, millable = self.production, self.production.millable
        period = np.full(self.count, made.periods)
        period[: made.units] = plan.period
        period[self.block] = plan.period[millable.unit]
        if self.ticks:
            period[made.units + self.ties :] = np.arange(self.ticks + 1) * self.lag
        dug = np.flatnonzero(period < made.periods)
        if not made.terms.is_by_year:
            return {"b": dug, "t": period[dug]}
        way = np.full(self.count, self.ways)
        way[self.block[plan.sent]] = millable.resource[plan.sent] - 1
        return {"b": dug, "t": period[dug], "w": way[dug]}


def _write_pairs(path: Path, pairs: Pairs) -> None:
    """The predecessors of each block, as `pit` reads them."""
    first, other = pairs
    with open(path, "w") as file:
        for at in range(0, len(first) - 1, _ROWS):
            ends = first[at : at + _ROWS + 1].tolist()
            words = list(map(str, other[ends[0] : ends[-1]].tolist()))
            file.writelines(
                f"{at + k} {z - a} {' '.join(words[a - ends[0] : z - ends[0]])}\n"
                for k, (a, z) in enumerate(zip(ends, ends[1:]))
            )
