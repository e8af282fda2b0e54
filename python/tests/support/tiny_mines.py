"""Made-up mines of 8 to 60 blocks, with panels and pushbacks, so small that the best of all their
schedules is known: every closed set of panels is listed, and each period goes from one to a larger
one."""
from dataclasses import replace

import numpy as np
from pitplan.schedule.pairs import Pairs
from pitplan.schedule.period_ranges import Freed, Span
from pitplan.schedule.production import Production
from pitplan.schedule.sorting import Sorting
from pitplan.schedule.terms import Terms
from pitplan.schedule.units import Units, gated

WEIGHTS = (953_463, 866_784, 787_986, 716_351)
MOST_SETS = 4000
# seeds and kinds of some mines that differ
MINES = (
    (2, {"panel": 2}),
    (3, {"panel": 2}),
    (46, {"pushbacks": True}),
    (32, {"panel": 2, "pushbacks": True, "lead": 1}),
    (45, {"panel": 2}),
    (1, {}),
    (9, {}),
)
MOST_TRIED = 8  # units of which all periods are tried


class TinyMine:
    """A mine of `nx` by `ny` by `nz` blocks, each of which rests on the nine above it.

    Attributes
    ----------
    production : Production
    groups : list of list of int
        The blocks of each panel.
    """

    def __init__(self, seed, panel=1, pushbacks=False, lead=0, fixed_cost=0):
        r = self.random = np.random.default_rng(seed)
        shape = [(4, 2, 2), (4, 4, 3), (5, 4, 3), (6, 3, 3), (4, 3, 2), (2, 2, 2)][seed % 6]
        self.places = [
            (x, y, z) for z in range(shape[2]) for y in range(shape[1]) for x in range(shape[0])
        ]
        number = {place: b for b, place in enumerate(self.places)}
        self.above = [
            [
                number[x + dx, y + dy, z + 1]
                for dx in (-1, 0, 1)
                for dy in (-1, 0, 1)
                if (x + dx, y + dy, z + 1) in number
            ]
            for x, y, z in self.places
        ]
        count, self.lead = len(self.places), lead
        self.rock = r.integers(5000, 20000, count)
        depth = np.array([shape[2] - 1 - z for _, _, z in self.places])
        is_ore = r.random(count) < 0.25 + 0.25 * depth
        is_ore[int(np.argmax(depth))] = True
        self.values = np.where(
            is_ore, r.integers(10_000, 90_000, count), -r.integers(500, 15_000, count)
        )
        self.feed = self.rock * is_ore
        self.pushback = np.zeros(count, np.int64)
        if pushbacks:
            first = {int(r.integers(count))}
            while more := {p for b in first for p in self.above[b]} - first:
                first |= more
            self.pushback[:] = [b not in first for b in range(count)]
        self.periods = int(r.integers(2, 5))
        share = float(r.uniform(0.7, 1.1)) / self.periods
        rooms = [int(row.sum() * share) for row in (self.rock, self.feed)]
        self.terms = Terms(
            WEIGHTS[: self.periods],
            tuple((room,) * self.periods for room in rooms),
            panel=panel,
            pushbacks=(500,) if pushbacks else (),
            lead=lead,
            fixed_cost=fixed_cost,
        )
        keys = [
            (self.pushback[b], z, x // panel, y // panel) for b, (x, y, z) in enumerate(self.places)
        ]
        names = sorted(set(keys))
        self.unit = np.array([names.index(key) for key in keys])
        self.groups = [np.flatnonzero(self.unit == u).tolist() for u in range(len(names))]
        self.production = self.as_production(names)

    def as_production(self, names):
        """As the search takes it."""
        pushback, level = (np.array([int(name[k]) for name in names], np.int64) for k in (0, 1))
        units, low, up = gated(Units(self.unit, level, pushback), self.lead)
        gates = units.size - len(names)
        pairs = [
            (self.unit[b], self.unit[p])
            for b, others in enumerate(self.above)
            for p in others
            if self.unit[b] != self.unit[p]
        ]
        pairs += list(zip(low, up))
        both = np.array(pairs, np.int64).reshape(-1, 2)
        uses = np.stack([units.summed(row) for row in (self.rock, self.feed)])
        shell = np.zeros(units.size, np.int64)
        shell[: len(names)] = self.random.integers(0, 3, len(names))
        shell[len(names) :] = 2
        return Production(
            self.terms,
            np.arange(len(self.places)),
            self.unit,
            len(self.places),
            units.summed(self.values),
            uses,
            units.level,
            shell,
            Pairs.of(both[:, 0], both[:, 1], units.size),
            Pairs.of(both[:0, 0], both[:0, 0], units.size),
            pushback=units.pushback,
            gates=gates,
        )

    def waits(self):
        """Of each panel those that it waits for, as bits: by the slopes, and a later pushback for
        all of the first down to `lead` benches below."""
        found = []
        for group in self.groups:
            asked = {self.unit[p] for b in group for p in self.above[b]}
            for b in group:
                if self.pushback[b]:
                    asked |= {
                        self.unit[a]
                        for a, (_, _, z) in enumerate(self.places)
                        if not self.pushback[a] and z >= self.places[b][2] - self.lead
                    }
            found.append(sum(1 << int(u) for u in asked - {self.unit[group[0]]}))
        return found

    def closed_sets(self):
        """All sets of panels that may be dug, as bits."""
        waits, found, new = self.waits(), {0}, [0]
        while new:
            one = new.pop()
            for u, asked in enumerate(waits):
                more = one | 1 << u
                if more not in found and asked & ~one == 0:
                    found.add(more)
                    new.append(more)
            assert len(found) <= MOST_SETS, "choose another seed"
        return sorted(found)

    def best(self):
        """What the best schedule is worth, in millionths."""
        sets = self.closed_sets()
        sums = [
            np.array(
                [
                    sum(
                        int(row[b])
                        for u, group in enumerate(self.groups)
                        if one >> u & 1
                        for b in group
                    )
                    for one in sets
                ]
            )
            for row in (self.values, self.rock, self.feed)
        ]
        bits = np.array(sets)
        worth = np.where(bits == 0, 0, -(1 << 60))
        for t, weight in enumerate(self.terms.weights):
            rooms = [row[t] for row in self.terms.capacities]
            after = worth.copy()
            for i in np.flatnonzero(worth > -(1 << 60)):
                more = [each - each[i] for each in sums]
                goes = (bits & bits[i] == bits[i]) & (more[1] <= rooms[0]) & (more[2] <= rooms[1])
                paid = weight * (more[0] - self.terms.fixed_cost * (more[1] > 0))
                np.maximum(after, np.where(goes, worth[i] + paid, -(1 << 60)), out=after)
            worth = after
        return int(worth.max())


def made_of(seed, kind, sink=False):
    """A tiny mine, with a sink rate of one bench where that is asked for: what lies straight above
    comes a period before."""
    mine = TinyMine(seed, **kind)
    made = mine.production
    if sink:
        number = {place: b for b, place in enumerate(mine.places)}
        pairs = [
            (made.unit[b], made.unit[number[x, y, z + 1]])
            for (x, y, z), b in number.items()
            if (x, y, z + 1) in number
        ]
        low, high = np.array(pairs).T
        made = replace(made, sinking=Pairs.of(low, high, made.units))
    return made


def five_columns():
    """A mine of five columns, each of a block of waste over one of ore, of which the last is ten times
    as rich as another; in each of two years two blocks may be dug. And what its best schedule is worth
    in millionths: the rich column in the first year, and one of the others in the second."""
    waste, ore = [-1000] * 5, [2000] * 4 + [20_000]
    below, count = np.arange(5, 10), 10
    uses = np.array([[10] * 10, [0] * 5 + [10] * 5], np.int64)
    made = Production(
        Terms(WEIGHTS[:2], ((20, 20), (1000, 1000))),
        np.arange(count),
        np.arange(count),
        count,
        np.array(waste + ore, np.int64),
        uses,
        np.array([1] * 5 + [0] * 5, np.int64),
        np.zeros(count, np.int64),
        Pairs.of(below, below - 5, count),
        Pairs.of(below[:0], below[:0], count),
    )
    return made, WEIGHTS[0] * 19_000 + WEIGHTS[1] * 1000


def begun(made):
    """A first schedule, and the sorting of the mine."""
    orders = Sorting(made)
    return orders, orders.by_shells()


def some_of(made, plan, seed, span):
    """Some units of a window of so many periods, so few that all of their periods can be tried."""
    random = np.random.default_rng(seed)
    begin = int(random.integers(made.periods + 2 - span))
    inside = np.flatnonzero((plan.period >= begin) & (plan.period < begin + span))
    units = np.sort(random.permutation(inside)[:MOST_TRIED])
    return Freed(units, Span(begin, begin + span - 1))
