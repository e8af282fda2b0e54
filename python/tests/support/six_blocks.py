"""Made-up mines of six blocks and three periods, so small that every schedule is tried."""
import itertools

import numpy as np
from scipy.optimize import linprog

from pitplan.schedule.pairs import Pairs
from pitplan.schedule.production import Production
from pitplan.schedule.destinations import Millable
from pitplan.schedule.terms import Terms
from pitplan.schedule.units import Units, gated

BLOCKS, PERIODS = 6, 3
LEVEL = np.array([2, 2, 2, 1, 1, 0])
PUSHBACK = np.array([0, 0, 1, 0, 1, 1])


def made_up(seed, sinks=False, chooses=False, lead=None, fixed_cost=0, leaches=False):
    """Six blocks on three benches, of which a lower one rests on some that are higher; where it
    `chooses`, a schedule says which ore goes to the mill, and where it `leaches` too, which goes to a
    heap; with a `lead` there are two pushbacks."""
    r = np.random.default_rng(seed)
    pairs = [(3, 0), (3, 1), (4, 1), (4, 2), (5, 3), (5, 4)]
    sinking = [(5, 1)] if sinks else []
    rock = r.integers(5000, 20000, BLOCKS)
    ore = r.random(BLOCKS) < 0.6
    ore[5] = True
    values = np.where(ore, r.integers(10_000, 90_000, BLOCKS), -r.integers(500, 9000, BLOCKS))
    rooms: tuple[int, ...] = (int(rock.sum() * 0.5), int((rock * ore).sum() * 0.45))
    rooms += (int((rock * ore).sum() * 0.3),) * leaches
    weights = (953_463, 866_784, 787_986)
    terms = Terms(
        weights,
        tuple((room,) * PERIODS for room in rooms),
        sink=2 if sinks else None,
        is_by_year=chooses,
        pushbacks=() if lead is None else (500,),
        lead=lead or 0,
        fixed_cost=fixed_cost,
    )
    millable = Millable.none()
    if chooses:
        costs = r.integers(500, 9000, BLOCKS)
        places = np.flatnonzero(ore)
        gains, is_of = (values + costs)[places], np.ones_like(places)
        millable = Millable(places, places, gains, rock[places], is_of)
        if leaches:
            millable = with_leach(millable, r)
        values, ore = -costs, ore & False

    each, shell = np.arange(BLOCKS), r.integers(0, 3, BLOCKS)
    units = Units(each, LEVEL, PUSHBACK * (lead is not None))
    units, low, up = gated(units, lead or 0)
    gates = units.size - BLOCKS

    def rows(found):
        both = np.array(found, np.int64).reshape(-1, 2)
        return Pairs.of(both[:, 0], both[:, 1], units.size)

    made = Production(
        terms,
        each,
        each,
        BLOCKS,
        np.append(values, np.zeros(gates, np.int64)),
        np.hstack(
            [
                [rock, rock * ore, rock * 0][: len(rooms)],
                np.zeros((len(rooms), gates), np.int64),
            ]
        ),
        units.level,
        np.append(shell, np.full(gates, 2)),
        rows([*pairs, *zip(low, up)]),
        rows(sinking),
        millable,
        units.pushback,
        gates,
    )
    if (
        lead is not None
    ):  # each block of the second pushback waits for those of the first that are so deep
        later, first = np.flatnonzero(PUSHBACK), np.flatnonzero(PUSHBACK == 0)
        pairs += [(b, a) for b in later for a in first if LEVEL[a] >= LEVEL[b] - lead]
    return made, pairs, sinking


def with_leach(millable, random):
    """Likewise with a second way of each block but the first, which gains less, or more of some, and
    takes less."""
    blocks = millable.block[1:]
    gains = (millable.gains[1:] * random.uniform(0.4, 1.1, len(blocks))).astype(np.int64)
    feeds = (millable.feeds[1:] * 0.8).astype(np.int64)
    more = Millable(blocks, blocks, gains, feeds, np.full_like(blocks, 2))
    order = np.lexsort(
        [np.append(millable.resource, more.resource), np.append(millable.block, blocks)]
    )
    return Millable(*(np.append(own, other)[order] for own, other in zip(millable, more)))


def ways_of(made):
    """Of each block what it is worth and uses by each way that it may go, with Python's whole
    numbers alone."""
    uses = list(zip(*made.uses.tolist()))[:BLOCKS]
    ways = [[(value, use)] for value, use in zip(made.values.tolist(), uses)]
    for block, _, gain, feed, resource in zip(*(each.tolist() for each in made.millable)):
        value, (rock, *none) = ways[block][0]
        assert not any(none)
        takes = [feed if of == resource else 0 for of in range(1, len(made.uses))]
        ways[block].append((value + gain, (rock, *takes)))
    return ways


def best_of_all(made, pairs, sinking):
    """What the best schedule is worth, by trying each, in millionths; with Python's whole numbers
    alone."""
    ways, rooms, weights = ways_of(made), made.terms.capacities, made.terms.weights
    most = 0
    for plan in itertools.product(range(PERIODS + 1), repeat=BLOCKS):
        if any(plan[b] < PERIODS and plan[a] > plan[b] for b, a in pairs):
            continue
        if any(plan[b] < PERIODS and plan[a] >= plan[b] for b, a in sinking):
            continue
        dug = [b for b in range(BLOCKS) if plan[b] < PERIODS]
        for chosen in itertools.product(*(ways[b] for b in dug)):
            used = [[0] * PERIODS for _ in rooms]
            for b, (_, use) in zip(dug, chosen):
                for r in range(len(rooms)):
                    used[r][plan[b]] += use[r]
            if any(used[r][t] > rooms[r][t] for r in range(len(rooms)) for t in range(PERIODS)):
                continue
            worth = sum(weights[plan[b]] * way[0] for b, way in zip(dug, chosen))
            fixed = sum(weights[t] for t in {plan[b] for b in dug}) * made.terms.fixed_cost
            most = max(most, worth - fixed)
    return most


def first_by_room(made, pairs):
    """The first period in which each block may be dug whole: all that it waits for has to have room
    by then."""
    cones = [{b} for b in range(BLOCKS)]
    while any(not cones[a] <= cones[b] for b, a in pairs):
        for b, a in pairs:
            cones[b] |= cones[a]
    uses = made.uses.tolist()
    return [
        max(
            sum(sum(room[: t + 1]) < sum(use[a] for a in cone) for t in range(PERIODS))
            for use, room in zip(uses, made.terms.capacities)
        )
        for cone in cones
    ]


def whole_relaxation(made, pairs, sinking):
    """What the best schedule that may dig blocks and open periods in parts is worth, in millionths,
    by one linear program: so much of a block, by a way, in a period; and so much of each period.
    With pushbacks none of a block before all of it might be dug."""
    ways = ways_of(made)
    first = first_by_room(made, pairs) if made.gates else [0] * BLOCKS
    parts = [(b, d, t) for b in range(BLOCKS) for d in range(len(ways[b])) for t in range(PERIODS)]
    gain = [ways[b][d][0] * made.terms.weights[t] / 1e6 for b, d, t in parts]
    gain += [-made.terms.fixed_cost * weight / 1e6 for weight in made.terms.weights]
    rows, limits = [], []

    def row(entries, limit):
        rows.append([entries.get((b, t), 0) for b, _, t in parts] + [0] * PERIODS)
        limits.append(limit)

    for b in range(BLOCKS):
        row({(b, t): 1 for t in range(PERIODS)}, 1)
    for pair, lag in [*((pair, 0) for pair in pairs), *((pair, 1) for pair in sinking)]:
        for t in range(PERIODS):
            below = {(pair[0], s): 1 for s in range(t + 1)}
            row(below | {(pair[1], s): -1 for s in range(t + 1 - lag)}, 0)
    for r, rooms in enumerate(made.terms.capacities):
        for t in range(PERIODS):
            opened = [-rooms[t] * (s == t) for s in range(PERIODS)]
            rows.append([ways[b][d][1][r] * (s == t) for b, d, s in parts] + opened)
            limits.append(0)
    bounds = [(0, int(t >= first[b])) for b, _, t in parts] + [(0, 1)] * PERIODS
    found = linprog(
        -np.array(gain), A_ub=np.array(rows), b_ub=limits, bounds=bounds, method="highs"
    )
    assert found.status == 0
    return -found.fun * 1e6
