"""Bounds the worth of every schedule of mines that are made up and whose blocks go ways or to waste: `pit solve --periods`,
`pit bound` and `pit schedule --best` of the built program against an enumeration, which shares no line with it and counts in whole
numbers by docs/FORMATS.md alone.

Mines are those of treated.py, in half of which blocks wait for others. Each of the 4^5 ways to give every block a period or none is
looked at. The greatest worth above the multipliers of those that keep precedence and waits, where each block goes the way that leaves
most in its period, and all capacities at their multipliers, is the bound that must come. Of each that is dug every choice of ways is
tried too: no feasible one may be worth more. The schedule of treated.py, whose lines name ways, is held against the bound. All this is
tried again within the ultimate pit at what each block is worth at most.
"""
import random
import tempfile
from itertools import product
from pathlib import Path

from program import made_up_plans
from program.bounds import beside, multipliers_of, part_of
from program.refused_calls import run
from program.schedules import BLOCKS, PERIODS, RESOURCES, decimal, made_up, written
from program.treated import chosen, made_ways, most_of, use_of, worth_of, written_ways

FILES = "--prec m.prec --blocks m.blocks --settings s.toml --periods p.toml".split()
MINE = FILES[:-2]


def keeping(plan, blocks):
    """The periods of so many blocks that keep precedence and waits; the number of periods where a block isn't dug."""
    return [
        periods
        for periods in product(range(PERIODS + 1), repeat=blocks)
        if all(periods[p] <= periods[b] for b, p in plan.pairs)
        and all(
            a == b or periods[b] == PERIODS or periods[a] + plan.lag <= periods[b]
            for column in plan.waits
            for b, a in enumerate(column)
        )
    ]


def bound_of(plan, multipliers, by_way):
    """The bound of blocks of which each has a worth and its uses by each way, in 10^-15 of the unit of the worths."""
    left = [
        [
            max(
                worth * plan.weights[t] - sum(uses[r] * multipliers[r][t] for r in range(RESOURCES))
                for worth, uses in ways
            )
            for t in range(PERIODS)
        ]
        + [0]
        for ways in by_way
    ]
    richest = max(
        sum(left[b][t] for b, t in enumerate(periods)) for periods in keeping(plan, len(by_way))
    )
    had = [
        10**6 * plan.capacities[r][t] * multipliers[r][t]
        for r in range(RESOURCES)
        for t in range(PERIODS)
    ]
    return richest + sum(had)


def best_of(plan, by_way):
    """What the best feasible schedule is worth, whichever ways its blocks go."""
    weights, best = plan.weights, 0
    for periods in keeping(plan, len(by_way)):
        dug = [(b, t) for b, t in enumerate(periods) if t < PERIODS]
        for ways in product(*(by_way[b] for b, _ in dug)):
            worth = sum(way[0] * weights[t] for way, (_, t) in zip(ways, dug))
            if worth > best and is_within(plan, dug, ways):
                best = worth
    return best


def is_within(plan, dug, ways):
    """Whether no period uses more of a resource than it has."""
    return all(
        sum(way[1][r] for way, (_, period) in zip(ways, dug) if period == t)
        <= 10**6 * plan.capacities[r][t]
        for r in range(RESOURCES)
        for t in range(PERIODS)
    )


def wrong_of(program, bound, case, words, folder):
    """What the program answers wrongly of the nodes where this bound must come: the bound, or the schedule beside it."""
    (plan, worths), at = case, words
    solved = run(program, ["solve", *FILES, *at], folder)
    (folder / "c.cert").write_bytes(solved[1])
    within = at[2:]
    must = 0, b"BOUND %s\n" % decimal(bound, 15).encode(), b""
    answer = run(program, ["bound", *FILES, *within, "c.cert"], folder)
    if solved[0] or answer != must:
        return "%s where %s must come, by %s" % (answer, must, solved)
    must = beside(plan, worths, bound)
    answer = run(program, ["schedule", *FILES, *within, "--best", "c.cert", "s.txt"], folder)
    return "" if answer == must else "%s where %s must come beside the bound" % (answer, must)


def wrong_in(program, seed, folder):
    """What the program answers wrongly of a mine whose files are made in a folder."""
    plan = made_up(seed)
    ways = made_ways(plan, seed)
    written(plan, folder)
    written_ways(plan, ways, seed, folder)
    multipliers = multipliers_of(random.Random("treated bound %d" % seed))
    with (folder / "p.toml").open("a") as periods:
        periods.write("multipliers = %s\n" % multipliers)
    by_way = [
        [
            (worth_of(ways, way, b), [use_of(plan, ways, r, way, b) for r in range(RESOURCES)])
            for way in range(len(ways.revenue) + 1)
        ]
        for b in range(BLOCKS)
    ]
    bound = bound_of(plan, multipliers, by_way)
    best = best_of(plan, by_way) if seed % 4 < 2 else 0
    way_of = [
        most_of(ways, b) if ways.named.get(b) is None else ways.named[b] for b in range(BLOCKS)
    ]
    case = chosen(plan, ways, way_of)
    at = ["--factor", str(ways.factor)]
    said = wrong_of(program, bound, case, at, folder)
    found = run(program, ["solve", *MINE, *at], folder)[1].decode()
    (folder / "pit.cert").write_text(found)
    kept = [int(line.split()[1]) for line in found.splitlines() if line.startswith("PIT ")]
    part, by_kept = part_of(plan, by_way, kept)
    less = bound_of(part, multipliers, by_kept)
    if best > min(bound, less):
        return "the enumeration has a schedule of %d above %d, or %d" % (best, bound, less)
    return said or wrong_of(program, less, case, [*at, "--pit", "pit.cert"], folder)


def wrong(program, seed):
    """What the program answers wrongly of a mine; nothing where all is right."""
    with tempfile.TemporaryDirectory() as folder:
        return wrong_in(program, seed, Path(folder))


def try_all(program):
    """Tries every mine, and gives how many were bounded as they must be and how many not."""
    return made_up_plans.counted("treated bound", made_up_plans.each(wrong, 120, program))
