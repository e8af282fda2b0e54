"""Judges schedules of mines that are made up: `pit schedule` of the built program against this reader, which shares no line with
it and counts in whole numbers by docs/FORMATS.md alone.

Mines have five blocks and three periods, two resources and capacities that bind; in half of them blocks wait for others. Schedules
are made up too, most of them nearly in order, so that feasible ones and each kind of infeasible one come.
"""
import random
import tempfile
from collections import namedtuple
from pathlib import Path

from program import made_up_plans
from program.refused_calls import run

BLOCKS, PERIODS, RESOURCES = 5, 3, 2
WORDS = "schedule --prec m.prec --upit m.upit --uses m.blocks --periods p.toml s.txt".split()

# Worths in millionths, pairs, weights in millionths, uses in millionths by resource, capacities in whole units by resource, the period of
# each block that is dug, and how long blocks wait for others: columns of the blocks for which they do, a block's own number where for none.
Plan = namedtuple("Plan", "worths pairs weights uses capacities periods lag waits")


def decimal(number, places):
    """A number of which 10^places make one, as the program prints it."""
    whole, fraction = divmod(abs(number), 10**places)
    digits = ("%0*d" % (places, fraction)).rstrip("0")
    return "%s%d%s" % ("-" if number < 0 else "", whole, "." + digits if digits else "")


def made_up(seed):
    """A production and a schedule of it."""
    chance = random.Random(seed)
    pairs = sorted(
        {
            (b, chance.randrange(b + 1, BLOCKS))
            for b in range(BLOCKS - 1)
            for _ in range(chance.randrange(3))
        }
    )
    weights = sorted((chance.randrange(1_000_001) for _ in range(PERIODS)), reverse=True)
    uses = [[chance.randrange(3_000_001) for _ in range(BLOCKS)] for _ in range(RESOURCES)]
    capacities = [[chance.randrange(12) for _ in range(PERIODS)] for _ in range(RESOURCES)]
    periods = {}
    for b in reversed(range(BLOCKS)):  # a predecessor has a higher number
        least = max((periods.get(p, PERIODS) for c, p in pairs if c == b), default=0)
        period = (
            chance.randrange(least, PERIODS + 1)
            if chance.randrange(4)
            else chance.randrange(PERIODS + 1)
        )
        if period < PERIODS:
            periods[b] = period
    return Plan(
        [chance.randrange(-(10**7), 10**7) for _ in range(BLOCKS)],
        pairs,
        weights,
        uses,
        capacities,
        periods,
        *waiting(seed),
    )


def waiting(seed):
    """How many periods blocks wait, and for which: no column in every other plan."""
    chance = random.Random("waits %d" % seed)
    columns = [
        [chance.choice((b, b, b, chance.randrange(BLOCKS))) for b in range(BLOCKS)]
        for _ in range(seed % 4 - 1)
    ]
    return chance.choice((1, 1, 2)), columns


def npv_of(plan, worths):
    """What the schedule is worth where each block is worth so many billionths, in 10^-15 of the unit."""
    return sum(worths[b] * plan.weights[t] for b, t in plan.periods.items())


def judged(plan, worths):
    """The status and the lines that must come where each block is worth so many billionths."""
    broken = [
        (b, p)
        for b, p in plan.pairs
        if b in plan.periods and plan.periods.get(p, PERIODS) > plan.periods[b]
    ]
    used = [
        [
            sum(plan.uses[r][b] for b, t in plan.periods.items() if t == period)
            for period in range(PERIODS)
        ]
        for r in range(RESOURCES)
    ]
    over = [
        (r, t)
        for r in range(RESOURCES)
        for t in range(PERIODS)
        if used[r][t] > plan.capacities[r][t] * 10**6
    ]
    early = sorted(
        {
            (b, a)
            for column in plan.waits
            for b, a in enumerate(column)
            if a != b
            and b in plan.periods
            and plan.periods.get(a, PERIODS) + plan.lag > plan.periods[b]
        }
    )
    lines = [
        "SCHEDULE %d %s" % (len(plan.periods), decimal(npv_of(plan, worths), 15)),
        "BROKEN %d" % len(broken),
    ]
    lines += ["BREAKS %d %d" % pair for pair in broken]
    lines += ["EARLY %d" % len(early)] if early else []
    lines += ["WAITS %d %d" % pair for pair in early]
    lines += [
        "OVER %d %d %s %d" % (r, t, decimal(used[r][t], 6), plan.capacities[r][t]) for r, t in over
    ]
    return 1 if broken or early or over else 0, "\n".join(lines) + "\n"


def written(plan, folder):
    """Writes the files of a plan, the schedule's lines by falling numbers."""
    above = {b: [p for c, p in plan.pairs if c == b] for b in range(BLOCKS)}
    (folder / "m.prec").write_text(
        "".join("%d %d %s\n" % (b, len(ps), " ".join(map(str, ps))) for b, ps in above.items())
    )
    values = "".join("%d %s\n" % (b, decimal(worth, 6)) for b, worth in enumerate(plan.worths))
    (folder / "m.upit").write_text("NBLOCKS: %d\nOBJECTIVE_FUNCTION:\n%s" % (BLOCKS, values))
    (folder / "m.blocks").write_text(
        "".join("%d 0 0 %d %s\n" % (b, b, " ".join(cells_of(plan, b))) for b in range(BLOCKS))
    )
    (folder / "p.toml").write_text(
        "weights = %s\nresources = %s\ncapacities = %s\n"
        % (plan.weights, list(range(RESOURCES)), plan.capacities)
        + keys_of_waiting(plan)
    )
    (folder / "s.txt").write_text(
        "".join("%d %d\n" % (b, t) for b, t in sorted(plan.periods.items(), reverse=True))
    )


def cells_of(plan, b):
    """What stands in the columns beside a block: its uses, and for which blocks it waits."""
    return [decimal(row[b], 6) for row in plan.uses] + [str(column[b]) for column in plan.waits]


def keys_of_waiting(plan):
    """The keys of periods that say for which blocks others wait, and how long; a lag of one may be left out."""
    first = len(plan.uses)
    columns = list(range(first, first + len(plan.waits)))
    waits = "waits = %s\n" % columns if columns else ""
    return waits + ("lag = %d\n" % plan.lag if plan.lag > 1 or len(columns) > 1 else "")


def wrong(program, seed):
    """What the program says wrongly of a plan; nothing where all is right."""
    plan = made_up(seed)
    with tempfile.TemporaryDirectory() as folder:
        written(plan, Path(folder))
        status, output, errors = run(program, WORDS, folder)
    want = judged(plan, [1000 * worth for worth in plan.worths])
    return made_up_plans.difference((status, output.decode()), want, errors)


def try_all(program):
    """Tries every plan, and gives how many were judged as they must be and how many not."""
    return made_up_plans.counted("schedule", made_up_plans.each(wrong, 200, program))
