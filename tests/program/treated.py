"""Judges schedules of mines that are made up and whose blocks go ways or to waste: `pit schedule` of the built program against
this reader, which shares no line with it and counts in whole numbers by docs/FORMATS.md alone.

Mines are those of schedules.py with prices of one way to three, the one by `ways` or as a mill. Of some resources each way uses a
column of its own. About half of the lines name a way, and some of these name waste.
"""
import random
import tempfile
from collections import namedtuple
from pathlib import Path

from program import made_up_plans
from program.refused_calls import run
from program.schedules import BLOCKS, RESOURCES, decimal, judged, made_up, written

WORDS = "schedule --prec m.prec --blocks m.blocks --settings s.toml --periods p.toml".split()

# The factor in thousandths; in millionths what each block earns and is charged by each way, and what it costs to mine; the uses of each
# resource by each way, or nothing where it has one column for all; the way that each line names, or nothing.
Ways = namedtuple("Ways", "factor revenue processing mining uses named")


def made_ways(plan, seed):
    """Ways of a mine, and which of them the lines of a schedule name."""
    chance = random.Random("treated %d" % seed)
    count = chance.choice((1, 1, 2, 2, 3))

    def column(least, most):
        return [chance.randrange(least, most) for _ in range(BLOCKS)]

    return Ways(
        chance.randrange(2001),
        [column(0, 10**7) for _ in range(count)],
        [column(-(10**6), 10**7) for _ in range(count)],
        column(-(10**6), 3 * 10**6),
        [
            [column(0, 3_000_001) for _ in range(count)] if chance.randrange(2) else None
            for _ in range(RESOURCES)
        ],
        {b: chance.choice((None, chance.randrange(count + 1))) for b in plan.periods},
    )


def worth_of(ways, way, b):
    """What a block is worth by a way, in billionths; past the last way as waste."""
    treated = (
        ways.factor * ways.revenue[way][b] - 1000 * ways.processing[way][b]
        if way < len(ways.revenue)
        else 0
    )
    return treated - 1000 * ways.mining[b]


def most_of(ways, b):
    """The first way by which a block is worth most, or waste where none is worth more than that."""
    worths = [worth_of(ways, way, b) for way in range(len(ways.revenue) + 1)]
    return len(ways.revenue) if max(worths) == worths[-1] else worths.index(max(worths))


def use_of(plan, ways, r, way, b):
    """What a block uses of a resource by a way, in millionths."""
    if ways.uses[r] is None:
        return plan.uses[r][b]
    return ways.uses[r][way][b] if way < len(ways.revenue) else 0


def chosen(plan, ways, way_of):
    """The plan with the uses of these ways, and what each block is worth by its own."""
    uses = [[use_of(plan, ways, r, way_of[b], b) for b in range(BLOCKS)] for r in range(RESOURCES)]
    return plan._replace(uses=uses), [worth_of(ways, way_of[b], b) for b in range(BLOCKS)]


def written_ways(plan, ways, seed, folder):
    """Writes the columns of ways after those of a plan, the settings, which resources have columns by way, and the schedule."""
    count = len(ways.revenue)
    first = len(plan.uses) + len(plan.waits)
    columns = [column for pair in zip(ways.revenue, ways.processing) for column in pair]
    columns.append(ways.mining)
    resources = []
    for r, uses in enumerate(ways.uses):
        resources.append(r if uses is None else [first + len(columns) + w for w in range(count)])
        columns += uses or []
    lines = (folder / "m.blocks").read_text().splitlines()
    (folder / "m.blocks").write_text(
        "".join(
            "%s %s\n" % (line, " ".join(decimal(column[b], 6) for column in columns))
            for b, line in enumerate(lines)
        )
    )
    pairs = ", ".join(
        "{ revenue = %d, processing = %d }" % (first + 2 * w, first + 2 * w + 1)
        for w in range(count)
    )
    mill = "revenue = %d\nprocessing = %d" % (first, first + 1)
    settings = mill if count == 1 and seed % 2 else "ways = [%s]" % pairs
    (folder / "s.toml").write_text("%s\nmining = %d\n" % (settings, first + 2 * count))
    periods = (folder / "p.toml").read_text()
    (folder / "p.toml").write_text(periods.replace(str(list(range(RESOURCES))), str(resources), 1))
    (folder / "s.txt").write_text(
        "".join(
            "%d %d%s\n" % (b, t, "" if ways.named[b] is None else " %d" % ways.named[b])
            for b, t in sorted(plan.periods.items())
        )
    )


def wrong(program, seed):
    """What the program says wrongly of a plan; nothing where all is right."""
    plan = made_up(seed)
    ways = made_ways(plan, seed)
    with tempfile.TemporaryDirectory() as name:
        folder = Path(name)
        written(plan, folder)
        written_ways(plan, ways, seed, folder)
        words = [*WORDS, "--factor", str(ways.factor), "s.txt"]
        status, output, errors = run(program, words, folder)
    way_of = [
        most_of(ways, b) if ways.named.get(b) is None else ways.named[b] for b in range(BLOCKS)
    ]
    want = judged(*chosen(plan, ways, way_of))
    return made_up_plans.difference((status, output.decode()), want, errors)


def try_all(program):
    """Tries every plan, and gives how many were judged as they must be and how many not."""
    return made_up_plans.counted("treated", made_up_plans.each(wrong, 200, program))
