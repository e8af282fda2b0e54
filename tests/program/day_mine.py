"""The mine of tests/day: a table of 50,000 blocks as a planning package exports it, and what has to come of it.

All is worked out here from the blocks themselves, by docs/FORMATS.md, and no line of it is the program's or that of
examples/csv_to_minelib.py. Money is in cents, so that it is exact. The mine is the same on every machine.
"""
import csv
import random
from collections import namedtuple
from decimal import Decimal

WIDE, LONG, HIGH = 50, 50, 20  # blocks along x, y and z
XSIZE, YSIZE, ZSIZE = 20, 20, 10  # metres of a block
LOWEST = 7_010, 3_010, 805  # the centre of the lowest block, in metres
CONE = 4, 1, 2  # 45 degrees for these blocks: two benches for one block out
FACTORS = 300, 400, 500, 600, 700, 800, 900, 1000, 1100, 1200

Block = namedtuple(
    "Block", "place tonnes grade revenue cost"
)  # the grade in hundredths of a percent, money in cents


def grade_at(i, j, k, chance):
    """Hundredths of a percent of copper: a body that dips along y, in waste that has next to none."""
    out = ((i - 24) / 15) ** 2 + ((j - 14 - 1.2 * k) / 9) ** 2 + ((k - 9) / 11) ** 2
    return max(0, round(80 * (1 - out) + 30 * chance.random() - 15))


def blocks():
    """The blocks in the order of the table: the top bench first."""
    chance, found = random.Random(1965), []
    for k in reversed(range(HIGH)):
        for j in range(LONG):
            for i in range(WIDE):
                grade = grade_at(i, j, k, chance)
                tonnes = XSIZE * YSIZE * ZSIZE * (22 if k > 16 else 26) // 10
                metal = (
                    tonnes * grade * 88 // 1_000_000
                )  # tonnes of copper, of which 88 % is recovered
                is_ore = (
                    metal * 650_000 > tonnes * 950
                )  # 6,500 dollars a tonne, 9.50 for processing
                found.append(
                    Block(
                        (i, j, k),
                        tonnes,
                        grade,
                        metal * 650_000 if is_ore else 0,
                        tonnes * (210 + 950 * is_ore),
                    )
                )
    return found


def money(cents):
    return "%s%d.%02d" % ("-" if cents < 0 else "", abs(cents) // 100, abs(cents) % 100)


def write_table(mine, file):
    """The table of the mine, with what a spreadsheet adds to it: value, revenue and cost."""
    rows = csv.writer(file)
    rows.writerow(["id", "x", "y", "z", "tonnes", "grade", "value", "revenue", "cost"])
    for number, block in enumerate(mine):
        centre = [
            low + size * at for low, size, at in zip(LOWEST, (XSIZE, YSIZE, ZSIZE), block.place)
        ]
        rows.writerow(
            [
                "C%05d" % (number + 1),
                *centre,
                block.tonnes,
                "%d.%02d" % divmod(block.grade, 100),
                money(block.revenue - block.cost),
                money(block.revenue),
                money(block.cost),
            ]
        )


def blocks_text(mine):
    return "".join(
        "%d %d %d %d %s %s %d\n"
        % (b, *block.place, money(block.revenue), money(block.cost), block.tonnes)
        for b, block in enumerate(mine)
    )


def upit_text(name, mine):
    head = "NAME: %s\nTYPE: UPIT\nNBLOCKS: %d\nOBJECTIVE_FUNCTION:\n" % (name, len(mine))
    return head + "".join(
        "%d %s\n" % (b, money(block.revenue - block.cost)) for b, block in enumerate(mine)
    )


def cone(levels, run, rise):
    """The offsets of a cone."""
    reach = range(-levels * run, levels * run + 1)
    return [
        (dx, dy, k)
        for k in range(1, levels + 1)
        for dx in reach
        for dy in reach
        if rise**2 * (dx * dx + dy * dy) <= k * k * run * run
    ]


def rests_of(mine, offsets):
    """The predecessors of each block, ascending."""
    at = {block.place: b for b, block in enumerate(mine)}
    places = [(x, y, z) for x, y, z in (block.place for block in mine)]
    return [
        sorted(at[p] for p in ((x + dx, y + dy, z + dz) for dx, dy, dz in offsets) if p in at)
        for x, y, z in places
    ]


def prec_text(rests):
    return "".join(
        " ".join(map(str, [b, len(above), *above])) + "\n" for b, above in enumerate(rests)
    )


def worths(mine, factor=1000):
    """What each block is worth at a factor of the price, in billionths of a dollar."""
    return [(factor * block.revenue - 1000 * block.cost) * 10_000 for block in mine]


def decimal(billionths):
    """How a worth is printed: at most nine places, and no trailing zeros."""
    sign, (whole, rest) = "-" if billionths < 0 else "", divmod(abs(billionths), 10**9)
    return sign + str(whole) + (".%09d" % rest).rstrip("0") * (rest > 0)


def bench_rows(mine, pits, factor):
    """The bench table of nested pits, of which each has its factor: rows of z, shell, blocks, tonnes and worth."""
    first = {}
    for shell, pit in sorted(pits.items()):
        for b in pit:
            first.setdefault(b, shell)
    worth, rows = worths(mine, factor), {}
    for b, shell in first.items():
        row = rows.setdefault((mine[b].place[2], shell), [0, 0, 0])
        row[0] += 1
        row[1] += mine[b].tonnes
        row[2] += worth[b]
    return [
        (z, shell, count, tonnes, decimal(sum_of))
        for (z, shell), (count, tonnes, sum_of) in sorted(rows.items())
    ]


def pivot(rows, column):
    """The sums of a column by shell, as a spreadsheet's pivot table has them."""
    sums = {}
    for row in rows:
        sums[int(row["shell"])] = sums.get(int(row["shell"]), 0) + Decimal(row[column])
    return sums
