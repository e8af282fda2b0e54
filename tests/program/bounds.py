"""Bounds the worth of every schedule of mines that are made up: `pit solve --periods`, `pit bound` and `pit schedule --best` of the
built program against an enumeration, which shares no line with it and counts in whole numbers by docs/FORMATS.md alone.

Mines are those of schedules.py, five blocks and three periods, half of them with prices at a factor. Each of the 4^5 ways to
give every block a period or none is looked at. The greatest worth above the multipliers of those that keep precedence and waits, and all
capacities at their multipliers, is the bound that must come; and what each feasible one is worth may not exceed it. A schedule of
schedules.py is held against the bound too. In half of the mines blocks wait for others. All this is tried again within the ultimate
pit: its blocks alone bound every schedule of the whole mine, and a certificate of it that `pit check` refuses gives that answer.
"""
import random
import tempfile
from itertools import product
from pathlib import Path

from program import made_up_plans
from program.refused_calls import run
from program.schedules import (
    BLOCKS,
    PERIODS,
    RESOURCES,
    decimal,
    judged,
    made_up,
    npv_of,
    written,
)

VALUES = "--prec m.prec --upit m.upit --uses m.blocks --periods p.toml".split()
PRICES = "--prec m.prec --blocks m.blocks --settings s.toml --periods p.toml".split()
SETTINGS = "revenue = %d\ncost = %d\n"
MINE = "prec upit blocks settings".split()  # the options that name a mine, without its periods


def multipliers_of(chance):
    """The price of each resource in each period: none, a few units, or the greatest that there may be."""
    return [
        [chance.choice((0, 0, chance.randrange(5 * 10**9), 10**15)) for _ in range(PERIODS)]
        for _ in range(RESOURCES)
    ]


def with_prices(plan, folder, chance):
    """Gives blocks revenues and costs, and answers the factor and what each is worth at it, in billionths."""
    factor = chance.randrange(2001)
    prices = [
        (chance.randrange(10**7), chance.randrange(-(10**6), 10**7)) for _ in range(BLOCKS)
    ]
    lines = (folder / "m.blocks").read_text().splitlines()
    (folder / "m.blocks").write_text(
        "".join(
            "%s %s %s\n" % (line, decimal(revenue, 6), decimal(cost, 6))
            for line, (revenue, cost) in zip(lines, prices)
        )
    )
    column = len(plan.uses) + len(plan.waits)
    (folder / "s.toml").write_text(SETTINGS % (column, column + 1))
    return factor, [revenue * factor - cost * 1000 for revenue, cost in prices]


def bound_of(plan, worths, multipliers):
    """The bound, and what the best feasible schedule is worth, in 10^-15 of the unit of the worths."""
    left = [
        [
            worths[b] * plan.weights[t]
            - sum(plan.uses[r][b] * multipliers[r][t] for r in range(RESOURCES))
            for t in range(PERIODS)
        ]
        + [0]
        for b in range(len(worths))
    ]
    keeping = [
        periods  # PERIODS where a block isn't dug
        for periods in product(range(PERIODS + 1), repeat=len(worths))
        if all(periods[p] <= periods[b] for b, p in plan.pairs)
        and all(
            a == b or periods[b] == PERIODS or periods[a] + plan.lag <= periods[b]
            for column in plan.waits
            for b, a in enumerate(column)
        )
    ]
    richest = max(sum(left[b][t] for b, t in enumerate(periods)) for periods in keeping)
    had = [
        10**6 * plan.capacities[r][t] * multipliers[r][t]
        for r in range(RESOURCES)
        for t in range(PERIODS)
    ]
    weights = plan.weights + [0]
    best = max(
        sum(worths[b] * weights[t] for b, t in enumerate(periods))
        for periods in keeping
        if is_within(plan, periods)
    )
    return richest + sum(had), best


def is_within(plan, periods):
    """Whether no period uses more of a resource than it has."""
    return all(
        sum(plan.uses[r][b] for b, period in enumerate(periods) if period == t)
        <= 10**6 * plan.capacities[r][t]
        for r in range(RESOURCES)
        for t in range(PERIODS)
    )


def beside(plan, worths, bound):
    """What must come of a schedule beside the bound: the gap where it is feasible."""
    status, lines = judged(plan, worths)
    lines += "BOUND %s\n" % decimal(bound, 15)
    if status == 0:
        lines += "GAP %s\n" % decimal(bound - npv_of(plan, worths), 15)
    return status, lines.encode(), b""


def changed(certificate):
    """Certificates that differ in a line: an amount, a block of the pit, a line that is gone."""
    lines = certificate.splitlines(keepends=True)
    for place, line in enumerate(lines):
        words = line.split()
        if words[0] in ("SOURCE", "REST", "SINK"):
            more = " ".join(words[:-2] + [str(int(words[-2]) + 1), words[-1]])
            yield "".join(lines[:place] + [more + "\n"] + lines[place + 1 :])
        if words[0] in ("SOURCE", "REST", "SINK", "PIT"):
            yield "".join(lines[:place] + lines[place + 1 :])


def part_of(plan, worths, kept):
    """The plan of these blocks alone, with numbers of their own, and what they are worth: a block doesn't wait for one outside."""
    numbers = {b: number for number, b in enumerate(kept)}
    part = plan._replace(
        pairs=[(numbers[b], numbers[p]) for b, p in plan.pairs if b in numbers and p in numbers],
        uses=[[uses[b] for b in kept] for uses in plan.uses],
        waits=[[numbers.get(column[b], numbers[b]) for b in kept] for column in plan.waits],
    )
    return part, [worths[b] for b in kept]


def wrong_within(program, plan, worths, multipliers, words, folder):
    """What the program answers wrongly where the mine of nodes is made of the blocks of the ultimate pit alone."""
    files, at = words
    mine = [w for o, n in zip(files[::2], files[1::2]) if o[2:] in MINE for w in (o, n)]
    found = run(program, ["solve", *mine, *at], folder)[1].decode()
    (folder / "pit.cert").write_text(found)
    kept = [int(line.split()[1]) for line in found.splitlines() if line.startswith("PIT ")]
    bound, _ = bound_of(*part_of(plan, worths, kept), multipliers)
    best = bound_of(plan, worths, multipliers)[1]
    if best > bound:
        return "the enumeration has a schedule of %d above the bound %d within the pit" % (
            best,
            bound,
        )
    within = ["--pit", "pit.cert"]
    solved = run(program, ["solve", *files, *at, *within], folder)
    (folder / "c.cert").write_bytes(solved[1])
    must = 0, b"BOUND %s\n" % decimal(bound, 15).encode(), b""
    answer = run(program, ["bound", *files, *within, "c.cert"], folder)
    nodes = b"BLOCKS %d\n" % (PERIODS * len(kept))
    if solved[0] or nodes not in solved[1] or answer != must:
        return "%s where %s must come within the pit, by %s" % (answer, must, solved)
    must = beside(plan, worths, bound)
    answer = run(program, ["schedule", *files, *within, "--best", "c.cert", "s.txt"], folder)
    if answer != must:
        return "%s where %s must come within the pit, by %s" % (answer, must, solved)
    for other in changed(found) if len(kept) % 2 else ():
        (folder / "pit.cert").write_text(other)
        refused = run(program, ["check", *mine, "pit.cert"], folder)
        answer = run(program, ["bound", *files, *within, "c.cert"], folder)
        if refused[0] and answer != refused:
            return "%s of a pit where check says %s, by %r" % (answer, refused, other)
    return ""


def wrong_in(program, seed, folder):
    """What the program answers wrongly of a mine whose files are made in a folder."""
    chance = random.Random("bound %d" % seed)
    plan = made_up(seed)
    written(plan, folder)
    multipliers = multipliers_of(chance)
    with (folder / "p.toml").open("a") as periods:
        periods.write("multipliers = %s\n" % multipliers)
    factor, worths = 0, [1000 * worth for worth in plan.worths]
    files, at = VALUES, []
    if seed % 2:
        factor, worths = with_prices(plan, folder, chance)
        files, at = PRICES, ["--factor", str(factor)]
    bound, best = bound_of(plan, worths, multipliers)
    if best > bound:
        return "the enumeration has a schedule of %d above the bound %d" % (best, bound)
    must = 0, b"BOUND %s\n" % decimal(bound, 15).encode(), b""
    # the machine lists the pairs of so few nodes, and pseudoflow searches them by those of the blocks
    by = ["--method", "pseudoflow"] if seed % 4 < 2 else []
    solved = run(program, ["solve", *files, *at, *by], folder)
    certificate = solved[1].decode()
    (folder / "c.cert").write_text(certificate)
    answer = run(program, ["bound", *files, "c.cert"], folder)
    if solved[0] or answer != must:
        return "%s where %s must come, by %s" % (answer, must, solved)
    compared = beside(plan, worths, bound)
    words = ["schedule", *files, "--best", "c.cert", "s.txt"]
    answer = run(program, words, folder)
    if answer != compared:
        return "%s where %s must come, by %s" % (answer, compared, solved)
    for other in changed(certificate) if seed % 10 < 2 else ():
        (folder / "c.cert").write_text(other)
        answer = run(program, ["bound", *files, "c.cert"], folder)
        if answer[0] not in (1, 3) and answer != must:
            return "%s where %s or a refusal must come, by %r" % (answer, must, other)
        told = run(program, words, folder)
        if told != (answer if answer != must else compared):
            return "%s of a schedule where bound says %s, by %r" % (told, answer, other)
    return wrong_within(program, plan, worths, multipliers, (files, at), folder)


def wrong(program, seed):
    """What the program answers wrongly of a mine; nothing where all is right."""
    with tempfile.TemporaryDirectory() as folder:
        return wrong_in(program, seed, Path(folder))


def too_many_nodes(program):
    """What the program answers wrongly of more than 2^24 nodes: 16,778 blocks and 1,000 periods."""
    blocks = range(16_778)
    with tempfile.TemporaryDirectory() as name:
        folder = Path(name)
        (folder / "m.prec").write_text("".join("%d 0\n" % b for b in blocks))
        values = "".join("%d 0\n" % b for b in blocks)
        head = "NBLOCKS: %d\nOBJECTIVE_FUNCTION:\n" % len(blocks)
        (folder / "m.upit").write_text(head + values)
        (folder / "m.blocks").write_text("".join("%d 0 0 %d\n" % (b, b) for b in blocks))
        (folder / "p.toml").write_text(
            "weights = %s\nresources = []\ncapacities = []\nmultipliers = []\n" % ([1] * 1000)
        )
        (folder / "c.cert").write_text("")
        must = 3, b"", b"fault: nodes TooManyNodes\n"
        for words in (["solve", *VALUES], ["bound", *VALUES, "c.cert"]):
            answer = run(program, words, folder)
            if answer != must:
                return "%s where %s must come, of %s" % (answer, must, words[0])
    return ""


def try_all(program):
    """Tries every mine, and gives how many were bounded as they must be and how many not."""
    results = made_up_plans.each(wrong, 200, program)
    return made_up_plans.counted("bound", [*results, too_many_nodes(program)])
