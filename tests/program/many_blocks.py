"""Runs `shells --by-block` and `value` on a mine of more than 65,536 blocks and more than 2^20 pairs, and compares what they
print with what this file works out.

The mine is 2,200 stacks of 32 blocks. Each block rests on every earlier one of its stack, so a pit takes the first so many
blocks of each stack: the best pit is found stack by stack, and needs no solver.
"""
import random
import tempfile
from pathlib import Path

from program.refused_calls import run

STACKS, HEIGHT = 2_200, 32
FACTORS = (400, 700, 1000)
SETTINGS = "revenue = 0\ncost = 1\nfactors = [%s]\n" % ", ".join(map(str, FACTORS))
MINE = ["--prec", "p", "--blocks", "b", "--settings", "s"]
# The design has every block but the first one of these stacks, on which all others of the stack rest.
LACKING = (0, 1, 2)
MOST_TOLD = 20


def mine():
    """The revenue and the cost of each block, in whole units."""
    chance = random.Random(68)
    return [(chance.randrange(20), chance.randrange(1, 12)) for _ in range(STACKS * HEIGHT)]


def lay_out(prices, folder):
    stacks = range(0, len(prices), HEIGHT)
    rows = [(b, range(b - b % HEIGHT, b)) for b in range(len(prices))]
    (folder / "s").write_text(SETTINGS)
    (folder / "b").write_text(
        "".join("%d 0 0 0 %d %d\n" % (b, *price) for b, price in enumerate(prices))
    )
    (folder / "p").write_text(
        "".join(
            "%d %d%s\n" % (b, len(under), "".join(" %d" % p for p in under)) for b, under in rows
        )
    )
    (folder / "d").write_text(
        "".join("%d\n" % b for b in range(len(prices)) if b not in {stacks[k] for k in LACKING})
    )


def worth(price, factor):
    """What a block is worth, in thousandths."""
    return factor * price[0] - 1000 * price[1]


def printed(thousandths):
    """An amount as it is printed: without zeros at its end."""
    whole, rest = divmod(abs(thousandths), 1000)
    fraction = ("%03d" % rest).rstrip("0")
    return "-" * (thousandths < 0) + str(whole) + ("." + fraction if fraction else "")


def height_of(prices, factor):
    """How many blocks of a stack are in the best pit, and what they are worth: the fewest of those that are worth most."""
    best = (0, 0)
    total = 0
    for k, price in enumerate(prices, start=1):
        total += worth(price, factor)
        best = max(best, (total, -k))
    return -best[1], best[0]


def wanted_shells(prices):
    """The lines of `shells` and the table of the blocks."""
    lines, shells = "", [""] * len(prices)
    for factor in FACTORS:
        found = [
            height_of(prices[first : first + HEIGHT], factor)
            for first in range(0, len(prices), HEIGHT)
        ]
        lines += "SHELL %d %d %s\n" % (
            factor,
            sum(k for k, _ in found),
            printed(sum(w for _, w in found)),
        )
        for stack, (height, _) in enumerate(found):
            for b in range(stack * HEIGHT, stack * HEIGHT + height):
                shells[b] = shells[b] or str(factor)
    return lines, "block,shell\n" + "".join("%d,%s\n" % row for row in enumerate(shells))


def wanted_value(prices, factor):
    """What `value` prints of the design."""
    first = {k * HEIGHT for k in LACKING}
    held = [worth(price, factor) for b, price in enumerate(prices) if b not in first]
    needs = [(b, low) for low in sorted(first) for b in range(low + 1, low + HEIGHT)]
    lines = "DESIGN %d %s\nOPEN %d\n" % (len(held), printed(sum(held)), len(needs))
    return lines + "".join("NEEDS %d %d\n" % need for need in needs[:MOST_TOLD])


def try_all(program):
    """Tries both commands, and gives how many answered as they must and how many not."""
    prices = mine()
    lines, table = wanted_shells(prices)
    with tempfile.TemporaryDirectory() as room:
        folder = Path(room)
        lay_out(prices, folder)
        shells = run(program, ["shells", *MINE, "--by-block", "t"], folder)
        written = folder / "t"
        by_block = written.read_text() if written.exists() else ""
        value = run(program, ["value", *MINE, "--factor", "700", "d"], folder)
    wrong = []
    if shells != (0, lines.encode(), b""):
        wrong.append("shells of many blocks: %r in place of %r" % (shells, lines))
    if by_block != table:
        wrong.append("the table of many blocks isn't that of the stacks")
    if value != (1, wanted_value(prices, 700).encode(), b""):
        wrong.append("value of many blocks: %r in place of %r" % (value, wanted_value(prices, 700)))
    for line in wrong:
        print(line[:600])
    return 3 - len(wrong), len(wrong)
