#!/usr/bin/env python3
"""Measures `pit slopes` on full boxes of blocks: seconds and peak memory, and checks its answers by counting.

    bench/slopes.py

A cube of 1,000,000 blocks by the small patterns, and a box of 480,000 by cones: every pair, and the reduced ones. The pairs of
a full box can be counted by its sides. Then `nine` beside peers/slopes_writer, in turns, whose text must be the same: of the cube
in each regular order of its blocks and in none, and of the blocks of the cube that lie under a hilly ground. This is a measurement
and no test: it holds no time against a limit.
"""
import itertools
import math
import os
import random
import sys
import tempfile

from common import PIT, adopt_orphans, best, peer, rounds, run, table

CUBE = (100, 100, 100)
BOX = (100, 80, 60)
FIVE = [(0, 0, 1), (1, 0, 1), (-1, 0, 1), (0, 1, 1), (0, -1, 1)]
NINE = [(x, y, 1) for x in (-1, 0, 1) for y in (-1, 0, 1)]


def cone(levels, run, rise):
    """The offsets of a cone."""
    reach = range(-levels * run // rise - 1, levels * run // rise + 2)
    return [
        (x, y, z)
        for z in range(1, levels + 1)
        for x in reach
        for y in reach
        if (x * x + y * y) * rise * rise <= (z * run) ** 2
    ]


def places(sides, offset):
    """How many blocks of a full box have a block at the offset."""
    count = 1
    for side, step in zip(sides, offset):
        count *= max(side - abs(step), 0)
    return count


def lies_between(step, whole):
    """Whether a block at the step is in each box that has both ends of the whole."""
    return all(min(0, whole[i]) <= step[i] <= max(0, whole[i]) for i in range(3))


def less(whole, step):
    return tuple(whole[i] - step[i] for i in range(3))


def reduced(offsets):
    """The offsets whose pairs are left in a full box: no two of the pattern lead to them over a block that is always there. Those
    to which two lead only over blocks that may lie outside are refused, since their pairs can't be counted by the sides.
    """
    known = set(offsets)
    steps = {whole: [step for step in offsets if less(whole, step) in known] for whole in offsets}
    for whole, found in steps.items():
        if found and not any(lies_between(step, whole) for step in found):
            sys.exit(f"bench: {whole} is reached over the outside alone")
    return [whole for whole, found in steps.items() if not found]


def box_of(sides, order="xyz"):
    """The places of a full box. The first axis of the order runs fastest."""
    axes = ["xyz".index(axis) for axis in reversed(order)]
    for at in itertools.product(*(range(sides[axis]) for axis in axes)):
        yield tuple(at[axes.index(axis)] for axis in range(3))


def shuffled(found):
    """The same places, in no order."""
    found = list(found)
    random.Random(1).shuffle(found)
    return found


def under_ground(found):
    """The places below hills: about two thirds of the cube."""
    return [
        (x, y, z)
        for x, y, z in found
        if z < 66 + 20 * math.sin(x / 9) * math.cos(y / 13) + 8 * math.sin(x * y / 7)
    ]


def write_blocks(name, found):
    """Blocks at these places, in their order."""
    with open(name, "w") as out:
        for b, (x, y, z) in enumerate(found):
            out.write(f"{b} {x} {y} {z} 1 2.5\n")


def beside(name, file):
    """A row for pattern nine beside the plain writer."""
    ours, theirs = rounds(
        [
            [str(PIT), "slopes", "--blocks", file, "--pattern", "nine"],
            [peer("slopes_writer"), file],
        ],
        3,
        0,
    )
    if ours[0].status != 0 or ours[0].output != theirs[0].output:
        sys.exit(f"bench: the two texts of {name} differ")
    (seconds, peak), (peer_seconds, peer_peak) = best(ours), best(theirs)
    return [
        name,
        f"{seconds:.2f}",
        f"{peer_seconds:.2f}",
        f"{seconds / peer_seconds:.1f}",
        f"{peak:.0f}",
        f"{peer_peak:.0f}",
        f"{peak / peer_peak:.1f}",
    ]


def measured(file, sides, words, offsets):
    """A row for a run whose pairs are those of these offsets."""
    answer = run([str(PIT), "slopes", "--blocks", file, "--pattern", *words], 0)
    pairs = sum(int(line.split(None, 2)[1]) for line in answer.output.splitlines())
    wanted = sum(places(sides, offset) for offset in offsets)
    if answer.status != 0 or pairs != wanted:
        sys.exit(f"bench: {words}: status {answer.status}, {pairs} pairs and not {wanted}")
    return [
        " ".join(words),
        f"{sides[0] * sides[1] * sides[2]:,}",
        f"{pairs:,}",
        f"{len(answer.output) / 1e6:.1f}",
        f"{answer.cpu:.2f}",
        f"{answer.wall:.2f}",
        f"{answer.peak:.0f}",
    ]


def compared(folder):
    """Pattern nine of the cube beside the plain writer: in each regular order of the blocks, in none, and with blocks missing."""
    files = [
        ("x fastest, then y", box_of(CUBE, "xyz")),
        ("y fastest, then x", box_of(CUBE, "yxz")),
        ("z fastest, then x", box_of(CUBE, "zxy")),
        ("z fastest, then y", box_of(CUBE, "zyx")),
        ("no order", shuffled(box_of(CUBE))),
        ("under a ground, x fastest", under_ground(box_of(CUBE, "xyz"))),
        ("under a ground, z fastest", under_ground(box_of(CUBE, "zyx"))),
        ("under a ground, no order", shuffled(under_ground(box_of(CUBE)))),
    ]
    file = os.path.join(folder, "compared.blocks")
    for name, found in files:
        write_blocks(file, found)
        yield beside(name, file)


def main():
    adopt_orphans()
    rows = []
    with tempfile.TemporaryDirectory() as folder:
        cube, box = os.path.join(folder, "cube.blocks"), os.path.join(folder, "box.blocks")
        write_blocks(cube, box_of(CUBE))
        write_blocks(box, box_of(BOX))
        for pattern, offsets in [("five", FIVE), ("nine", NINE)]:
            rows.append(measured(cube, CUBE, [pattern], offsets))
        eight, twelve = cone(8, 3, 5), cone(12, 3, 5)
        rows.append(measured(box, BOX, ["cone:8:3:5"], eight))
        rows.append(measured(box, BOX, ["cone:8:3:5", "--reduce"], reduced(eight)))
        rows.append(measured(box, BOX, ["cone:12:3:5", "--reduce"], reduced(twelve)))
        beside_peer = list(compared(folder))
    table(["pattern", "blocks", "pairs", "MB of text", "CPU s", "wall s", "peak MB"], rows)
    print()
    table(["nine, blocks", "pit s", "peer s", "ratio", "pit MB", "peer MB", "ratio"], beside_peer)


if __name__ == "__main__":
    main()
