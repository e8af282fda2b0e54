"""Runs every solver of the built program on mines that are made up: small ones, whose best pit is found by going through
all their closed sets; scattered ones of up to 300 blocks; and chains of 4,000.

Mines of 1,001 to 20,000 blocks are solved without --method: ore bodies in waste, scattered pairs, and long chains,
on which the push-relabel machine would need more steps than it has, so that these have an answer only where pseudoflow
is tried.

A certificate at GROUP PAIR is read by plain_check.py, which says whether its flow proves the pit; at GROUP SCALED, which
that doesn't read, the pit must be the same.
"""
import os
import random
import tempfile
from collections import defaultdict, namedtuple
from concurrent.futures import ThreadPoolExecutor
from pathlib import Path

from program import plain_check
from program.refused_calls import run

SOLVERS = (
    ("pseudoflow", 1),
    ("push-relabel", 1),
    ("push-relabel", 2),
    ("lock-free", 1),
    ("lock-free", 2),
)
USUAL = ((None, None), (None, 2))  # without --method, and without --workers
SHAPES = ("chain", "star", "cycle", "scattered")

# Its worths, its pairs, what its best pit is worth and how many blocks that has (less than nothing), where that is known, and who solves it.
Mine = namedtuple("Mine", "worths pairs best solvers")


def pairs_of(chance, shape, blocks):
    """The pairs of a mine, each block before the one that it rests on."""
    if shape == "chain":
        return [(b, b + 1) for b in range(blocks - 1)]
    if shape == "star":
        return [(b, 0) for b in range(1, blocks)]
    if shape == "cycle":
        return [(b, (b + 1) % blocks) for b in range(blocks)]
    return [
        (b, chance.randrange(blocks)) for b in range(blocks) for _ in range(chance.randrange(5))
    ]


def worths_of(chance, blocks):
    """A worth for each block, from -10 to 10; in some mines each other block is worth nothing."""
    has_nothing = chance.randrange(4) == 0
    return [0 if has_nothing and b % 2 == 0 else chance.randrange(-10, 11) for b in range(blocks)]


def best_of_all(worths, pairs):
    """The worth and the number of blocks of the best closed set: no other is worth more, and none as good has fewer blocks."""
    blocks = len(worths)
    sets = ({b for b in range(blocks) if chosen >> b & 1} for chosen in range(1 << blocks))
    return max(
        (sum(worths[b] for b in one), -len(one))
        for one in sets
        if all(p in one for b, p in pairs if b in one)
    )


def small_mine(seed):
    """A mine of one to ten blocks."""
    chance = random.Random(seed)
    blocks, shape = seed // 20 + 1, SHAPES[seed % 4]
    worths, pairs = worths_of(chance, blocks), pairs_of(chance, shape, blocks)
    return Mine(worths, pairs, best_of_all(worths, pairs), SOLVERS)


def scattered_mine(seed):
    """A mine of 50 to 300 blocks."""
    chance = random.Random(seed)
    blocks = chance.randrange(50, 301)
    return Mine(worths_of(chance, blocks), pairs_of(chance, "scattered", blocks), None, SOLVERS)


def long_chain(ore, from_below, half=2_000):
    """Half the blocks are ore, each of which rests on the next one up, under as many that cost 1; numbered from below or above."""
    worths, pairs = [ore] * half + [-1] * half, pairs_of(None, "chain", 2 * half)
    if not from_below:
        last = 2 * half - 1
        worths, pairs = worths[::-1], [(last - b, last - p) for b, p in pairs]
    return Mine(worths, pairs, (half * (ore - 1), -2 * half if ore > 1 else 0), SOLVERS[:1])


def ore_bodies(blocks, side, radius):
    """So many blocks in benches of side by side, each of which costs 1 to 3 and rests on five of the bench above; ore
    within a radius of some centers pays 1 to 30 beside that.
    """
    chance = random.Random(blocks)
    places = [(b // side // side, b // side % side, b % side) for b in range(blocks)]
    centers = chance.sample(places, 3)
    worths = [-chance.randrange(1, 4) for _ in places]
    for b, place in enumerate(places):
        if any(
            sum((u - v) ** 2 for u, v in zip(place, center)) <= radius**2 for center in centers
        ):
            worths[b] += chance.randrange(1, 31)
    pairs = []
    for b, (z, y, x) in enumerate(places):
        for j, i in ((y, x), (y - 1, x), (y + 1, x), (y, x - 1), (y, x + 1)):
            if z > 0 and 0 <= j < side and 0 <= i < side:
                pairs.append((b, ((z - 1) * side + j) * side + i))
    return Mine(worths, pairs, None, USUAL)


def large_scattered_mine(blocks):
    """A mine of so many blocks, with up to four pairs each."""
    chance = random.Random(blocks)
    return Mine(worths_of(chance, blocks), pairs_of(chance, "scattered", blocks), None, USUAL)


def longer_chain(ore, from_below):
    """10,000 blocks of ore under 10,000 that cost 1, as in `long_chain`."""
    return long_chain(ore, from_below, half=10_000)._replace(solvers=USUAL)


def usual_mines():
    """The mines of 1,001 to 20,000 blocks."""
    mines = [
        ore_bodies(blocks, side, radius)
        for blocks, side, radius in (
            (1_001, 12, 3),
            (5_000, 20, 4),
            (10_000, 25, 5),
            (20_000, 32, 6),
        )
    ]
    mines += [large_scattered_mine(blocks) for blocks in (1_001, 3_000, 10_001)]
    return mines + [longer_chain(ore, from_below) for ore in (1, 2) for from_below in (True, False)]


def texts_of(worths, pairs):
    """The mine as .upit and .prec, and the predecessors of each block that has some."""
    rests = defaultdict(set)
    for b, p in pairs:
        if p != b:
            rests[b].add(p)
    upit = "NBLOCKS: %d\nOBJECTIVE_FUNCTION:\n" % len(worths) + "".join(
        "%d %d\n" % row for row in enumerate(worths)
    )
    prec = "".join(
        "%d %d%s\n" % (b, len(rests[b]), "".join(" %d" % p for p in sorted(rests[b])))
        for b in sorted(rests)
    )
    return upit, prec, rests


def pit_by(program, folder, solver, rests, worths):
    """The pit that a solver finds, or what is wrong with its answer, as text."""
    method, workers = solver
    words = ["solve", "--prec", "p", "--upit", "u"]
    words += (["--method", method] if method else []) + (
        ["--workers", str(workers)] if workers else []
    )
    status, certificate, errors = run(program, words, folder)
    if (status, errors) != (0, b""):
        return "status %s, %r, %r" % (status, certificate, errors)
    if method == "lock-free":
        return {int(line[4:]) for line in certificate.split(b"\n") if line.startswith(b"PIT ")}
    said = plain_check.proof_of(certificate)
    return plain_check.refusal([10**9 * worth for worth in worths], rests, said) or said.pit


def wrong(program, mine):
    """What is wrong with the pits of a mine, or None."""
    with tempfile.TemporaryDirectory() as room:
        folder = Path(room)
        upit, prec, rests = texts_of(mine.worths, mine.pairs)
        (folder / "u").write_text(upit)
        (folder / "p").write_text(prec)
        pits = [pit_by(program, folder, solver, rests, mine.worths) for solver in mine.solvers]
    for solver, pit in zip(mine.solvers, pits):
        if pit != pits[0] or isinstance(pit, str):
            return "%s by %s: %s, and by %s %s" % (*solver, pit, mine.solvers[0][0], pits[0])
    found = sum(mine.worths[b] for b in pits[0]), -len(pits[0])
    return None if mine.best in (None, found) else "%s in place of %s" % (found, mine.best)


def try_all(program):
    """Tries every mine, and gives how many were solved as they must be and how many not."""
    mines = [small_mine(seed) for seed in range(200)] + [
        scattered_mine(seed) for seed in range(100)
    ]
    mines += [
        long_chain(ore, from_below) for ore in (1, 2) for from_below in (True, False)
    ] + usual_mines()
    with ThreadPoolExecutor(len(os.sched_getaffinity(0))) as pool:
        results = list(pool.map(lambda mine: wrong(program, mine), mines))
    for number, line in enumerate(results):
        if line:
            print("mine %d: %s" % (number, line[:300]))
    failed = sum(map(bool, results))
    return len(mines) - failed, failed
