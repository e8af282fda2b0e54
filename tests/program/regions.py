"""Compares what `pit slopes` writes of slopes by region with what Python says of the same mines, which are made up: boxes
with holes, with places below nothing, in any order of blocks, with up to four regions whose offsets lead far out of them.

Python looks at every pair of blocks and asks whether the place of the one less that of the other is listed for the region
of the other. A pair is left out with --reduce where a third block is between by the same question.
"""
import random
import tempfile
from itertools import product
from pathlib import Path

from program import many_mines
from program.refused_calls import run

MINES = 200
FAR = (
    -(2**31),
    2**31 - 4,
)  # a box may lie at the ends of the coordinates, where nothing may go round


def made_up(seed):
    """The places and regions of blocks, the offsets of each region, whether up is plus, and whether to reduce."""
    chance = random.Random(seed)
    corner = [chance.choice((0, -2, 5, *FAR)) for _ in range(3)]
    box = list(product(*(range(least, least + chance.randrange(1, 5)) for least in corner)))
    places = [place for place in box if chance.random() < 0.8] or box[:1]
    chance.shuffle(places)
    slopes = [offsets_of(chance) for _ in range(chance.randrange(1, 5))]
    regions = [chance.randrange(len(slopes)) for _ in places]
    return places, regions, slopes, chance.random() < 0.5, chance.random() < 0.5


def offsets_of(chance):
    """Up to twelve offsets, which may come twice."""
    across = [0, 1, -1, 2, -2, 3]
    return [
        [chance.choice(across), chance.choice(across), chance.randrange(1, 4)]
        for _ in range(chance.randrange(13))
    ]


def precedence(places, regions, slopes, is_plus, is_reduced):
    """The lines that have to be written."""

    def offset(b, p):
        x, y, z = (to - by for by, to in zip(places[b], places[p]))
        return [x, y, z if is_plus else -z]

    blocks = range(len(places))
    above = [{p for p in blocks if offset(b, p) in slopes[regions[b]]} for b in blocks]
    if is_reduced:
        above = [{p for p in row if not any(p in above[q] for q in row)} for row in above]
    return "".join(
        " ".join(map(str, (b, len(row), *sorted(row)))) + "\n" for b, row in enumerate(above)
    )


def wrong(program, seed):
    """What is wrong with the answer for a mine, or None."""
    places, regions, slopes, is_plus, is_reduced = mine = made_up(seed)
    has_column = len(slopes) > 1
    with tempfile.TemporaryDirectory() as room:
        folder = Path(room)
        rows = [
            "%d %d %d %d 7 %d\n" % (b, *place, region)
            for b, (place, region) in enumerate(zip(places, regions))
        ]
        random.Random(seed).shuffle(rows)
        (folder / "b").write_text("".join(rows))
        (folder / "s").write_text(
            'slopes = %r\n%sup = "%s"\n'
            % (slopes, "region = 1\n" * has_column, "plus" if is_plus else "minus")
        )
        words = ["slopes", "--blocks", "b", "--pattern", "settings", "--settings", "s"] + [
            "--reduce"
        ] * is_reduced
        answer = run(program, words, folder)
    wanted = (0, precedence(*mine).encode(), b"")
    return None if answer == wanted else "%r in place of %r" % (answer, wanted)


def try_all(program):
    """Tries every mine."""
    return many_mines.tried("regions", lambda seed: wrong(program, seed), MINES)
