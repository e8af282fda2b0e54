#!/usr/bin/env python3
"""Measures `pit value` beside `pit check` over the same model: CPU seconds and peak memory.

    bench/value.py [--models MODEL ..] [--rounds N] [--core N]

The design is the upper half of the blocks, by number, so that no pair leads out of it; once alone, and once with `--best` and
the certificate that `pit check` reads too. All run on one core, in turns, and the best of the rounds counts. This is a
measurement and no test: it holds no time against a limit.
"""
import os
import sys
import tempfile

from check import certificate_of
from common import PIT, adopt_orphans, arguments, best, files_of, model, rounds, size_of, table


def upper_half(blocks, folder):
    """A design: levels are numbered from below, so the second half of the numbers is closed."""
    design = os.path.join(folder, "design")
    with open(design, "w") as out:
        out.writelines(f"{b}\n" for b in range(blocks // 2, blocks))
    return design


def row_of(mine, given):
    blocks, pairs = size_of(mine.prec)
    with tempfile.TemporaryDirectory() as folder:
        cert, design = certificate_of(mine, "pair", folder), upper_half(blocks, folder)
        value = [str(PIT), "value"] + files_of(mine)
        checked, alone, compared = rounds(
            [
                [str(PIT), "check"] + files_of(mine) + [cert],
                value + [design],
                value + ["--best", cert, design],
            ],
            given.rounds,
            given.core,
        )
    if any(run.status for run in checked + alone + compared):
        sys.exit(f"bench: {mine.name}: a run ended otherwise:\n{compared[-1].output}")
    if (
        not compared[-1].output.startswith(f"DESIGN {blocks - blocks // 2} ")
        or alone[-1].output not in compared[-1].output
    ):
        sys.exit(
            f"bench: {mine.name}: the two answers disagree:\n{alone[-1].output}\n{compared[-1].output}"
        )
    cpu, peak = best(checked)
    told = [mine.name, f"{blocks:,}", f"{pairs:,}", f"{cpu:.3f}", f"{peak:.1f}"]
    for runs in (alone, compared):
        own, room = best(runs)
        told += [f"{own:.3f}", f"{own / cpu:.2f}", f"{room:.1f}"]
    return told


def main():
    given = arguments(__doc__, ["marvin", "b350k", "b2m"]).parse_args()
    adopt_orphans()
    table(
        [
            "model",
            "blocks",
            "pairs",
            "check s",
            "MB",
            "value s",
            "times",
            "MB",
            "value --best s",
            "times",
            "MB",
        ],
        [row_of(model(name), given) for name in given.models],
    )


if __name__ == "__main__":
    main()
