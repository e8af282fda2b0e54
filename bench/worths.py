#!/usr/bin/env python3
"""Measures `Prices::worths_at` of the crate `shells` on 1,000,000 blocks: the seconds that pass by several threads and by one.

    bench/worths.py

bench/worths.rt.txt is a program that calls it; the kit proves and builds it in a temporary folder, over the crates that a build
has kept, which takes a minute or two. The program times each call, and beside it a loop that asks for one block's worth after the
other, and compares the lists. The kit's rayon has no pool, and no word for the number of threads: it makes two
pieces for each processor that it may use, so `taskset` decides. This is a measurement and no test: it holds no time against a limit.
"""
import argparse
import statistics
import subprocess
import sys
import tempfile
from pathlib import Path

from common import HERE, table
from program import program


def timed(made, cores):
    """The milliseconds of each call, and of each loop, on these cores."""
    said = subprocess.run(
        ["taskset", "-c", cores, made], stdout=subprocess.PIPE, text=True, check=True
    ).stdout
    rows = [list(map(int, line.split())) for line in said.splitlines()]
    if not rows or any(wrong for _, _, wrong in rows):
        sys.exit(f"bench: on the cores {cores} the worths differ, or there are none")
    return [at / 1000 for at, _, _ in rows], [loop / 1000 for _, loop, _ in rows]


def main():
    words = argparse.ArgumentParser(
        description=__doc__, formatter_class=argparse.RawDescriptionHelpFormatter
    )
    words.add_argument(
        "--cores",
        nargs="+",
        default=["0", "0-1", "0-3"],
        metavar="LIST",
        help="lists of cores, for taskset (0, 0-1, 0-3)",
    )
    words.add_argument(
        "--rounds",
        type=int,
        default=3,
        metavar="N",
        help="runs of the program of forty calls each (3)",
    )
    given = words.parse_args()
    with tempfile.TemporaryDirectory(prefix="pit-worths-") as room:
        made = program(Path(room), "worths", ["shells", "fixed_worth"], HERE / "worths.rt.txt")
        calls, loops = {cores: [] for cores in given.cores}, []
        for _ in range(given.rounds):
            for cores in given.cores:
                at, loop = timed(made, cores)
                calls[cores] += at
                loops += loop
    runs = [("a loop over worth", loops)] + [
        (f"worths_at on cores {cores}", calls[cores]) for cores in given.cores
    ]
    first = statistics.median(calls[given.cores[0]])
    table(
        ["run", "calls", "least ms", "median ms", f"median, of that on cores {given.cores[0]}"],
        [
            [
                name,
                str(len(all_of)),
                f"{min(all_of):.2f}",
                f"{statistics.median(all_of):.2f}",
                f"{statistics.median(all_of) / first:.2f}",
            ]
            for name, all_of in runs
        ],
    )


if __name__ == "__main__":
    main()
