#!/usr/bin/env python3
"""Measures `pit shells` at twenty factors beside one `pit solve` of the same priced model, by several workers, and with the
shell of each block written to a file.

    bench/shells.py                              marvin, b350k and b2m, by pseudoflow
    bench/shells.py --method M --workers 1 2 4   by another method, by so many workers

First the CPU seconds and the peak memory of `pit shells` and of `pit solve --factor 1000`, both on one core, in turns. Then the
seconds that pass and the peak memory of `pit shells` by each number of workers, on all of --cores, in turns. Then both of it
with and without `--by-block`, on one core. Of the rounds the fewest seconds and the least peak count. A table is printed only
where the answers are right as far as can be seen: a line for each factor of the settings, no shell smaller than the one before,
the line of the solved factor as `pit check` says of the certificate, the same lines by any number of workers, and in the file as
many blocks up to each shell as its line says. This is a measurement and no test: it holds no time against a limit.
"""
import os
import re
import sys
import tempfile
from collections import Counter
from pathlib import Path

from common import (
    PIT,
    adopt_orphans,
    arguments,
    best,
    model,
    priced_files_of,
    rounds,
    run,
    size_of,
    table,
)


def factors_of(settings):
    listed = re.search(r"^factors *= *\[([^]]*)\]", Path(settings).read_text(), re.M)
    return listed[1].replace(",", " ").split() if listed else []


def shells_of(mine, runs):
    """What the runs print, which must be one and the same: count and worth of each factor's pit."""
    lines = [line.split() for line in runs[0].output.splitlines()]
    if any(r.status != 0 or r.output != runs[0].output for r in runs) or any(
        len(line) != 4 for line in lines
    ):
        sys.exit(
            f"bench: {mine.name}: the runs of pit shells differ, or have no table:\n{runs[0].output[:2000]}"
        )
    counts = [int(count) for _, _, count, _ in lines]
    if [factor for _, factor, _, _ in lines] != factors_of(mine.settings) or counts != sorted(
        counts
    ):
        sys.exit(
            f"bench: {mine.name}: not the factors of the settings, or not nested:\n{runs[0].output}"
        )
    return {factor: f"{count} {worth}" for _, factor, count, worth in lines}


def pit_of(mine, solved, core):
    """What `pit check` says of the certificate: count and worth."""
    with tempfile.NamedTemporaryFile("w", suffix=".cert") as certificate:
        certificate.write(solved.output + "\n")
        certificate.flush()
        said = run([str(PIT), "check"] + priced_files_of(mine) + [certificate.name], core).output
    if solved.status != 0 or not said.startswith("ACCEPTED "):
        sys.exit(f"bench: {mine.name}: no pit: {solved.output[:200]} {said}")
    return " ".join(said.split()[1:3])


def beside_one_solve(mine, given, shells):
    """The row of one model, and the shells."""
    solve = (
        [str(PIT), "solve"]
        + priced_files_of(mine)
        + ["--method", given.method, "--factor", given.factor]
    )
    one, all_factors = rounds([solve, shells], given.rounds, given.core)
    found = shells_of(mine, all_factors)
    pit = pit_of(mine, one[-1], given.core)
    if found.get(given.factor, pit) != pit:
        sys.exit(
            f"bench: {mine.name}: at factor {given.factor} shells says {found[given.factor]}, and solve {pit}"
        )
    (cpu, peak), (shells_cpu, shells_peak) = best(one), best(all_factors)
    blocks, pairs = size_of(mine.prec)
    return [
        mine.name,
        f"{blocks:,}",
        f"{pairs:,}",
        str(len(found)),
        f"{cpu:.3f}",
        f"{shells_cpu:.3f}",
        f"{shells_cpu / cpu:.1f}",
        f"{peak:.1f}",
        f"{shells_peak:.1f}",
        f"{shells_peak / peak:.2f}",
    ], found


def by_workers(mine, given, shells, found):
    """The rows of one model."""
    runs = rounds(
        [shells + ["--workers", str(n)] for n in given.workers], given.rounds, given.cores
    )
    if shells_of(mine, [r for own in runs for r in own]) != found:
        sys.exit(f"bench: {mine.name}: other shells on several cores")
    first, rows = min(r.wall for r in runs[0]), []
    for n, own in zip(given.workers, runs):
        wall, (cpu, peak) = min(r.wall for r in own), best(own)
        rows.append(
            [mine.name, str(n), f"{wall:.2f}", f"{wall / first:.2f}", f"{cpu:.2f}", f"{peak:.1f}"]
        )
    return rows


def counts_in(file):
    """How many blocks the table of blocks has up to each of its shells."""
    shells = [line.split(",")[1] for line in Path(file).read_text().splitlines()[1:]]
    held = Counter(int(shell) for shell in shells if shell)
    return {str(factor): sum(held[k] for k in held if k <= factor) for factor in sorted(held)}, len(
        shells
    )


def with_table(mine, given, shells, found):
    """The row of one model: without the table of blocks and with it."""
    with tempfile.TemporaryDirectory() as folder:
        file = os.path.join(folder, "shells.csv")
        plain, tabled = rounds([shells, shells + ["--by-block", file]], given.rounds, given.core)
        counts, blocks = counts_in(file)
        megabytes = os.path.getsize(file) / 1e6
    said = {factor: int(line.split()[0]) for factor, line in found.items()}
    if shells_of(mine, plain + tabled) != found or any(
        said[factor] != count for factor, count in counts.items()
    ):
        sys.exit(f"bench: {mine.name}: the table of blocks isn't that of the lines")
    (cpu, peak), (tabled_cpu, tabled_peak) = best(plain), best(tabled)
    return [
        mine.name,
        f"{blocks:,}",
        f"{megabytes:.1f}",
        f"{cpu:.3f}",
        f"{tabled_cpu:.3f}",
        f"{tabled_cpu / cpu:.3f}",
        f"{peak:.1f}",
        f"{tabled_peak:.1f}",
    ]


def main():
    words = arguments(__doc__, ["marvin", "b350k", "b2m"])
    words.add_argument(
        "--method",
        default="pseudoflow",
        metavar="M",
        help="the method of both commands (pseudoflow)",
    )
    words.add_argument(
        "--workers",
        nargs="+",
        type=int,
        default=[1, 4],
        metavar="W",
        help="numbers of workers (1 and 4)",
    )
    words.add_argument(
        "--cores",
        default="0-3",
        metavar="LIST",
        help="the cores of the runs by several workers, for taskset (0-3)",
    )
    words.add_argument(
        "--factor", default="1000", metavar="K", help="the factor of the one solve (1000)"
    )
    given = words.parse_args()
    adopt_orphans()
    rows, rows_by_workers, rows_with_table = [], [], []
    for mine in map(model, given.models):
        for file in (mine.blocks, mine.settings):
            if not os.path.exists(file):
                sys.exit(f"bench: no file {file}")
        shells = [str(PIT), "shells"] + priced_files_of(mine) + ["--method", given.method]
        row, found = beside_one_solve(mine, given, shells)
        rows.append(row)
        rows_by_workers += by_workers(mine, given, shells, found)
        rows_with_table.append(with_table(mine, given, shells, found))
    table(
        [
            "model",
            "blocks",
            "pairs",
            "factors",
            "solve s",
            "shells s",
            "times",
            "solve peak MB",
            "shells peak MB",
            "times",
        ],
        rows,
    )
    print()
    table(["model", "workers", "wall s", "of the first", "CPU s", "peak MB"], rows_by_workers)
    print()
    table(
        [
            "model",
            "blocks",
            "table MB",
            "shells s",
            "with --by-block s",
            "times",
            "peak MB",
            "with it MB",
        ],
        rows_with_table,
    )


if __name__ == "__main__":
    main()
