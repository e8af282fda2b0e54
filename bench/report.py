#!/usr/bin/env python3
"""Measures the rows of a bench table, and the writing of them, on 1,000,000 blocks and 20 shells.

    bench/report.py [--rounds N]

`pit report` finds the shells first, which takes most of its time. So a program calls `rows` and `write_report` alone,
`bench/report/main.txt`: the kit proves and builds it in a temporary folder, over the crates that a build has kept, which
takes a minute or two. It times both by the clock. This is a measurement and no test: it holds no time against a limit.
"""
import argparse
import os
import subprocess
import tempfile
from pathlib import Path

from common import HERE, table
from program import program

USES = [
    "bench_report",
    "blocks_file",
    "certificate_file",
    "check_pit",
    "closure_net",
    "counted_devices",
    "fixed_worth",
    "held_pairs",
    "ordered_group",
    "prec_file",
    "shells",
]

# The heights of a million blocks: 100 benches; and each block on a bench of its own, so that each has its own row.
HEIGHTS = {"100 benches": lambda b: b // 10000, "1,000,000 benches": lambda b: (b * 7919) % 1000000}


def main():
    words = argparse.ArgumentParser(
        description=__doc__, formatter_class=argparse.RawDescriptionHelpFormatter
    )
    words.add_argument(
        "--rounds", type=int, default=3, metavar="N", help="the best of N rounds counts (3)"
    )
    given = words.parse_args()
    rows = []
    with tempfile.TemporaryDirectory() as folder:
        built = program(
            Path(folder) / "program", "report_times", USES, HERE / "report" / "main.txt"
        )
        for name, height in HEIGHTS.items():
            file = os.path.join(folder, "mine.blocks")
            with open(file, "w") as out:
                for b in range(1000000):
                    out.write(f"{b} {b % 100} {b // 100 % 100} {height(b)} {b % 977}.5\n")
            told = [
                list(
                    map(
                        int,
                        subprocess.run(
                            [built, file], stdout=subprocess.PIPE, check=True
                        ).stdout.split(),
                    )
                )
                for _ in range(given.rounds)
            ]
            count, size = told[0][:2]
            first, both = min(it[2] for it in told), min(it[3] for it in told)
            rows.append(
                [name, f"{count:,}", f"{size:,}", f"{first / 1000:.2f}", f"{both / 1000:.2f}"]
            )
    table(["a million blocks on", "rows", "bytes", "rows s", "rows and write_report s"], rows)


if __name__ == "__main__":
    main()
