#!/usr/bin/env python3
"""Measures what a trace costs: runs of the push-relabel machine with `--trace` beside the same runs without.

    bench/traces.py

A model of 1,060 blocks, and parts of runs of one of 9,400: by one worker, so that both runs make the same steps, which are
counted in the trace. The goal is at most 1.5 times the CPU seconds. This is a measurement and no test.
"""
import os
import sys
import tempfile
from pathlib import Path

from common import PIT, adopt_orphans, files_of, model, run, table

ROOM = 1 << 24


def words(mine, steps, trace=None):
    traced = ["--trace", trace, "--room", str(ROOM)] if trace else []
    return (
        [str(PIT), "solve"]
        + files_of(mine)
        + ["--method", "push-relabel", "--steps", str(steps)]
        + traced
    )


def row(name, steps, count, core, folder):
    """Both runs in turns; of each the one with the fewest CPU seconds."""
    mine, trace = model(name), str(Path(folder) / "trace")
    plain, traced = [], []
    for _ in range(count):
        plain.append(run(words(mine, steps), core))
        traced.append(run(words(mine, steps, trace), core))
    if any(a.output != b.output or a.status != b.status for a, b in zip(plain, traced)):
        sys.exit(f"bench: {name}: another answer with a trace")
    a, b = (min(runs, key=lambda r: r.cpu) for runs in (plain, traced))
    with open(trace, "rb") as file:
        made = sum(chunk.count(b"\n") for chunk in iter(lambda: file.read(1 << 20), b"")) - 2
    size = os.path.getsize(trace)
    return [
        name,
        f"{made:,}",
        f"{a.cpu:.3f}",
        f"{b.cpu:.3f}",
        f"{b.cpu / a.cpu:.2f}",
        f"{size / 1e6:.0f}",
        f"{a.peak:.1f}",
        f"{b.peak:.1f}",
    ]


def main():
    count, core = 3, 0
    with tempfile.TemporaryDirectory() as folder:
        table(
            [
                "model",
                "steps",
                "s",
                "with --trace s",
                "times",
                "trace MB",
                "peak MB",
                "with --trace peak MB",
            ],
            [
                row(*part, count, core, folder)
                for part in (("newman", 1_000_000_000), ("zuck", 1_000_000), ("zuck", 10_000_000))
            ],
        )


if __name__ == "__main__":
    adopt_orphans()
    main()
