#!/usr/bin/env python3
"""Measures the push-relabel machine of `pit solve`: a model of 1,060 blocks to its end, steps per second on one of 9,400
blocks by each kind of amount, and by several workers.

    bench/solve.py [--unlocked PROGRAM]

The answer for the first model is compared with that of Boost's solver (bench/peers/boost_bk). PROGRAM is a build of `pit` that
makes the same steps on one thread without a lock: that of commit c157f2b. Its steps are timed beside those of one worker. Whole
runs beside a peer, at the sizes of real mines, are measured by bench/solve_peers.py. This is a measurement and no test: it
holds no time against a limit.
"""
import argparse
import subprocess
import sys
import tempfile
import time
from pathlib import Path

from common import PIT, adopt_orphans, files_of, model, peer, run, table

LIMIT = 20_000_000
GROUPS = ("pair", "scaled", "worth")
PART = 10_000_000  # of the smaller model's steps, so that a run of any number of workers makes just so many


def solve_words(mine, steps, program=PIT, group=None):
    """A limit of steps asks for the machine; the kind of amount is the program's own choice where none is given."""
    return (
        [str(program), "solve"]
        + files_of(mine)
        + ["--steps", str(steps)]
        + (["--group", group] if group else [])
    )


def least(words, count, core, status):
    """The run with the fewest CPU seconds."""
    runs = [run(words, core) for _ in range(count)]
    if any(r.status != status for r in runs):
        sys.exit(f"bench: status {runs[0].status} of {' '.join(words)}")
    return min(runs, key=lambda r: r.cpu)


def whole_run(count, core):
    mine = model("newman")
    own = least(solve_words(mine, 1_000_000_000), count, core, 0)
    with tempfile.NamedTemporaryFile("w", suffix=".cert") as certificate:
        certificate.write(own.output + "\n")
        certificate.flush()
        check = run([str(PIT), "check"] + files_of(mine) + [certificate.name], core)
    other = least([peer("boost_bk"), mine.prec, mine.upit], count, core, 0)
    if check.output != "ACCEPTED " + other.output:
        sys.exit(f"bench: newman: {check.output} and {other.output}")
    table(
        ["model", "blocks", "blocks of the pit", "pit s", "peer s", "pit peak MB"],
        [
            [
                "newman",
                "1,060",
                other.output.split()[0],
                f"{own.cpu:.2f}",
                f"{other.cpu:.3f}",
                f"{own.peak:.1f}",
            ]
        ],
    )


def steps_a_second(count, core):
    """By each kind of amount, in turns: how long the steps took, without the reading of the files."""
    mine = model("zuck")
    seconds = {group: [] for group in GROUPS}
    for _ in range(count):
        for group in GROUPS:
            reading, running = (
                least(solve_words(mine, steps, group=group), 1, core, 1) for steps in (1, LIMIT)
            )
            seconds[group].append(running.cpu - reading.cpu)
    pair = min(seconds["pair"])
    table(
        ["model", "blocks", "group", "steps", "s", "steps a second", "times pair"],
        [
            [
                "zuck",
                "9,400",
                group,
                f"{LIMIT:,}",
                f"{min(s):.2f}",
                f"{LIMIT / min(s):,.0f}",
                f"{min(s) / pair:.2f}",
            ]
            for group, s in seconds.items()
        ],
    )


def elapsed(words):
    """The seconds that passed until an unsettled run of so many steps ended, on all cores."""
    begun = time.monotonic()
    if subprocess.run(words, stdout=subprocess.DEVNULL).returncode != 1:
        sys.exit(f"bench: not cut short: {' '.join(words)}")
    return time.monotonic() - begun


def steps_by_workers(count, unlocked):
    mine = model("newman")
    programs = [("no lock", unlocked, [])] if unlocked else []
    programs += [(f"{n} worker{'s' * (n > 1)}", PIT, ["--workers", str(n)]) for n in (1, 2, 4)]
    seconds = {name: [] for name, _, _ in programs}
    for _ in range(count):
        for name, program, more in programs:
            run_of = [elapsed(solve_words(mine, steps, program) + more) for steps in (PART, 1)]
            seconds[name].append(run_of[0] - run_of[1])
    first = min(seconds[programs[0][0]])
    table(
        ["run", "steps", "s passed", "steps a second", f"times {programs[0][0]}"],
        [
            [name, f"{PART:,}", f"{min(s):.2f}", f"{PART / min(s):,.0f}", f"{min(s) / first:.2f}"]
            for name, s in seconds.items()
        ],
    )


def main():
    words = argparse.ArgumentParser(
        description=__doc__, formatter_class=argparse.RawDescriptionHelpFormatter
    )
    words.add_argument("--rounds", type=int, default=3, metavar="N")
    words.add_argument("--core", type=int, default=0, metavar="N")
    words.add_argument("--unlocked", type=Path, metavar="PROGRAM")
    given = words.parse_args()
    adopt_orphans()
    whole_run(given.rounds, given.core)
    print()
    steps_a_second(given.rounds, given.core)
    print()
    steps_by_workers(given.rounds, given.unlocked.resolve() if given.unlocked else None)


if __name__ == "__main__":
    main()
