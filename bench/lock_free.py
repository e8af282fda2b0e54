#!/usr/bin/env python3
"""Measures the runs of the push-relabel machine without a lock, `pit solve --method lock-free`, beside those under one, both in
amounts of the group scaled.

    bench/lock_free.py                the model of 1,060 blocks to its end, and steps a second on it and on the one of 9,400
    bench/lock_free.py --to-the-end   the one of 9,400 to its end too: some minutes a run
    bench/lock_free.py --one-core     chains of 200 and of 400 blocks, whose excess crosses over at each block, on one core alone

The models' values are rounded to whole thousands, of which each is a unit, so that their totals fit a word. Of a whole run each
pit is compared with that of Boost's solver (bench/peers/boost_bk). Steps a second are those of runs that a limit cuts short, less
the time of a run of one step; two workers count turns, some of which find nothing to do. The seconds that pass count, on all of
--cores, in turns, the fewest of the rounds. This is a measurement and no test: it holds no time against a limit.
"""
import argparse
import os
import sys
import tempfile
from pathlib import Path

from common import PIT, adopt_orphans, model, peer, run, size_of, table

MOST_STEPS = 1 << 40
PART = {
    "newman": 10_000_000,
    "zuck": 100_000_000,
}  # steps of a run that is cut short: fewer than the whole run makes
KINDS = [
    ("1 worker, one lock", ["--method", "push-relabel", "--group", "scaled", "--workers", "1"]),
    ("2 workers, one lock", ["--method", "push-relabel", "--group", "scaled", "--workers", "2"]),
    ("1 worker, no lock", ["--method", "lock-free", "--workers", "1"]),
    ("2 workers, no lock", ["--method", "lock-free", "--workers", "2"]),
]


def in_thousands(upit, room):
    """A copy of a .upit file whose values are whole thousands, a unit each."""
    made = Path(room) / Path(upit).name
    with open(upit) as lines, open(made, "w") as out:
        for line in lines:
            fields = line.split()
            is_value = len(fields) == 2 and fields[0].isdigit()
            out.write(f"{fields[0]} {round(float(fields[1]) / 1000)}\n" if is_value else line)
    return str(made)


def solve(files, more, steps):
    return [str(PIT), "solve", *files, *more, "--steps", str(steps)]


def taken(words, cores, status):
    done = run(words, cores)
    if done.status != status:
        sys.exit(f"bench: status {done.status}, {done.output[:200]!r}: {' '.join(words)}")
    return done


def whole_runs(name, files, rounds, cores):
    """To the end, in turns: the seconds that pass and the CPU seconds."""
    wanted = run([peer("boost_bk"), *files[1::2]], cores).output
    runs = {kind: [] for kind, _ in KINDS}
    for _ in range(rounds):
        for kind, more in KINDS:
            done = taken(solve(files, more, MOST_STEPS), cores, 0)
            with tempfile.NamedTemporaryFile("w", suffix=".cert") as certificate:
                certificate.write(done.output + "\n")
                certificate.flush()
                said = run([str(PIT), "check", *files, certificate.name], cores).output
            if said != "ACCEPTED " + wanted:
                sys.exit(f"bench: {name}, {kind}: {said}, and the peer {wanted}")
            runs[kind].append(done)
    first = min(r.wall for r in runs[KINDS[0][0]])
    return [
        [
            name,
            kind,
            wanted.split()[0],
            f"{min(r.wall for r in own):.2f}",
            f"{min(r.cpu for r in own):.2f}",
            f"{min(r.wall for r in own) / first:.2f}",
        ]
        for kind, own in runs.items()
    ]


def steps_a_second(name, files, rounds, cores):
    """Of runs that are cut short, in turns."""
    part = PART[name]
    seconds = {kind: [] for kind, _ in KINDS}
    for _ in range(rounds):
        for kind, more in KINDS:
            all_of_it, one = (
                taken(solve(files, more, steps), cores, 1).wall for steps in (part, 1)
            )
            seconds[kind].append(all_of_it - one)
    first = min(seconds[KINDS[0][0]])
    return [
        [name, kind, f"{part:,}", f"{min(s):.2f}", f"{part / min(s):,.0f}", f"{min(s) / first:.2f}"]
        for kind, s in seconds.items()
    ]


def chain(blocks, room):
    """Half of the blocks worth 2, each resting on the next one up, under as many worth -1."""
    prec, upit = (
        str(Path(room) / ("chain%d%s" % (blocks, ending))) for ending in (".prec", ".upit")
    )
    Path(prec).write_text(
        "".join("%d 1 %d\n" % (b, b + 1) for b in range(blocks - 1)) + "%d 0\n" % (blocks - 1)
    )
    Path(upit).write_text(
        "NBLOCKS: %d\nOBJECTIVE_FUNCTION:\n" % blocks
        + "".join("%d %d\n" % (b, 2 if 2 * b < blocks else -1) for b in range(blocks))
    )
    return ["--prec", prec, "--upit", upit]


def main():
    words = argparse.ArgumentParser(
        description=__doc__, formatter_class=argparse.RawDescriptionHelpFormatter
    )
    words.add_argument("--rounds", type=int, default=3, metavar="N")
    words.add_argument("--cores", default=f"0-{os.cpu_count() - 1}", metavar="LIST")
    words.add_argument("--to-the-end", action="store_true")
    words.add_argument("--one-core", action="store_true")
    given = words.parse_args()
    adopt_orphans()
    if given.one_core:
        with tempfile.TemporaryDirectory() as room:
            rows = [
                row
                for blocks in (200, 400)
                for row in whole_runs(
                    "chain of %d" % blocks,
                    chain(blocks, room),
                    given.rounds,
                    given.cores.split("-")[0],
                )
            ]
        table(
            ["model", "run", "blocks of the pit", "s passed", "CPU s", "times one locked worker"],
            rows,
        )
        return
    with tempfile.TemporaryDirectory() as room:
        files = {}
        for name in PART:
            mine = model(name)
            print(f"{name}: {size_of(mine.prec)[0]:,} blocks")
            files[name] = ["--prec", mine.prec, "--upit", in_thousands(mine.upit, room)]
        whole = [
            row
            for name in (PART if given.to_the_end else ["newman"])
            for row in whole_runs(
                name, files[name], given.rounds if name == "newman" else 1, given.cores
            )
        ]
        table(
            ["model", "run", "blocks of the pit", "s passed", "CPU s", "times one locked worker"],
            whole,
        )
        print()
        part = [
            row
            for name in PART
            for row in steps_a_second(name, files[name], given.rounds, given.cores)
        ]
        table(
            ["model", "run", "steps", "s passed", "steps a second", "times one locked worker"], part
        )


if __name__ == "__main__":
    main()
