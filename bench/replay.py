#!/usr/bin/env python3
"""Measures `pit replay`: how long the first 10,000,000 steps of a run take that are read from a trace, and the memory.

    bench/replay.py [--steps N]

The trace is made here, by a plain simulation of the push-relabel machine on one thread at GROUP WORTH, so that the program
is also compared with another one that knows the same rules: where it answers other than `REPLAYED N OPEN` nothing is measured.
"""
from decimal import Decimal
from pathlib import Path

from common import MODELS, PIT, adopt_orphans, arguments, files_of, model, run, table

(
    READ_EXCESS,
    READ_CAPACITY,
    READ_LABEL,
    TAKE,
    GIVE,
    TAKE_EXCESS,
    GIVE_EXCESS,
    RAISE,
) = "RE RC RL TC GC TE GE RA".split()
SINK, FORWARD, BACKWARD, SOURCE = range(4)


def ports_of(mine):
    """The worth of each block in billionths, and its ports: (kind, block at the other end, pair)."""
    worths = {}
    for line in Path(mine.upit).read_text().split("OBJECTIVE_FUNCTION:")[1].splitlines():
        fields = line.split()
        if len(fields) == 2:
            worths[int(fields[0])] = int(Decimal(fields[1]) * 10**9)
    above = {}
    for line in Path(mine.prec).read_text().splitlines():
        fields = [int(field) for field in line.split()]
        if fields:
            above[fields[0]] = sorted(set(fields[2:]) - {fields[0]})
    blocks = len(worths)
    down = [[] for _ in range(blocks)]
    up = [[] for _ in range(blocks)]
    pairs = 0
    for block in range(blocks):
        for other in above.get(block, []):
            down[block].append((FORWARD, other, pairs))
            up[other].append((BACKWARD, block, pairs))
            pairs += 1
    ports = []
    for block in range(blocks):
        first = [(SINK, block, 0)] if worths[block] < 0 else []
        last = [(SOURCE, block, 0)] if worths[block] > 0 else []
        ports.append(first + down[block] + up[block] + last)
    return [worths[block] for block in range(blocks)], ports, pairs


def steps_of(mine, limit):
    """The first steps of a run in which one block after the other is served, each until its operation ends."""
    worths, ports, pairs = ports_of(mine)
    blocks = len(worths)
    excess = [max(worth, 0) for worth in worths]
    source = list(excess)
    room = [max(-worth, 0) for worth in worths]
    label = [0] * blocks
    flow = [0] * pairs
    steps = []
    block = 0
    while len(steps) < limit:
        from_there = range(block, block + blocks)
        block = next((b % blocks for b in from_there if excess[b % blocks] > 0), None)
        if block is None:
            break
        have = excess[block]
        made = [READ_EXCESS]
        best = None
        for kind, other, pair in ports[block]:
            if kind == FORWARD:
                capacity, beyond = have, label[other]
            else:
                made.append(READ_CAPACITY)
                capacity = (room[block], 0, flow[pair], source[block])[kind]
                if capacity == 0:
                    continue
                beyond = 0 if kind == SINK else label[other] if kind == BACKWARD else blocks + 2
            made.append(READ_LABEL)
            if best is None or beyond < best[0]:
                best = (beyond, capacity, kind, other, pair)
        beyond, capacity, kind, other, pair = best
        if label[block] <= beyond:
            made.append(RAISE)
            label[block] = beyond + 1
        else:
            amount = min(have, capacity)
            made += [GIVE if kind == FORWARD else TAKE, TAKE_EXCESS, GIVE_EXCESS]
            excess[block] -= amount
            if kind == FORWARD:
                flow[pair] += amount
            elif kind == BACKWARD:
                flow[pair] -= amount
            elif kind == SINK:
                room[block] -= amount
            else:
                source[block] -= amount
            if kind in (FORWARD, BACKWARD):
                excess[other] += amount
        steps += [(kind_of_step, block) for kind_of_step in made]
        block = (block + 1) % blocks
    return steps[:limit]


def trace_of(mine, limit):
    """The file of the trace; it is made once."""
    file = MODELS / ("%s.%d.trace" % (mine.name, limit))
    if not file.exists():
        lines = ["%s %d\n" % step for step in steps_of(mine, limit)]
        with open(file, "w") as out:
            out.writelines(["PITTRACE 1\n"] + lines + ["END\n"])
    return file


def main():
    words = arguments(__doc__, ["newman"])
    words.add_argument(
        "--steps", type=int, default=10_000_000, metavar="N", help="how many steps (10000000)"
    )
    given = words.parse_args()
    adopt_orphans()
    rows = []
    for name in given.models:
        mine = model(name)
        trace = trace_of(mine, given.steps)
        command = [str(PIT), "replay"] + files_of(mine) + ["--group", "worth", str(trace)]
        runs = [run(command, given.core) for _ in range(given.rounds)]
        if any(r.output != "REPLAYED %d OPEN" % given.steps for r in runs):
            raise SystemExit("bench: %s: %s" % (name, runs[0].output))
        cpu, peak = min(r.cpu for r in runs), min(r.peak for r in runs)
        size = trace.stat().st_size
        rows.append(
            [
                mine.name,
                f"{given.steps:,}",
                f"{size / 1e6:.0f}",
                f"{cpu:.2f}",
                f"{given.steps / cpu:,.0f}",
                f"{peak:.0f}",
            ]
        )
    table(["model", "steps", "trace MB", "s", "steps a second", "peak MB"], rows)


if __name__ == "__main__":
    main()
