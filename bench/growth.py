#!/usr/bin/env python3
"""How the cost of `pit solve` grows: one deposit in blocks of seven sizes, 10,000 to 10,000,000 of them, solved with no further options.

    bench/growth.py                  d10k to d10m: some 1.3 GB of disk in bench/out, and 3 GB of memory
    bench/growth.py --models d10k d100k d1m

Processor seconds of whole runs on one core, the least of the rounds, and of at most two from 2,000,000 blocks on. Beside them those
of Boost's solver (bench/peers/boost_bk) on the mines of fewer blocks.
The last row has the seconds for a pair of the largest by those of the smallest mine, and by the least of all.
"""
import sys
import tempfile
from pathlib import Path

from common import PIT, adopt_orphans, arguments, files_of, model, peer, run, size_of, table

LARGE = 2_000_000


def solved(mine, core, certificate):
    done = run(
        ["sh", "-c", 'exec "$@" > "$0"', certificate, str(PIT), "solve", *files_of(mine)], core
    )
    if done.status:
        sys.exit("bench: %s: pit solve ended with the status %d" % (mine.name, done.status))
    return done


def row(mine, given):
    """The cells of a mine, and its nanoseconds for a pair."""
    blocks, pairs = size_of(mine.prec)
    with tempfile.TemporaryDirectory() as folder:
        certificate = folder + "/" + mine.name
        runs = [
            solved(mine, given.core, certificate)
            for _ in range(given.rounds if blocks < LARGE else min(2, given.rounds))
        ]
        pit = Path(certificate).read_text().count("\nPIT ")
    cpu, peak = min(it.cpu for it in runs), min(it.peak for it in runs)
    each = 1e9 * cpu / pairs
    boost = (
        run([peer("boost_bk"), mine.prec, mine.upit], given.core).cpu if blocks < LARGE else None
    )
    cells = [
        mine.name,
        f"{blocks:,}",
        f"{pairs:,}",
        f"{pit:,}",
        "%.3f" % cpu,
        "%.0f" % each,
        "%.0f" % (1e9 * boost / pairs) if boost else "",
        f"{peak:,.0f}",
    ]
    print("measured: " + ", ".join(cells), file=sys.stderr, flush=True)
    return cells, each


def main():
    words = arguments(__doc__, ["d10k", "d30k", "d100k", "d300k", "d1m", "d3m", "d10m"])
    given = words.parse_args()
    adopt_orphans()
    rows = [row(model(name), given) for name in given.models]
    table(
        [
            "model",
            "blocks",
            "pairs",
            "pit: blocks",
            "solve CPU s",
            "ns a pair",
            "Boost's",
            "peak MB",
        ],
        [cells for cells, _ in rows],
    )
    each = [it for _, it in rows]
    print(
        "\nThe largest by the smallest mine: %.1f times for a pair; by the least: %.1f times."
        % (each[-1] / each[0], each[-1] / min(each))
    )


if __name__ == "__main__":
    main()
