#!/usr/bin/env python3
"""Solves mines of 3, 10 and 15 million blocks by `pit solve` with no further options, and checks each certificate with `pit check`
and with bench/peers/checker: CPU seconds and peak memory of the run.

    bench/large.py               rich3m, b10m and b15m: some 4 GB of disk in bench/out, and 7 GB of memory
    bench/large.py --models rich3m

The last line is `N passed, M failed`: a mine passes where both checks accept its certificate and say the same of it. No time is
held against a limit.
"""
import subprocess
import sys
import tempfile

from common import PIT, adopt_orphans, arguments, files_of, model, peer, run, size_of, table


def accepted(words):
    """What a check prints, in one line."""
    done = subprocess.run(
        words, stdin=subprocess.DEVNULL, stdout=subprocess.PIPE, stderr=subprocess.STDOUT, text=True
    )
    return done.stdout.strip()


def solved(mine, core, folder):
    """The run of `pit solve`, and what both checks say of its certificate."""
    certificate = folder + "/" + mine.name
    script = 'exec "$@" > "$0"'
    done = run(["sh", "-c", script, certificate, str(PIT), "solve", *files_of(mine)], core)
    return done, [
        accepted([str(PIT), "check", *files_of(mine), certificate]),
        accepted([peer("checker"), mine.prec, mine.upit, certificate]),
    ]


def row(mine, given):
    """The row of a mine, and whether it passed."""
    blocks, pairs = size_of(mine.prec)
    with tempfile.TemporaryDirectory(dir=given.room) as folder:
        runs = [solved(mine, given.core, folder) for _ in range(given.rounds)]
    said = sorted({line for _, lines in runs for line in lines})
    passed = len(said) == 1 and said[0].startswith("ACCEPTED ")
    cpu, peak = min(it.cpu for it, _ in runs), min(it.peak for it, _ in runs)
    cells = [mine.name, f"{blocks:,}", f"{pairs:,}", "; ".join(said), "%.1f" % cpu, f"{peak:,.0f}"]
    print("measured: " + ", ".join(cells), file=sys.stderr, flush=True)
    return cells, passed


def main():
    words = arguments(__doc__, ["rich3m", "b10m", "b15m"])
    words.add_argument(
        "--room",
        default=None,
        metavar="FOLDER",
        help="where the certificates lie meanwhile (the system's folder)",
    )
    given = words.parse_args()
    adopt_orphans()
    results = [row(model(name), given) for name in given.models]
    table(
        ["model", "blocks", "pairs", "both checks", "solve CPU s", "peak MB"],
        [cells for cells, _ in results],
    )
    passed = sum(good for _, good in results)
    print("\n%d passed, %d failed" % (passed, len(results) - passed))
    return 0 if passed == len(results) else 1


if __name__ == "__main__":
    sys.exit(main())
