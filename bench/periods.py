#!/usr/bin/env python3
"""Measures `pit solve --periods` and `pit bound` beside a plain C++ program: CPU seconds and peak memory.

    bench/periods.py                 b120k and d1m over 14 periods
    bench/periods.py --slopes        the same mines by settings that list 29 offsets, whose pairs no list holds; no peer reads these

A run of `pit solve --periods` reads a mine and its periods, solves the mine of blocks and periods, checks the answer and writes
the certificate; `pit bound` reads all of it again and judges the certificate. The peer (bench/peers/closure_in_time) reads the
mine, finds the richest pit and prints the bound, which has to be that of `pit bound`. All run on one core, in turns; of the
rounds the fewest seconds and the least peak count. This is a measurement and no test: it holds no time against a limit.
"""
import sys
import tempfile
from decimal import Decimal
from pathlib import Path

from check import offsets
from common import PIT, adopt_orphans, arguments, best, files_of, model, peer, rounds, run, table

YEARS = 14
# Money of a year is worth a tenth less than that of the year before, and a tonne costs less each year.
WEIGHTS = [round(10**6 * 0.9**t) for t in range(YEARS)]
MULTIPLIERS = [round(2 * 10**9 * 0.9**t * (1 - t / YEARS)) for t in range(YEARS)]
CAPACITIES = [10**9] * YEARS
UNIT = 10**15  # of a bound, as the peer prints it

HEAD = ["model", "blocks", "nodes", "solve s", "peer s", "ratio", "solve peak MB", "peer peak MB"]
HEAD += ["bound s", "bound peak MB"]


def periods_in(folder):
    """A file of the periods, of which tonnes are the one resource."""
    path = Path(folder) / "periods.toml"
    path.write_text(
        f"weights = {WEIGHTS}\nresources = [0]\ncapacities = [{CAPACITIES}]\nmultipliers = [{MULTIPLIERS}]\n"
    )
    return str(path)


def bound_of(peers):
    """The bound that the peer found, as `pit bound` prints it."""
    found = Decimal(peers[-1].output.split()[1]) / UNIT
    return f"BOUND {found.normalize():f}"


def row(mine, words, theirs, given, price=()):
    """The figures of one mine, by the words that name its files to `pit`; a price is for `solve` alone."""
    with tempfile.TemporaryDirectory() as folder:
        asked = [*words, "--uses", mine.blocks, "--periods", periods_in(folder)]
        runs, *peers = rounds(
            [[str(PIT), "solve", *asked, *price], *theirs], given.rounds, given.core
        )
        cert = Path(folder) / "nodes.cert"
        cert.write_text(runs[-1].output + "\n")
        bounds = [run([str(PIT), "bound", *asked, str(cert)], given.core) for _ in runs]
    if runs[-1].status or bounds[-1].status:
        sys.exit(f"bench: {mine.name}: {runs[-1].output[:200]}\n{bounds[-1].output[:200]}")
    if peers and bounds[-1].output != bound_of(peers[0]):
        sys.exit(f"bench: {mine.name}: {bounds[-1].output}, and {bound_of(peers[0])} by the peer")
    blocks = sum(1 for _ in open(mine.blocks, "rb"))
    (cpu, peak), (judged, judged_peak) = best(runs), best(bounds)
    other, other_peak = best(peers[0]) if peers else (None, None)
    return [
        mine.name,
        f"{blocks:,}",
        f"{blocks * YEARS:,}",
        f"{cpu:.2f}",
        f"{other:.2f}" if peers else "-",
        f"{cpu / other:.2f}" if peers else "-",
        f"{peak:.0f}",
        f"{other_peak:.0f}" if peers else "-",
        f"{judged:.2f}",
        f"{judged_peak:.0f}",
    ]


def listed(mine, given):
    """A mine by `.prec`, beside the peer."""
    numbers = [",".join(map(str, each)) for each in (WEIGHTS, MULTIPLIERS, CAPACITIES)]
    theirs = [peer("closure_in_time"), mine.prec, mine.upit, mine.blocks, *numbers]
    return row(mine, files_of(mine), [theirs], given)


def placed(mine, given):
    """A mine by settings with slopes, which no peer reads."""
    with tempfile.TemporaryDirectory() as folder:
        settings = Path(folder) / "s.toml"
        settings.write_text(Path(mine.settings).read_text() + f"slopes = [{offsets()!r}]\n")
        words = ["--blocks", mine.blocks, "--settings", str(settings)]
        return row(mine, words, [], given, ["--factor", "1000"])


def main():
    words = arguments(__doc__, ["b120k", "d1m"])
    words.add_argument(
        "--slopes", action="store_true", help="by settings that list offsets, not by a .prec file"
    )
    given = words.parse_args()
    adopt_orphans()
    what = placed if given.slopes else listed
    table(HEAD, [what(model(name), given) for name in given.models])


if __name__ == "__main__":
    main()
