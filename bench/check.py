#!/usr/bin/env python3
"""Measures `pit check` beside plain C++ programs that read the same files (bench/peers).

    bench/check.py              the check of a certificate: CPU seconds and peak memory
    bench/check.py --readers    the reading of a model alone, in MB/s
    bench/check.py --prec       the reading of a .prec file alone, in MB/s
    bench/check.py --blocks     the reading of a .blocks file alone, in MB/s
    bench/check.py --slopes     settings that list 29 offsets and blocks, beside the same mine by a .prec file: d300k and d1m
    bench/check.py --threads    the check by one thread and by four, which may use four cores: seconds that pass, and CPU seconds

The certificates are those of `pit solve`, in GROUP PAIR, or with --group worth those of Boost's solver (bench/peers/boost_bk).
Both programs run on one core, in turns, and the best of the rounds counts. This is a measurement and no test: it holds no time
against a limit.
"""
import os
import subprocess
import sys
import tempfile
from pathlib import Path

from common import (
    PIT,
    adopt_orphans,
    arguments,
    best,
    files_of,
    model,
    peer,
    priced_files_of,
    rounds,
    size_of,
    table,
)

# What holds 45 degrees of blocks of 10 m within a level: each ring of offsets by how far it is out along both axes, and its level.
RINGS = ((0, 0, 1), (0, 1, 2), (1, 1, 3), (1, 3, 6), (2, 3, 7), (3, 3, 8))


def certificate_of(mine, group, folder):
    cert = os.path.join(folder, f"{mine.name}.cert")
    if group == "worth":
        subprocess.run(
            [peer("boost_bk"), mine.prec, mine.upit, cert], check=True, stdout=subprocess.DEVNULL
        )
        return cert
    with open(cert, "wb") as out:
        solved = subprocess.run([str(PIT), "solve"] + files_of(mine), stdout=out)
    if solved.returncode != 0:
        sys.exit(
            f"bench: pit solve has no certificate for {mine.name}; --group worth takes Boost's"
        )
    return cert


def check(models, given):
    rows = []
    for mine in models:
        with tempfile.TemporaryDirectory() as folder:
            cert = certificate_of(mine, given.group, folder)
            ours, theirs = rounds(
                [
                    [str(PIT), "check"] + files_of(mine) + [cert],
                    [peer("checker"), mine.prec, mine.upit, cert],
                ],
                given.rounds,
                given.core,
            )
        if len({r.output for r in ours + theirs}) != 1 or not ours[0].output.startswith("ACCEPTED"):
            sys.exit(
                f"bench: {mine.name}: the programs disagree or refuse:\n{ours[-1].output}\n{theirs[-1].output}"
            )
        blocks, pairs = size_of(mine.prec)
        (cpu, peak), (their_cpu, their_peak) = best(ours), best(theirs)
        rows.append(
            [
                mine.name,
                f"{blocks:,}",
                f"{pairs:,}",
                f"{cpu:.3f}",
                f"{their_cpu:.3f}",
                f"{cpu / their_cpu:.1f}",
                f"{peak:.1f}",
                f"{their_peak:.1f}",
                f"{peak / their_peak:.1f}",
            ]
        )
    table(
        [
            "model",
            "blocks",
            "pairs",
            "pit s",
            "peer s",
            "ratio",
            "pit peak MB",
            "peer peak MB",
            "ratio",
        ],
        rows,
    )


def by_threads(models, given):
    """The same check by one thread and by four, over four cores: by the clock, and what it costs."""
    rows, cores = [], "0-3"
    for mine in models:
        with tempfile.TemporaryDirectory() as folder:
            cert = certificate_of(mine, given.group, folder)
            checked = [str(PIT), "check", *files_of(mine), cert, "--threads"]
            one, four, peers = rounds(
                [[*checked, "1"], [*checked, "4"], [peer("checker"), mine.prec, mine.upit, cert]],
                given.rounds,
                cores,
            )
        if len({r.output for r in one + four + peers}) != 1:
            sys.exit(f"bench: {mine.name}: {one[-1].output} {four[-1].output}")
        walls = [min(run.wall for run in runs) for runs in (one, four, peers)]
        rows.append(
            [mine.name, *(f"{wall:.3f}" for wall in walls), f"{walls[1] / walls[0]:.2f}"]
            + [f"{best(runs)[0]:.3f}" for runs in (one, four)]
        )
    head = ["model", "1 thread, wall s", "4 threads, wall s", "peer, wall s", "4 by 1"]
    table([*head, "1 thread, CPU s", "4 threads, CPU s"], rows)


def truncated(folder):
    """A certificate that ends after its first line, so that nearly all the time goes into the model."""
    cert = os.path.join(folder, "truncated.cert")
    Path(cert).write_bytes(b"PITCERT 1\n")
    return cert


def came_to_the_certificate(mine, runs):
    if any(r.output != "fault: certificate Truncated" for r in runs):
        sys.exit(f"bench: {mine.name}: a run didn't come to the certificate: {runs[-1].output}")


def readers(models, given):
    rows = []
    with tempfile.TemporaryDirectory() as folder:
        cert = truncated(folder)
        for mine in models:
            ours, theirs = rounds(
                [
                    [str(PIT), "check"] + files_of(mine) + [cert],
                    [peer("checker"), mine.prec, mine.upit, cert],
                ],
                given.rounds,
                given.core,
            )
            came_to_the_certificate(mine, ours + theirs)
            size = (os.path.getsize(mine.prec) + os.path.getsize(mine.upit)) / 1e6
            (cpu, peak), (their_cpu, their_peak) = best(ours), best(theirs)
            rows.append(
                [
                    mine.name,
                    f"{size:.1f}",
                    f"{cpu:.3f}",
                    f"{their_cpu:.3f}",
                    f"{size / cpu:.0f}",
                    f"{size / their_cpu:.0f}",
                    f"{cpu / their_cpu:.1f}",
                    f"{peak:.1f}",
                    f"{their_peak:.1f}",
                    f"{peak / their_peak:.1f}",
                ]
            )
    table(
        [
            "model",
            "MB read",
            "pit s",
            "peer s",
            "pit MB/s",
            "peer MB/s",
            "ratio",
            "pit peak MB",
            "peer peak MB",
            "ratio",
        ],
        rows,
    )


def prec(models, given):
    """Reading and indexing of .prec files alone: the values are those of no block, and the certificate is cut short."""
    rows = []
    for mine in models:
        blocks, pairs = size_of(mine.prec)
        with tempfile.TemporaryDirectory() as folder:
            upit = os.path.join(folder, "none.upit")
            Path(upit).write_text(f"NBLOCKS: {blocks}\nOBJECTIVE_FUNCTION:\n")
            ours, theirs = rounds(
                [
                    [str(PIT), "check"] + files_of(mine._replace(upit=upit)) + [truncated(folder)],
                    [peer("prec_reader"), mine.prec, str(blocks)],
                ],
                given.rounds,
                given.core,
            )
        came_to_the_certificate(mine, ours)
        if any(r.output != f"{pairs} pairs" for r in theirs):
            sys.exit(f"bench: {mine.name}: the peer reads other pairs: {theirs[-1].output}")
        size = os.path.getsize(mine.prec) / 1e6
        (cpu, peak), (their_cpu, their_peak) = best(ours), best(theirs)
        rows.append(
            [
                mine.name,
                f"{pairs:,}",
                f"{size:.1f}",
                f"{cpu:.3f}",
                f"{their_cpu:.3f}",
                f"{size / cpu:.0f}",
                f"{size / their_cpu:.0f}",
                f"{cpu / their_cpu:.1f}",
                f"{peak:.1f}",
                f"{peak / size:.1f}",
            ]
        )
    table(
        [
            "model",
            "pairs",
            "MB read",
            "pit s",
            "peer s",
            "pit MB/s",
            "peer MB/s",
            "ratio",
            "pit peak MB",
            "times the file",
        ],
        rows,
    )


def write_blocks(file, n, mistake):
    """A .blocks file of n blocks with three columns; its last line, where there is a mistake, has no place."""
    with open(file, "w") as out:
        for b in range(n):
            out.write(
                f"{b} {b % 200} {b // 200 % 200} {b // 40000} {b % 97}.{b % 10} {b * 7 % 1000} {b % 3000}.25\n"
            )
        if mistake:
            out.write("the end\n")


def blocks(given):
    """Reading of .blocks files alone: a fault of the last line keeps `pit slopes` from going on to the slopes."""
    rows = []
    for n in [100_000, 1_000_000]:
        with tempfile.TemporaryDirectory() as folder:
            file = os.path.join(folder, "model.blocks")
            write_blocks(file, n, True)
            ours, theirs = rounds(
                [
                    [str(PIT), "slopes", "--blocks", file, "--pattern", "five"],
                    [peer("blocks_reader"), file],
                ],
                given.rounds,
                given.core,
            )
            size = os.path.getsize(file) / 1e6
        wanted = f"Text({n + 1})"
        if any(r.status != 3 or wanted not in r.output for r in ours + theirs):
            sys.exit(
                f"bench: the programs don't name {wanted}:\n{ours[-1].output}\n{theirs[-1].output}"
            )
        (cpu, peak), (their_cpu, their_peak) = best(ours), best(theirs)
        rows.append(
            [
                f"{n:,}",
                f"{size:.1f}",
                f"{cpu:.3f}",
                f"{their_cpu:.3f}",
                f"{size / cpu:.0f}",
                f"{size / their_cpu:.0f}",
                f"{cpu / their_cpu:.1f}",
                f"{peak:.1f}",
                f"{peak / size:.1f}",
            ]
        )
    table(
        [
            "blocks",
            "MB read",
            "pit s",
            "peer s",
            "pit MB/s",
            "peer MB/s",
            "ratio",
            "pit peak MB",
            "times the file",
        ],
        rows,
    )


def offsets():
    """The 29 offsets of the rings."""
    return [
        [x, y, level]
        for least, most, level in RINGS
        for x in range(-3, 4)
        for y in range(-3, 4)
        if sorted((abs(x), abs(y))) == [least, most]
    ]


def by_slopes(mine, folder):
    """The arguments of a check of a mine by settings that list slopes, and by a .prec file of their pairs; and its certificate."""
    settings, prec, cert = (os.path.join(folder, name) for name in ("s.toml", "p.prec", "cert"))
    Path(settings).write_text(Path(mine.settings).read_text() + "slopes = [%r]\n" % offsets())
    two = ["--blocks", mine.blocks, "--settings", settings]
    for words, file in (
        (["slopes", *two, "--pattern", "settings"], prec),
        (["solve", *two, "--factor", "1000"], cert),
    ):
        with open(file, "wb") as out:
            subprocess.run([str(PIT), *words], stdout=out, check=True)
    return two, priced_files_of(mine._replace(prec=prec)), cert


def slopes(models, given):
    """The check of one certificate over two texts and over three."""
    rows = []
    for mine in models:
        with tempfile.TemporaryDirectory() as folder:
            two, three, cert = by_slopes(mine, folder)
            blocks, pairs = size_of(three[1])
            held, listed = rounds(
                [[str(PIT), "check", *words, cert] for words in (two, three)],
                given.rounds,
                given.core,
            )
        if len({r.output for r in held + listed}) != 1 or not held[0].output.startswith("ACCEPTED"):
            sys.exit(f"bench: {mine.name}: {held[-1].output} {listed[-1].output}")
        (cpu, peak), (their_cpu, their_peak) = best(held), best(listed)
        rows.append(
            [mine.name, f"{blocks:,}", f"{pairs:,}"]
            + [f"{cpu:.3f}", f"{their_cpu:.3f}", f"{cpu / their_cpu:.2f}"]
            + [f"{peak:.1f}", f"{their_peak:.1f}", f"{peak / their_peak:.2f}"]
        )
    head = ["model", "blocks", "pairs", "slopes s", ".prec s", "ratio"]
    table([*head, "slopes peak MB", ".prec peak MB", "ratio"], rows)


def main():
    words = arguments(__doc__, None)
    words.add_argument(
        "--readers", action="store_true", help="read the model alone: the certificate is cut short"
    )
    words.add_argument("--prec", action="store_true", help="read and index .prec files alone")
    words.add_argument(
        "--blocks", action="store_true", help="read .blocks files alone, which are made for it"
    )
    words.add_argument(
        "--slopes", action="store_true", help="check over settings, and over a .prec file"
    )
    words.add_argument(
        "--threads", action="store_true", help="check by one thread and by four, by the clock"
    )
    words.add_argument(
        "--group",
        choices=["pair", "worth"],
        default="pair",
        help="what the certificates' amounts count",
    )
    given = words.parse_args()
    adopt_orphans()
    if given.blocks:
        blocks(given)
        return
    if given.slopes:
        slopes([model(name) for name in given.models or ["d300k", "d1m"]], given)
        return
    modes = (given.readers, readers), (given.prec, prec), (given.threads, by_threads), (True, check)
    measure = next(mode for is_asked, mode in modes if is_asked)
    usual = ["marvin", "mclim", "b350k", "b2m"]
    measure([model(name) for name in given.models or usual], given)


if __name__ == "__main__":
    main()
