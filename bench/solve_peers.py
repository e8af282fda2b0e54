#!/usr/bin/env python3
"""Measures whole runs of `pit solve` beside another program that finds the same pit: CPU seconds and peak memory.

    bench/solve_peers.py                                 beside Boost's boykov_kolmogorov_max_flow (bench/peers/boost_bk)
    bench/solve_peers.py --peer PROGRAM                  beside PROGRAM PREC UPIT, which prints the pit's blocks and worth
    bench/solve_peers.py --options="--method pseudoflow" with more options for `pit solve`
    bench/solve_peers.py --slopes                        settings that list 29 offsets, beside the same mine by a .prec file

A run of `pit` reads the model, solves it, checks its answer and writes the certificate; one of the peer reads the model, builds
its network and solves it. Both run on one core, in turns; of the rounds the fewest seconds and the least peak count. The
certificate is checked by bench/peers/checker, and the pits are compared: where they differ, the row says so and has no
ratio. This is a measurement and no test: it holds no time against a limit.
"""
import sys
import tempfile

from check import by_slopes
from common import (
    PIT,
    adopt_orphans,
    arguments,
    best,
    files_of,
    model,
    peer,
    rounds,
    run,
    size_of,
    table,
)


def answer_of(checker, mine, solved, core):
    """What the checker says of the certificate as `blocks worth`, or what the run says in place of one."""
    if solved.status != 0:
        return solved.output
    with tempfile.NamedTemporaryFile("w", suffix=".cert") as certificate:
        certificate.write(solved.output + "\n")
        certificate.flush()
        words = run([checker, mine.prec, mine.upit, certificate.name], core).output.split()
    return " ".join(words[1:3]) if words[:1] == ["ACCEPTED"] else " ".join(words)


def row(mine, program, more, checker, given):
    ours, theirs = rounds(
        [[str(PIT), "solve"] + files_of(mine) + more, [program, mine.prec, mine.upit]],
        given.rounds,
        given.core,
    )
    answer, other = answer_of(checker, mine, ours[-1], given.core), theirs[-1].output
    blocks, pairs = size_of(mine.prec)
    (cpu, peak), (their_cpu, their_peak) = best(ours), best(theirs)
    agree = answer == other
    return [
        mine.name,
        f"{blocks:,}",
        f"{pairs:,}",
        answer if agree else f"{answer}, PEER {other}",
        f"{cpu:.3f}",
        f"{their_cpu:.3f}",
        f"{cpu / their_cpu:.2f}" if agree else "-",
        f"{peak:.1f}",
        f"{their_peak:.1f}",
        f"{peak / their_peak:.2f}" if agree else "-",
    ]


def accepted(words, solved, core):
    """What `pit check` says of the certificate that a run wrote."""
    with tempfile.NamedTemporaryFile("w", suffix=".cert") as certificate:
        certificate.write(solved.output + "\n")
        certificate.flush()
        return run([str(PIT), "check", *words, certificate.name], core).output


def slopes(models, given):
    """The solve of one mine over two texts, which holds places, and over three, which holds a list of pairs."""
    rows = []
    for mine in models:
        with tempfile.TemporaryDirectory() as folder:
            two, three, _ = by_slopes(mine, folder)
            blocks, pairs = size_of(three[1])
            held, listed = rounds(
                [[str(PIT), "solve", *words, "--factor", "1000"] for words in (two, three)],
                given.rounds,
                given.core,
            )
            lines = {
                accepted(words, r[-1], given.core) for words in (two, three) for r in (held, listed)
            }
        if len(lines) != 1 or not next(iter(lines)).startswith("ACCEPTED"):
            sys.exit(f"bench: {mine.name}: {lines}")
        (cpu, peak), (their_cpu, their_peak) = best(held), best(listed)
        rows.append(
            [mine.name, f"{blocks:,}", f"{pairs:,}"]
            + [f"{cpu:.3f}", f"{their_cpu:.3f}", f"{cpu / their_cpu:.2f}"]
            + [f"{peak:.1f}", f"{their_peak:.1f}", f"{peak / their_peak:.2f}"]
        )
    head = ["model", "blocks", "pairs", "slopes s", ".prec s", "ratio"]
    table([*head, "slopes peak MB", ".prec peak MB", "ratio"], rows)


def main():
    words = arguments(__doc__, None)
    words.add_argument(
        "--peer", metavar="PROGRAM", help="bench/peers/boost_bk where it is left out"
    )
    words.add_argument(
        "--options",
        default="",
        metavar="OPTIONS",
        help="more options for `pit solve`, as one argument",
    )
    words.add_argument(
        "--slopes", action="store_true", help="solve over settings, and over a .prec file"
    )
    given = words.parse_args()
    adopt_orphans()
    if given.slopes:
        slopes([model(name) for name in given.models or ["d300k", "d1m"]], given)
        return
    program, checker = given.peer or peer("boost_bk"), peer("checker")
    rows = [
        row(model(name), program, given.options.split(), checker, given)
        for name in given.models or ["zuck", "marvin", "mclim", "b350k", "b2m"]
    ]
    table(
        [
            "model",
            "blocks",
            "pairs",
            "pit: blocks, worth",
            "pit s",
            "peer s",
            "ratio",
            "pit peak MB",
            "peer peak MB",
            "ratio",
        ],
        rows,
    )


if __name__ == "__main__":
    main()
