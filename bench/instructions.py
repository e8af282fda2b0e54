#!/usr/bin/env python3
"""Counts the instructions of `pit solve` and `pit check`, and those of plain C++ programs that do the same on the same files.

    bench/instructions.py [--models MODEL ..]

A count hardly depends on what else the machine does. It is the processor's own, by `perf stat`, where there is one; else it is
that of `valgrind --tool=callgrind`, which runs a program some fifty times slower. The peers are Boost's solver
(bench/peers/boost_bk) and bench/peers/checker; the answers are compared. This is a measurement and no test.
"""
import re
import shutil
import subprocess
import sys
import tempfile
from pathlib import Path

from common import PIT, adopt_orphans, arguments, files_of, model, peer, table

PERF = ["perf", "stat", "-x,", "-e", "instructions:u", "-o"]
CALLGRIND = ["valgrind", "--tool=callgrind", "--callgrind-out-file=/dev/null"]


def has_counters(log):
    """Whether this machine's processor counts, and `perf` may read it."""
    if not shutil.which("perf"):
        return False
    return subprocess.run([*PERF, log, "true"]).returncode == 0 and count_in(log) is not None


def count_in(log):
    """The instructions that `perf` or callgrind tells of, or None."""
    found = re.search(r"Collected : (\d+)|^(\d+),", Path(log).read_text(), re.MULTILINE)
    return int(found[1] or found[2]) if found else None


def counted(before, words, log, out):
    """Runs a program whose output goes to a file, and gives its instructions."""
    with open(out, "wb") as file:
        done = subprocess.run([*before, *words], stdout=file, stderr=subprocess.DEVNULL)
    count = count_in(log)
    if done.returncode != 0 or count is None:
        sys.exit(f"bench: {' '.join(map(str, words))} failed: {Path(log).read_text()}")
    return count


def row(mine, before, log, room):
    """Solve and check of a model, each beside its peer."""
    cert, answers = room / "cert", [room / name for name in ("solved", "checked", "accepted")]
    files = files_of(mine)
    runs = [
        ([PIT, "solve", *files], cert),
        ([peer("boost_bk"), mine.prec, mine.upit], answers[0]),
        ([PIT, "check", *files, cert], answers[1]),
        ([peer("checker"), mine.prec, mine.upit, cert], answers[2]),
    ]
    counts = [counted(before, words, log, out) for words, out in runs]
    solved, *checked = (answer.read_text().split() for answer in answers)
    if checked[0] != checked[1] or checked[0][:3] != ["ACCEPTED", *solved]:
        sys.exit(f"bench: {mine.name}: the programs disagree: {solved} {checked}")
    pairs = [counts[:2], counts[2:]]
    return [
        mine.name,
        *(
            cell
            for a, b in pairs
            for cell in (f"{a / 1e6:,.1f}", f"{b / 1e6:,.1f}", f"{a / b:.2f}")
        ),
    ]


def main():
    given = arguments(__doc__, ["zuck", "marvin", "b350k"]).parse_args()
    adopt_orphans()
    with tempfile.TemporaryDirectory() as folder:
        room, log = Path(folder), Path(folder) / "log"
        by_counter = has_counters(log)
        before = [*PERF, log, "--"] if by_counter else [*CALLGRIND, f"--log-file={log}"]
        rows = [row(model(name), before, log, room) for name in given.models]
    by = "the processor's counters" if by_counter else "callgrind"
    print(f"Millions of instructions, by {by}.\n")
    table(["model", "solve", "Boost", "ratio", "check", "checker", "ratio"], rows)


if __name__ == "__main__":
    main()
