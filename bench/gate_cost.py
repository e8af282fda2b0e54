#!/usr/bin/env python3
"""What the gate costs, crate by crate: runs a command and adds up the processor seconds of the kit's processes below it.

    python3 bench/gate_cost.py python3 tests/run

Prints what the command prints, and then a row per crate: its lines and edits, and the seconds of its proof, of the same
once more with its tests, of the edits that the kit tries, and of those that are tried by a check of their function
(tools/gate_seconds.py counts them, some percent too low); then the sums, also in the budget's seconds. The last line gives what
all processes took.
"""
import resource
import subprocess
import sys
import time
from pathlib import Path

TOP = Path(__file__).resolve().parent.parent
sys.path.insert(0, str(TOP / "tools"))

from gate_seconds import KINDS, Watcher, summary  # noqa: E402


def lines_in(folder, pattern, is_wanted=lambda file: True):
    return sum(file.read_bytes().count(b"\n") for file in folder.rglob(pattern) if is_wanted(file))


def planted_in(file):
    return (
        sum(line.startswith("edit: ") for line in file.read_text().splitlines())
        if file.exists()
        else 0
    )


def is_test(file):
    return file.stem in ("tests", "test_nets") or file.stem.endswith("_tests")


def sizes(crate):
    """Lines of code, of tests, of definitions and of proofs, and how many edits the kit tries, how many are tried by function, and how many are planted."""
    folder = TOP / "crates" / crate
    return (
        lines_in(folder / "src", "*.rt", lambda file: not is_test(file)),
        lines_in(folder / "src", "*.rt", is_test),
        lines_in(folder / "specs", "*.antt"),
        lines_in(folder / "proofs", "*.antt"),
        *(len(list((folder / shelf).glob("*.edit"))) for shelf in ("must-fail", "edits")),
        planted_in(folder / "planted.edits"),
    )


def row(name, counts, seconds):
    return "| %s | %s | %s |" % (
        name,
        " | ".join("{:,}".format(count) for count in counts),
        " | ".join("{:,.0f} s".format(it) for it in seconds),
    )


def print_table(seconds):
    crates = [
        line.split(":")[0].strip()
        for line in (TOP / "crates.txt").read_text().splitlines()
        if line.split("#")[0].strip()
    ]
    rows = [
        (sizes(crate), [seconds.get(crate, {}).get(kind, 0.0) for kind in KINDS])
        for crate in crates
    ]
    print(
        "\n| Crate | Code | Tests | Definitions | Proofs | Edits of the kit | by function | planted | Proof | With tests | Edits of the kit | by function |\n|"
        + "---|" * 12
    )
    for crate, (counts, used) in zip(crates, rows):
        print(row("`%s`" % crate, counts, used))
    print(
        row(
            "all",
            map(sum, zip(*(counts for counts, _ in rows))),
            map(sum, zip(*(used for _, used in rows))),
        )
    )


def main():
    began = time.monotonic()
    with Watcher() as watcher:
        status = subprocess.run(sys.argv[1:]).returncode
    print_table(watcher.table())
    print("\n".join(summary(watcher.table(), time.monotonic() - began)))
    used = resource.getrusage(resource.RUSAGE_CHILDREN)
    print(
        "%.0f processor seconds in all, %.0f s by the clock"
        % (used.ru_utime + used.ru_stime, time.monotonic() - began)
    )
    return status


if __name__ == "__main__":
    sys.exit(main())
