#!/usr/bin/env python3
"""Runs every benchmark, one after the other, and writes what they print below a heading each.

    bench/all.py                 to standard output, which `bench/all.py > run.md` keeps
    bench/all.py --only WORD ..  those whose command has one of the words, as `check` or `lock_free`

At the head stands the machine, and below each heading when the benchmark began, the seconds that it took, and the share of the
processors' time that the host gave to others meanwhile: where that is more than some percent, or another job ran, compare ratios
and not seconds. A benchmark that fails is told and doesn't stop the rest; the status is then 1.
"""
import argparse
import os
import platform
import subprocess
import sys
import time
from pathlib import Path

HERE = Path(__file__).resolve().parent

RUNS = [
    ("The check of a certificate", ["check.py", "--rounds", "5"]),
    ("The same by one thread and by four", ["check.py", "--threads", "--rounds", "5"]),
    ("Both files of a model", ["check.py", "--readers", "--models", "marvin", "mclim", "b2m"]),
    ("`.prec` alone", ["check.py", "--prec", "--models", "marvin", "mclim", "b1m"]),
    ("`.blocks` alone, three columns of which none is chosen", ["check.py", "--blocks"]),
    ("`pit slopes`: reading, looking up and writing", ["slopes.py"]),
    ("Whole runs of `pit solve`, by pseudoflow", ["solve_peers.py"]),
    ("Solving a mine of 29 offsets, by settings and by `.prec`", ["solve_peers.py", "--slopes"]),
    ("Checking the same", ["check.py", "--slopes"]),
    ("The mine of blocks and periods", ["periods.py"]),
    ("The same by settings with 29 offsets", ["periods.py", "--slopes"]),
    ("Instructions of `pit solve` and `pit check`", ["instructions.py"]),
    (
        "Mines of 3 to 15 million blocks, solved with no further options",
        ["large.py", "--rounds", "1"],
    ),
    ("Growth: one deposit in blocks of seven sizes", ["growth.py"]),
    ("The push-relabel machine", ["solve.py"]),
    ("Traces of runs", ["traces.py"]),
    ("Runs without a lock", ["lock_free.py"]),
    ("`pit replay`: the steps of a trace", ["replay.py"]),
    ("`pit shells` at twenty factors", ["shells.py"]),
    ("`pit value` beside `pit check`", ["value.py"]),
    ("The worths at a factor, by several threads", ["worths.py"]),
    ("The bench table: `rows` and `write_report` alone", ["report.py"]),
    ("pitplan beside pandas, and beside `pit` alone", ["pitplan.py"]),
    ("The page of pitplan", ["page.py"]),
    ("The desk of pitplan", ["desk.py"]),
    ("Files, pushbacks and designs of pitplan", ["pitplan_export.py"]),
]


def processor():
    with open("/proc/cpuinfo") as lines:
        names = [line.partition(":")[2].strip() for line in lines if line.startswith("model name")]
    return names[0] if names else platform.machine()


def machine():
    kit = (
        subprocess.run(["rt", "version"], stdout=subprocess.PIPE, text=True).stdout.strip()
        if in_path("rt")
        else "no kit"
    )
    compiler = subprocess.run(["g++", "--version"], stdout=subprocess.PIPE, text=True).stdout.split(
        "\n"
    )[0]
    return "%s, %d logical cores of %s, Linux %s; `pit` by %s, the peers by %s." % (
        time.strftime("%Y-%m-%d, %H:%M UTC", time.gmtime()),
        os.cpu_count(),
        processor(),
        platform.release(),
        kit,
        compiler,
    )


def in_path(name):
    return any(
        os.access(os.path.join(folder, name), os.X_OK)
        for folder in os.environ.get("PATH", "").split(":")
    )


def ticks():
    """Of all processors: the time that the host gave to others, and the whole time, in ticks."""
    with open("/proc/stat") as it:
        fields = [int(field) for field in it.readline().split()[1:9]]
    return fields[7], sum(fields)


def measured(title, words):
    """Runs a benchmark and tells of it; says whether it ended well."""
    print("\n## %s\n" % title, flush=True)
    began, (stolen, whole) = time.monotonic(), ticks()
    clock = time.strftime("%H:%M UTC", time.gmtime())
    done = subprocess.run(
        [sys.executable, str(HERE / words[0]), *words[1:]],
        stdin=subprocess.DEVNULL,
        stdout=subprocess.PIPE,
        stderr=subprocess.STDOUT,
        text=True,
        errors="replace",
    )
    after, total = ticks()
    print(
        "`bench/%s`, %s, %d s, %d %% of the processors' time taken by the host.\n"
        % (
            " ".join(words),
            clock,
            time.monotonic() - began,
            round(100 * (after - stolen) / max(1, total - whole)),
        )
    )
    print(
        done.stdout.rstrip()
        if done.returncode == 0
        else "FAILED with status %d:\n\n%s" % (done.returncode, done.stdout.rstrip()),
        flush=True,
    )
    return done.returncode == 0


def main():
    words = argparse.ArgumentParser(
        description=__doc__, formatter_class=argparse.RawDescriptionHelpFormatter
    )
    words.add_argument(
        "--only", nargs="+", metavar="WORD", help="run those whose command has one of these words"
    )
    wanted = words.parse_args().only
    chosen = [it for it in RUNS if not wanted or any(word in " ".join(it[1]) for word in wanted)]
    if not chosen:
        sys.exit("bench: no benchmark has one of these words")
    print(machine(), flush=True)
    well = [measured(title, command) for title, command in chosen]
    return 0 if all(well) else 1


if __name__ == "__main__":
    sys.exit(main())
