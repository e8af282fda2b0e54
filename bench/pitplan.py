#!/usr/bin/python3
"""What pitplan costs beside what it stands on: pandas that reads the same table, and the same runs of `pit` alone.

    bench/pitplan.py [--rounds N] [--workers N] [--only read|pit|shells|series]

Debian's own Python and the packages of python/packages; the program as bench/common.py has it, or PIT. The tables are made once,
from fixed seeds, in bench/out. Of the rounds the fewest seconds count.
"""
import argparse
import json
import os
import resource
import shutil
import subprocess
import sys
import tempfile
import time
from concurrent.futures import ThreadPoolExecutor
from contextlib import contextmanager
from pathlib import Path

from debian_python import PYTHON, run_by_debian

run_by_debian()  # before packages are imported

import numpy as np
import pandas as pd

HERE = Path(__file__).resolve().parent
TOP = HERE.parent
sys.path.insert(0, str(TOP / "python"))
OUT = HERE / "out"
FACTORS = [300 + 50 * i for i in range(19)]

# In a process of its own: the processor seconds of the call alone, without the imports before it, and the whole process's peak.
TIMED = """import json, resource, sys, time
sys.path.insert(0, {python!r})
{before}
began = time.process_time()
{call}
print(json.dumps([time.process_time() - began, resource.getrusage(resource.RUSAGE_SELF).ru_maxrss * 1024 / 1e6]))
"""
READ = [
    ("pandas.read_csv", "import pandas", "pandas.read_csv({0!r})"),
    (
        "pitplan.read_table",
        "import pitplan; pitplan.read_table",
        "pitplan.read_table({0!r}, size=(20, 20, 15))",
    ),
]


def smooth(shape, seed, waves=12):
    """A field of about unit spread: a few waves of chance direction and phase."""
    r = np.random.default_rng(seed)
    places = np.stack(np.meshgrid(*(np.arange(n) / n for n in shape), indexing="ij"), -1)
    field = sum(np.cos(places @ r.normal(0, 9, 3) + r.uniform(0, 2 * np.pi)) for _ in range(waves))
    return field / field.std()


def mine(name, nx, ny, nz, seed=1):
    """A table of two ore bodies under a hill, made once: 9 columns as a geologist exports them."""
    path = OUT / f"{name}.csv"
    if path.exists():
        return path
    OUT.mkdir(exist_ok=True)
    i, j, k = np.meshgrid(np.arange(nx), np.arange(ny), np.arange(nz), indexing="ij")
    u, v, w = i / nx, j / ny, k / nz
    top = np.rint(nz * (0.9 + 0.05 * np.cos(5 * u[:, :, 0]) * np.sin(4 * v[:, :, 0]))).astype(int)
    bodies = [(0.45, 0.5, 0.45, 0.16, 0.12, 0.30, 0.9), (0.62, 0.38, 0.35, 0.10, 0.10, 0.25, 0.7)]
    core = sum(
        g * np.exp(-(((u - a) / d) ** 2 + ((v - b) / e) ** 2 + ((w - c) / f) ** 2))
        for a, b, c, d, e, f, g in bodies
    )
    copper = core * np.exp(0.5 * smooth((nx, ny, nz), seed) - 0.12)
    keep = k < top[:, :, None]
    rock = np.where(
        top[:, :, None] - k < 2, "OVB", np.where(k > 0.62 * top[:, :, None], "OXI", "SUL")
    )
    frame = pd.DataFrame(
        {
            "BLOCKID": [f"B{n:07d}" for n in range(int(keep.sum()))],
            "XC": 430_000 + 20.0 * i[keep],
            "YC": 7_215_000 + 20.0 * j[keep],
            "ZC": 1_007.5 + 15.0 * k[keep],
            "SG": np.round(2.6 + 0.03 * smooth((nx, ny, nz), seed + 1)[keep], 3),
            "CU": np.round(copper[keep], 4),
            "AU": np.round(0.3 * copper[keep], 4),
            "ROCK": rock[keep],
        }
    )
    frame.to_csv(path.with_suffix(".part"), index=False)
    os.replace(path.with_suffix(".part"), path)
    return path


def timed(before, call):
    """Processor seconds of a call in a fresh process, and megabytes of that process's peak."""
    text = TIMED.format(python=str(TOP / "python"), before=before, call=call)
    return json.loads(
        subprocess.run(
            [PYTHON, "-I", "-c", text], check=True, stdout=subprocess.PIPE, text=True
        ).stdout.splitlines()[-1]
    )


def reading(rounds):
    path = mine("table1m", 128, 120, 74)
    rows = sum(1 for _ in open(path)) - 1
    print(
        f"## A table of {rows:,} rows and 8 columns, {path.stat().st_size / 1e6:.0f} MB\n\n| | CPU s | peak MB | times pandas |\n|---|---|---|---|"
    )
    taken = [
        [timed(before, call.format(str(path))) for _, before, call in READ] for _ in range(rounds)
    ]  # in turns
    best = [min(column, key=lambda t: t[0]) for column in zip(*taken)]
    for (name, _, _), (seconds, peak) in zip(READ, best):
        print(f"| `{name}` | {seconds:.2f} | {peak:.0f} | {seconds / best[0][0]:.2f} |")
    print()


def seconds_of(who):
    used = resource.getrusage(who)
    return used.ru_utime + used.ru_stime


def one_pit(study, rounds):
    """The processor seconds of this process around one pit, beside those of `pit`."""
    study.run(1000)  # loads what a run needs
    best = None
    for _ in range(rounds):
        shutil.rmtree(study.place(1000))
        before = [seconds_of(who) for who in (resource.RUSAGE_SELF, resource.RUSAGE_CHILDREN)]
        study.run(1000)
        own, pit = (
            seconds_of(who) - was
            for who, was in zip((resource.RUSAGE_SELF, resource.RUSAGE_CHILDREN), before)
        )
        best = min(best or (own / pit, own, pit), (own / pit, own, pit))
    share, own, pit = best
    print(
        f"## One pit of {study.manifest['blocks']:,} blocks and {study.pairs.count:,} pairs\n\n| `pit solve` and `pit check`, CPU s | Python around them, CPU s | share |\n|---|---|---|"
    )
    print(f"| {pit:.2f} | {own:.3f} | {100 * share:.1f} % |\n")


def alone(study, workers):
    """The seconds of the same runs of `pit` alone: solve and check of each factor, several at a time, certificates written."""
    words, pit = list(map(str, study.files.words())), study.program.program

    def run(factor):
        with tempfile.NamedTemporaryFile(dir=study.folder) as cert:
            subprocess.run([pit, "solve", *words, "--factor", str(factor)], stdout=cert, check=True)
            subprocess.run([pit, "check", *words, cert.name], stdout=subprocess.DEVNULL, check=True)

    began = time.time()
    with ThreadPoolExecutor(workers) as pool:
        list(pool.map(run, sorted(FACTORS, reverse=True)))
    return time.time() - began


def one_run(study, workers):
    """The seconds of one run of `pit shells --by-block` over the same factors, alone."""
    with tempfile.TemporaryDirectory(dir=study.folder) as work:
        settings = Path(work, "series.toml")
        settings.write_text(study.settings_file.read_text() + f"factors = {FACTORS}\n")
        words = [
            "--blocks",
            study.blocks_file,
            "--settings",
            settings,
            "--by-block",
            Path(work, "by_block.csv"),
            "--workers",
            str(workers),
        ]
        began = time.time()
        subprocess.run(
            [study.program.program, "shells", *words], stdout=subprocess.DEVNULL, check=True
        )
        return time.time() - began


def series(study, rounds, workers, bare_runs, more):
    """The whole command `pitplan shells`, its start, tables and all, beside the runs of `pit` that it makes, alone, in turns.

    `bare_runs` makes these, and `more` are the words of the command.
    """
    pairs = []
    for _ in range(rounds):
        shutil.rmtree(study.folder / "runs", ignore_errors=True)
        used = [seconds_of(resource.RUSAGE_CHILDREN)]
        bare = bare_runs(study, workers)
        used.append(seconds_of(resource.RUSAGE_CHILDREN))
        began = time.time()
        subprocess.run(
            [
                str(TOP / "bin" / "pitplan"),
                "shells",
                str(study.folder),
                "--workers",
                str(workers),
                *more,
            ],
            check=True,
            stdout=subprocess.DEVNULL,
            stderr=subprocess.DEVNULL,
            env={**os.environ, "PIT": study.program.program},
        )
        took = time.time() - began
        used.append(seconds_of(resource.RUSAGE_CHILDREN))
        pairs.append((took, bare, used[2] - used[1], used[1] - used[0]))
    ours, bare, ours_cpu, bare_cpu = min(pairs, key=lambda pair: pair[0] / pair[1])
    print(
        f"## {len(FACTORS)} shells of {study.manifest['blocks']:,} blocks, {workers} at a time\n\n| | `{' '.join(['pitplan shells', *more])}` | its {'runs' if more else 'run'} of `pit` alone | times |\n|---|---|---|---|"
    )
    print(
        f"| seconds that passed | {ours:.1f} | {bare:.1f} | {ours / bare:.2f} |\n| CPU s | {ours_cpu:.1f} | {bare_cpu:.1f} | {ours_cpu / bare_cpu:.2f} |\n"
    )


STUDY = """[model]
table = {table!r}
size = [20, 20, 15]
[economics]
mining = 2.2
processing = 9.0
metals = [ {{ name = "copper", grade = "CU", price = 8500, recovery = 0.86, payable = 0.96 }},
           {{ name = "gold", grade = "AU", price = 1900, grade_unit = "g/t", price_unit = "oz", recovery = 0.6 }} ]
[slopes]
angles = 45
[shells]
factors = {factors}
"""


def main():
    words = argparse.ArgumentParser(
        description=__doc__, formatter_class=argparse.RawDescriptionHelpFormatter
    )
    words.add_argument("--rounds", type=int, default=3)
    words.add_argument("--workers", type=int, default=3)
    words.add_argument("--only", choices=["read", "pit", "shells", "series"])
    asked = words.parse_args()
    print(
        f"{time.strftime('%Y-%m-%d, %H:%M UTC', time.gmtime())}, {os.cpu_count()} logical cores, load {os.getloadavg()[0]:.0f}\n",
        flush=True,
    )
    if asked.only in (None, "read"):
        reading(asked.rounds)
    OUT.mkdir(exist_ok=True)
    if asked.only in (None, "pit", "shells"):
        with built(mine("mine80k", 60, 52, 30)) as study:
            if asked.only != "shells":
                one_pit(study, asked.rounds)
            if asked.only != "pit":
                series(study, asked.rounds, asked.workers, alone, ["--certificates"])
    if asked.only in (None, "series"):
        for name, *shape in (("mine80k", 60, 52, 30), ("mine500k", 110, 108, 48)):
            with built(mine(name, *shape)) as study:
                series(study, asked.rounds, asked.workers, one_run, [])


@contextmanager
def built(table):
    """The study of a table, built in a folder of its own."""
    with tempfile.TemporaryDirectory(dir=OUT) as folder:
        Path(folder, "study.toml").write_text(
            STUDY.format(table=str(table), factors=[factor / 1000 for factor in FACTORS])
        )
        subprocess.run(
            [str(TOP / "bin" / "pitplan"), "build", folder], check=True, stdout=subprocess.DEVNULL
        )
        import pitplan as pp

        yield pp.Study(folder)


if __name__ == "__main__":
    main()
