#!/usr/bin/python3
"""What the engine of this machine adds to its tasks, and a risk study on it. What a task costs measures bench/scale.py.

    bench/pitplan_risk.py engine [FACTORS]       processor seconds of the engine itself beside those of its tasks, 500,000 blocks
    bench/pitplan_risk.py risk [REALISATIONS]    realisations of 80,000 blocks at one factor, four at a time

Debian's own Python and the packages of python/packages; PIT or out/pit. Models are made once, from fixed seeds, in bench/out.
"""
import os
import resource
import shutil
import subprocess
import sys
import time
from pathlib import Path

import numpy as np
import pandas as pd

import pitplan as bench_pitplan  # bench/pitplan.py, which makes the mines

HERE = Path(__file__).resolve().parent
sys.modules.pop("pitplan")
sys.path.insert(0, str(HERE.parent / "python"))
import pitplan as pp  # noqa: E402
from pitplan.tasks import local
from pitplan.plans import risk  # noqa: E402
from pitplan.plans.task_line import Task  # noqa: E402

ECONOMICS = {"mining": 2.2, "processing": 9.0, "mill": ["OXI", "SUL"]}


def built(nx, ny, nz, count):
    """The study of a mine of about this size, with realisations, made once."""
    name = f"risk{nx}x{ny}x{nz}"
    table = bench_pitplan.mine(name, nx, ny, nz)
    folder = HERE / "out" / name
    economics = pp.Economics(
        metals=(pp.Metal("copper", "CU", price=8500, recovery=0.86),), **ECONOMICS
    )
    try:
        study = pp.Study(folder)
    except pp.PlanError:
        study = pp.Study.create(
            folder, pp.read_table(table, size=(20, 20, 15)), economics, pp.Slopes(45)
        )
    grades = pd.read_csv(table, usecols=["CU"]).CU.to_numpy(np.float32)
    chance = np.random.default_rng(1)
    np.save(
        folder / "sims.npy",
        np.stack(
            [
                grades * chance.lognormal(0, 0.3, len(grades)).astype(np.float32)
                for _ in range(count)
            ]
        ),
    )
    risk.prepare(study, economics, folder / "sims.npy", [1000])
    shutil.rmtree(folder / "runs", ignore_errors=True)
    return study


def seconds_of(who):
    used = resource.getrusage(who)
    return used.ru_utime + used.ru_stime


def start_alone(study):
    """The processor seconds of a process of the engine that gets no task: what its start costs."""
    before = seconds_of(resource.RUSAGE_CHILDREN)
    subprocess.run(
        [str(HERE.parent / "bin" / "pitplan"), "task", str(study.folder), "-"],
        stdin=subprocess.DEVNULL,
        check=True,
        env={**os.environ, "PIT": study.program.program},
    )
    return seconds_of(resource.RUSAGE_CHILDREN) - before


def engine(count):
    study, workers = built(128, 112, 44, 1), 2
    start = start_alone(study)
    before = [seconds_of(who) for who in (resource.RUSAGE_SELF, resource.RUSAGE_CHILDREN)]
    factors = np.linspace(300, 1200, count).astype(int).tolist()
    local.run_local(study, [Task("run", "base", (factor,)) for factor in factors], workers)
    own, tasks = (
        seconds_of(who) - was
        for who, was in zip((resource.RUSAGE_SELF, resource.RUSAGE_CHILDREN), before)
    )
    own += start * workers
    print(
        f"## The engine of this machine: {count} factors of {study.manifest['blocks']:,} blocks, {workers} at a time\n"
    )
    print(
        f"Its own process and the start of its workers {own:.2f} CPU s; all of it {own + tasks - start * workers:.1f} CPU s; share {100 * own / (own + tasks - start * workers):.1f} %\n"
    )


def realisations(count):
    study = built(72, 64, 24, count)
    began, before = time.time(), seconds_of(resource.RUSAGE_CHILDREN)
    local.run_local(study, risk.risk_tasks(study), 4)
    took, cpu = time.time() - began, seconds_of(resource.RUSAGE_CHILDREN) - before
    began, own = time.time(), seconds_of(resource.RUSAGE_SELF)
    found = risk.Risk(study)
    print(
        f"## {found.count} realisations of {study.manifest['blocks']:,} blocks at one factor, four at a time\n"
    )
    print(
        f"{cpu:.1f} CPU s in {took:.0f} s, at a load of {os.getloadavg()[0]:.0f} on {os.cpu_count()} processors; all of them read and checked again: {seconds_of(resource.RUSAGE_SELF) - own:.1f} CPU s\n"
    )


if __name__ == "__main__":
    kind, *rest = sys.argv[1:] or [""]
    if kind == "engine":
        engine(int(rest[0]) if rest else 31)
    elif kind == "risk":
        realisations(int(rest[0]) if rest else 100)
    else:
        sys.exit(__doc__)
