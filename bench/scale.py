#!/usr/bin/python3
"""What a study of risk costs by the size of its model: measured runs, a model of cost that is fitted to them, and its check on one more.

    bench/scale.py                     the figures of docs/SCALE.md, by the runs of bench/scale.csv: seconds
    bench/scale.py --page              puts them into docs/SCALE.md, in place of those that stand there
    bench/scale.py --measure NAME ..   runs the models of these names (or all of `MODELS`), and puts them into bench/scale.csv

Debian's own Python and the packages of python/packages; PIT or out/pit. Models are made once, from fixed seeds, in bench/out. A run
is a task in a process of its own: processor seconds of Python and of `pit`, bytes read and written by calls to the system, those of
`pit` among them, and the most memory of both together: what Python holds when it starts `pit`, and the peak of `pit`.
"""
from __future__ import annotations

import argparse
import io
import json
import math
import os
import re
import resource
import shutil
import subprocess
import sys
from contextlib import contextmanager, redirect_stdout
from functools import cache
from pathlib import Path

from debian_python import PYTHON, run_by_debian

run_by_debian()  # before packages are imported

import numpy as np
import pandas as pd

HERE = Path(__file__).resolve().parent
ROWS = HERE / "scale.csv"
SCHEDULES = HERE / "schedules.csv"  # of bench/schedules.py
REACH = HERE / "reach.csv"  # of bench/reach.py
FACTORS = (600, 1000, 1200)
# A table's columns, rows and levels of blocks, and how many levels up a predecessor may lie: 13 predecessors for 2, 25 for 5.
MODELS = {
    "s50k": (50, 44, 25, 2),
    "s50k25": (50, 44, 25, 5),
    "s500k": (118, 112, 42, 2),
    "s500k25": (118, 112, 42, 5),
    "s1m": (156, 148, 48, 2),
    "s2m": (196, 180, 63, 2),
}
FITTED = (
    "s50k",
    "s50k25",
    "s500k",
    "s2m",
)  # the others are compared with what the fit says of them
SLOPE = 36.87  # of blocks of 20 x 20 x 15, that of the diagonal
QUANTITIES = ("python_s", "pit_s", "read_mb", "written_mb", "memory_mb", "scratch_mb")


@cache
def with_pitplan():
    """The package, and bench/pitplan.py, which makes the mines."""
    import pitplan as bench_pitplan

    sys.modules.pop("pitplan")
    sys.path.insert(0, str(HERE.parent / "python"))
    import pitplan as pp

    return pp, bench_pitplan


def built(name):
    """The study of a model, with a realisation asked for; nothing of it is done."""
    pp, mines = with_pitplan()
    from pitplan.plans import risk

    nx, ny, nz, levels = MODELS[name]
    table, folder = mines.mine(f"scale{nx}x{ny}x{nz}", nx, ny, nz), HERE / "out" / name
    economics = pp.Economics(
        metals=(pp.Metal("copper", "CU", price=8500, recovery=0.86),),
        mining=2.2,
        processing=9.0,
        mill=["OXI", "SUL"],
    )
    try:
        study = pp.Study(folder)
    except pp.PlanError:
        study = pp.Study.create(
            folder,
            pp.read_table(table, size=(20, 20, 15)),
            economics,
            pp.Slopes(SLOPE, levels=levels),
        )
    grades, chance = pd.read_csv(table, usecols=["CU"]).CU.to_numpy(
        np.float32
    ), np.random.default_rng(1)
    np.save(
        folder / "sims.npy",
        (grades * chance.lognormal(0, 0.3, len(grades)).astype(np.float32))[None],
    )
    shutil.rmtree(folder / "runs", ignore_errors=True)
    return study, economics, risk


@contextmanager
def step(name, **more):
    """What a step of this process costs, told in a line: what it used, and the most memory that it and a `pit` beneath it held. The
    first one has the start of the process too."""
    Path("/proc/self/clear_refs").write_text("5")  # the most that is held is counted anew
    before, held, peaks = used(), status("VmRSS"), Path(os.environ["PEAKS"])
    if name == "start":
        before = dict.fromkeys(before, 0.0)
    peaks.write_text("")
    yield
    pit = max([float(line) * 1024 / 1e6 for line in peaks.read_text().split()], default=0.0)
    row = {
        "step": name,
        **more,
        **{key: value - was for (key, value), was in zip(used().items(), before.values())},
    }
    print(
        json.dumps(
            {
                **row,
                "memory_mb": max(status("VmHWM"), held + pit),
                "pit_mb": pit,
                "scratch_mb": sum(map(size, peaks.parent.glob("*/*"))) / 1e6,
            }
        ),
        flush=True,
    )


def status(key):
    """A figure of this process, in megabytes."""
    return next(
        int(line.split()[1]) * 1024 / 1e6
        for line in open("/proc/self/status")
        if line.startswith(key)
    )


def used():
    own, pit = (resource.getrusage(who) for who in (resource.RUSAGE_SELF, resource.RUSAGE_CHILDREN))
    io = dict(line.split(": ") for line in Path("/proc/self/io").read_text().splitlines())
    return {
        "python_s": own.ru_utime + own.ru_stime,
        "pit_s": pit.ru_utime + pit.ru_stime,
        "read_mb": int(io["rchar"]) / 1e6,
        "written_mb": int(io["wchar"]) / 1e6,
    }


def one_task(folder, number):
    """What `Tasks.do` does for a realisation, step by step, in a process of its own."""
    sys.path.insert(0, str(HERE.parent / "python"))
    with step("start"):
        from pitplan.plans.task_line import Task
        from pitplan.tasks.tasks import Tasks

        tasks, task = Tasks(Path(folder)), Task("realisation", number, FACTORS)
        study = tasks.study(task)
        tasks.verify(task)
    with step("blocks"):
        made = study.written()
        made.__enter__()
    for factor in FACTORS:
        with step("pit", factor=factor):
            study.run(factor)
    made.__exit__(None, None, None)


def tables(folder):
    """What `pitplan risk` does when all is found, in a process of its own: all is opened once, and for each realisation its prices
    are worked out, its pits are read and added up again, and the nine pits of a likelihood are added up at its prices.
    """
    sys.path.insert(0, str(HERE.parent / "python"))
    from pitplan import Study
    from pitplan.plans import risk

    with step("open"):
        study = Study(folder)
        study.verify()
        one = risk.realisation(study, 0)
        one.model
    with step("price"):
        one.priced
    for factor in FACTORS:
        with step("again", factor=factor):
            mask = one.mask(factor)
    with step("worths"):
        for _ in risk.TENTHS:
            one.priced.worth_of(mask, 1000)


# pit, whose peak of memory and whose certificate's size are written down; Linux would count a large parent's memory as that of a child
WATCHED = """#!/bin/sh
/usr/bin/time -q -a -o "$PEAKS" -f %M "{pit}" "$@"; status=$?
[ "$1" = solve ] && stat -L -c %s /dev/fd/3 3>&1 >> {certificates}
exit $status
"""


def in_a_process(kind, study, *words):
    """The rows that a process of this script tells of."""
    scratch = HERE / "out" / "scratch"
    shutil.rmtree(scratch, ignore_errors=True)
    scratch.mkdir(parents=True)
    watched = scratch / "pit"
    watched.write_text(
        WATCHED.format(pit=study.program.program, certificates=scratch / "certificates")
    )
    watched.chmod(0o755)
    env = {
        **os.environ,
        "TMPDIR": str(scratch),
        "PIT": str(watched),
        "PEAKS": str(scratch / "peaks"),
    }
    ran = subprocess.run(
        [PYTHON, __file__, "--child", kind, study.folder, *map(str, words)],
        stdout=subprocess.PIPE,
        text=True,
        env=env,
        check=True,
    )
    rows = [json.loads(line) for line in ran.stdout.splitlines()]
    if kind == "task":
        largest = max(map(int, (scratch / "certificates").read_text().split())) / 1e6
        rows = [
            {**row, "scratch_mb": row["scratch_mb"] + largest} if row["step"] == "pit" else row
            for row in rows
        ]
    return rows


def size(path):
    try:
        return path.stat().st_size
    except OSError:
        return 0


def looked_through(path):
    """What looking through a realisation costs, when the file is open."""
    from pitplan.plans import grade_files

    grades, before = np.load(path, mmap_mode="r"), used()
    grade_files.digest_of(grade_files.checked(grades[0], 0, path))
    return {
        "step": "look",
        **{key: value - was for (key, value), was in zip(used().items(), before.values())},
        "memory_mb": 0.0,
        "scratch_mb": 0.0,
    }


def measured(name):
    """The rows of a model."""
    study, economics, risk = built(name)
    risk.prepare(study, economics, study.folder / "sims.npy", FACTORS)
    rows = [looked_through(study.folder / "sims.npy")]
    rows += in_a_process("task", study, 0)
    rows += in_a_process("tables", study)
    sizes = {
        "prec_mb": 0.0,  # no list of pairs is written; older rows are of studies that had one
        "kept_mb": sum(size(path) for path in study.folder.glob("runs/r0000/*/*"))
        / len(FACTORS)
        / 1e6,
        "npz_mb": size(study.where / "blocks.npz") / 1e6,
    }
    found = pd.DataFrame(rows)
    found.insert(0, "model", name)
    found.insert(1, "blocks", study.manifest["blocks"])
    found.insert(2, "pairs", study.pairs.count)
    return found.assign(**sizes, load=os.getloadavg()[0]).round(3)


def measure(names):
    for name in names:
        found = measured(name)
        older = pd.read_csv(ROWS) if ROWS.exists() else found.iloc[:0]
        rows = pd.concat([older[older.model != name], found])
        rows.sort_values("blocks", kind="stable").to_csv(ROWS, index=False)
        print(
            found.groupby("step", sort=False)[list(QUANTITIES)].mean().round(2).to_string(),
            flush=True,
        )


def means(rows):
    """A row for each model and step: the mean of what is used, the most of what is held."""
    kinds = {
        key: "max" if key in ("memory_mb", "scratch_mb") else "mean"
        for key in (*QUANTITIES, "blocks", "pairs", "prec_mb", "npz_mb", "kept_mb")
    }
    return rows.groupby(["model", "step"], sort=False).agg(kinds).reset_index()


def fitted(found, step, quantity):
    """The three numbers of a + b for a million blocks + c for a million pairs, none below 0, by least squares of relative errors."""
    of = found[(found.step == step) & found.model.isin(FITTED)]
    known = np.column_stack(
        [
            np.ones(len(of)),
            of.blocks / 1e6,
            of.pairs / 1e6 * ((step, quantity) in BY_PAIRS or quantity == "prec_mb"),
        ]
    )
    value = of[quantity].to_numpy()
    if not value.any():
        return np.zeros(3)
    from scipy.optimize import nnls

    weight = 1 / np.maximum(value, value.max() / 1000)
    return nnls(known * weight[:, None], value * weight)[0]


class Model:
    """What each step costs by blocks and pairs."""

    def __init__(self, rows):
        self.found = means(rows)
        self.steps = list(dict.fromkeys(self.found.step))
        self.fit = {
            (step, key): fitted(self.found, step, key) for step in self.steps for key in QUANTITIES
        }
        self.files = {
            key: fitted(self.found, "pit", key) for key in ("prec_mb", "npz_mb", "kept_mb")
        }

    def cost(self, step, key, blocks, pairs):
        return float(self.fit[step, key] @ [1, blocks / 1e6, pairs / 1e6])

    def file(self, key, blocks, pairs):
        return float(self.files[key] @ [1, blocks / 1e6, pairs / 1e6])


TASK = ("start", "blocks", "pit")
NAMES = {
    "look": "look through a realisation",
    "start": "start a task",
    "blocks": "price, write its blocks",
    "pit": "find and check a pit",
    "open": "open all for the tables",
    "price": "price a realisation again",
    "again": "read a pit and add it up",
    "worths": "add up nine pits at its prices",
}
BY_PAIRS = {
    ("start", "python_s"),
    ("start", "read_mb"),
    ("open", "python_s"),
    ("open", "read_mb"),
    ("pit", "pit_s"),
    ("pit", "read_mb"),
    ("pit", "memory_mb"),
}  # the rest goes by blocks alone


def lines(head, rows):
    widths = [max(len(row[i]) for row in [head, *rows]) for i in range(len(head))]
    for row in [head, *rows]:
        print(
            "  ".join(
                cell.rjust(width) if i else cell.ljust(width)
                for i, (cell, width) in enumerate(zip(row, widths))
            ).rstrip()
        )
    print()


def show_runs(model):
    """What was measured."""
    head = [
        "",
        "blocks",
        "pairs",
        *(f"{step} s" for step in ("start", "blocks", "pit")),
        "memory MB",
        "scratch MB",
    ]
    rows = []
    for name, of in model.found.groupby("model", sort=False):
        by = of.set_index("step")
        seconds = [f"{by.python_s[step]:.2f} + {by.pit_s[step]:.2f}" for step in TASK]
        rows.append(
            [
                name,
                f"{of.blocks.iloc[0]:,.0f}",
                f"{of.pairs.iloc[0]:,.0f}",
                *seconds,
                *(f"{by[key][list(TASK)].max():,.0f}" for key in ("memory_mb", "scratch_mb")),
            ]
        )
    lines(head, rows)


def show_fit(model):
    """The model of cost, and by how much it is off where it wasn't fitted."""
    others = [name for name in dict.fromkeys(model.found.model) if name not in FITTED]
    rows = []
    for step in model.steps:
        for key in QUANTITIES:
            a, b, c = model.fit[step, key]
            if max(b, c) * 1e3 < 1 or (b + c) < 0.05:
                continue
            off = []
            for name in others:
                at = model.found[(model.found.model == name) & (model.found.step == step)].iloc[0]
                off.append(
                    f"{100 * (model.cost(step, key, at.blocks, at.pairs) / at[key] - 1):+.0f} %"
                    if at[key]
                    else ""
                )
            rows.append(
                [
                    NAMES[step],
                    key.replace("_mb", " MB").replace("_s", " s"),
                    f"{a:.2f}",
                    f"{b:.2f}",
                    f"{c:.3f}",
                    *off,
                ]
            )
    lines(
        [
            "a + b x million blocks + c x million pairs",
            "",
            "a",
            "b",
            "c",
            *(f"off at {name}" for name in others),
        ],
        rows,
    )


REALISATIONS, PITS, BLOCKS = 100, 20, 10_000_000


class Case:
    """So many realisations at so many factors: what it takes, by the model of cost.

    Attributes
    ----------
    pairs : float
        As many a block as the largest of the fitted models has.
    begin_s, pit_s : float
        Processor seconds of a task before its first pit, and of each pit.
    held_mb, asked_mb, scratch_mb : float
        Memory of a task, what `pitplan submit` asks the scheduler for, and its room in TMPDIR.
    """

    def __init__(self, model):
        at = model.found[model.found.model.isin(FITTED)].sort_values("blocks").iloc[-1]
        self.model, self.pairs = model, BLOCKS * at.pairs / at.blocks
        self.begin_s = sum(
            self.cost(step, key) for step in ("start", "blocks") for key in ("python_s", "pit_s")
        )
        self.pit_s = self.cost("pit", "python_s") + self.cost("pit", "pit_s")
        self.held_mb, self.scratch_mb = (
            max(self.cost(step, key) for step in TASK) for key in ("memory_mb", "scratch_mb")
        )
        self.asked_mb = asked_mb(self.pairs)
        self.prec_mb, self.npz_mb, self.kept_mb = (
            model.file(key, BLOCKS, self.pairs) for key in ("prec_mb", "npz_mb", "kept_mb")
        )

    def cost(self, step, key):
        return self.model.cost(step, key, BLOCKS, self.pairs)

    def tables_s(self):
        """Processor seconds of `pitplan risk` when all is found."""
        each = (
            2 * self.cost("price", "python_s")
            + PITS * self.cost("again", "python_s")
            + self.cost("worths", "python_s")
        )
        return self.cost("open", "python_s") + REALISATIONS * each

    def work(self):
        from simulated_cluster import Work

        return Work(
            REALISATIONS,
            PITS,
            self.begin_s,
            self.pit_s,
            self.asked_mb,
            self.held_mb,
            self.prec_mb + self.npz_mb,
            BLOCKS * 4 / 1e6,
            2 * self.prec_mb,
            self.kept_mb,
        )


def asked_mb(pairs):
    """What `pitplan submit` asks a scheduler for."""
    with_pitplan()
    from pitplan.tasks.clusters import SPARE
    from pitplan.tasks.tasks import memory_by_size

    return SPARE * memory_by_size(BLOCKS, round(pairs)) / 1e6


def show_case(case):
    """What it takes, whatever it runs on."""
    task_s = case.begin_s + PITS * case.pit_s
    lines(
        [f"{REALISATIONS} realisations of {PITS} factors, {BLOCKS:,} blocks", ""],
        [
            ["tasks", f"{REALISATIONS}"],
            ["pits", f"{REALISATIONS * PITS:,}"],
            ["pairs, millions", f"{case.pairs / 1e6:,.0f}"],
            ["a task before its first pit, s", f"{case.begin_s:,.0f}"],
            ["each pit, s", f"{case.pit_s:,.0f}"],
            ["a task, minutes", f"{task_s / 60:,.0f}"],
            ["all tasks, core hours", f"{REALISATIONS * task_s / 3600:,.0f}"],
            ["memory of a task, GB", f"{case.held_mb / 1000:.1f}"],
            ["asked of the scheduler, GB", f"{case.asked_mb / 1000:.1f}"],
            ["scratch of a task, GB", f"{case.scratch_mb / 1000:.1f}"],
            ["files that all tasks read, GB", f"{(case.prec_mb + case.npz_mb) / 1000:.1f}"],
            ["grades, GB", f"{REALISATIONS * BLOCKS * 4 / 1e9:.1f}"],
            [
                "read by all tasks, mostly from memory, GB",
                f"{REALISATIONS * (case.cost('start', 'read_mb') + case.cost('blocks', 'read_mb') + PITS * case.cost('pit', 'read_mb')) / 1000:,.0f}",
            ],
            [
                "written by all tasks into scratch, GB",
                f"{REALISATIONS * (case.cost('blocks', 'written_mb') + PITS * case.cost('pit', 'written_mb')) / 1000:,.0f}",
            ],
            ["kept on the shared disk, GB", f"{REALISATIONS * PITS * case.kept_mb / 1000:.1f}"],
            [
                "pitplan risk before, to look through the grades, s",
                f"{case.cost('look', 'python_s') * REALISATIONS:.0f}",
            ],
            ["pitplan risk afterwards, minutes of one core", f"{case.tables_s() / 60:.0f}"],
            [
                "memory of that, GB",
                f"{(max(case.cost(step, 'memory_mb') for step in ('open', 'price', 'again', 'worths')) + PITS * BLOCKS * 2 / 1e6) / 1000:.1f}",
            ],
        ],
    )


def show_limits(case):
    """Where such a study meets a limit, the nearest first where that can be said."""
    from pitplan.tasks.clusters import Limits
    from pitplan.slopes.offsets import PAIRS

    from simulated_cluster import Cluster

    node = Cluster()
    room = node.memory_mb - node.system_mb
    at_once = int(min(node.cores, room // case.asked_mb))
    lines(
        ["limit", "", "of"],
        [
            [
                "predecessors a block that fit into the pairs that pit lists",
                f"{case.pairs / BLOCKS:.1f}",
                f"{PAIRS / BLOCKS:.1f}",
            ],
            ["tasks at a time on a node, by memory, and its cores", f"{at_once}", f"{node.cores}"],
            [
                "memory that such tasks hold, of a node's, GB",
                f"{at_once * case.held_mb / 1000:.0f}",
                f"{room / 1000:.0f}",
            ],
            [
                "what is left of it for the files that all tasks read, GB",
                f"{(room - at_once * case.held_mb) / 1000:.0f}",
                f"{(case.prec_mb + case.npz_mb) / 1000:.1f}",
            ],
            ["scratch on a node, GB", f"{at_once * case.scratch_mb / 1000:.0f}", ""],
            [
                "a task's minutes, alone, and those that --minutes asks for",
                f"{(case.begin_s + PITS * case.pit_s) / 60:.0f}",
                f"{Limits().minutes}",
            ],
            [
                "pits that a node takes with it when it dies, at most",
                f"{at_once}",
                f"{at_once * PITS}",
            ],
        ],
    )


def show_clusters(case):
    """How long it takes on nodes, by simulation."""
    from dataclasses import replace

    from simulated_cluster import Cluster, simulated

    work, plain = case.work(), Cluster()
    third = simulated(work, plain).hours * 3600 / 3
    tight = replace(work, asked_mb=case.held_mb)
    cases = [
        ("5 nodes of 16 cores and 64 GB", work, plain, None),
        ("the same, and a node dies after a third of that", work, plain, third),
        ("memory asked as it is held", tight, plain, None),
        ("nodes of 256 GB", work, replace(plain, memory_mb=256_000), None),
        ("a shared disk of 100 MB/s", work, replace(plain, disk_mb_s=100), None),
        (
            "the same, and no room for its files in memory",
            work,
            replace(plain, disk_mb_s=100, keeps=False),
            None,
        ),
        ("one machine of 4 cores and 23 GB", work, Cluster(1, 4, 23_000, slower=1.1), None),
    ]
    rows = []
    for name, what, cluster, dies_at in cases:
        out = simulated(what, cluster, dies_at)
        rows.append(
            [name, str(out.at_once), f"{out.hours:.1f}", f"{out.disk_gb:,.0f}", str(out.lost_pits)]
        )
    lines(["", "tasks at once", "hours", "GB over the network", "pits lost"], rows)


def show_schedules(path):
    """What schedules took."""
    rows = [
        [
            row["case"],
            f"{row['blocks']:,}",
            f"{row['pit_blocks']:,}",
            f"{row['years']}",
            f"{row['closures']}",
            f"{row['npv']:,.1f}",
            f"{row['bound']:,.1f}",
            f"{row['gap']:.3f} %",
            f"{row['cpu_s']:,.0f}",
            f"{row['wall_s']:,.0f}",
            f"{row['load']:.0f}",
            f"{row['memory_mb']:,.0f}",
        ]
        for row in pd.read_csv(path).to_dict("records")
    ]
    head = ["", "blocks", "in the pit", "years", "closures", "npv", "bound", "below it", "s"]
    head += ["clock s", "load", "memory MB"]
    lines(head, rows)


def show_reach(path):
    """How near to its bound a schedule can come."""
    rows = [
        [
            row["case"],
            f"{row['units']:,}",
            f"{row['npv']:,.2f}",
            f"{row['bound']:,.2f}",
            f"{row['nearer']:,.2f}",
            f"{row['gap']:.3f} %",
            f"{math.floor(row['own'] * 1000) / 1000:.3f} %",  # at least
            f"{math.ceil(row['left'] * 1000) / 1000:.3f} %",  # at most
        ]
        for row in pd.read_csv(path).to_dict("records")
    ]
    head = ["", "units", "npv", "bound", "second", "below the bound", "its own", "left"]
    lines(head, rows)


def show():
    model = Model(pd.read_csv(ROWS))
    case = Case(model)
    for part, of in (
        (show_runs, model),
        (show_fit, model),
        (show_case, case),
        (show_clusters, case),
        (show_limits, case),
        (show_schedules, SCHEDULES),
        (show_reach, REACH),
    ):
        part(of)


def rewritten(page, printed):
    """A page with the parts of what was printed in place of its indented blocks, one for one."""
    parts = iter(
        re.sub(r"^", "    ", part, flags=re.M) + "\n" for part in printed.strip("\n").split("\n\n")
    )
    return re.sub(r"(?:^    .*\n)+", lambda block: next(parts), page, flags=re.M)


def main():
    words = argparse.ArgumentParser(
        description=__doc__, formatter_class=argparse.RawDescriptionHelpFormatter
    )
    words.add_argument("--measure", nargs="*", metavar="NAME", help="of " + ", ".join(MODELS))
    words.add_argument("--page", action="store_true")
    words.add_argument("--child", nargs="+", help=argparse.SUPPRESS)
    asked = words.parse_args()
    if asked.child:
        {"task": one_task, "tables": tables}[asked.child[0]](*asked.child[1:])
    elif asked.measure is not None:
        measure(asked.measure or list(MODELS))
    elif asked.page:
        page, printed = HERE.parent / "docs" / "SCALE.md", io.StringIO()
        with redirect_stdout(printed):
            show()
        page.write_text(rewritten(page.read_text(), printed.getvalue()))
    else:
        show()


if __name__ == "__main__":
    main()
