#!/usr/bin/python3
"""How large pitplan's page is, what it takes to write it, and how soon it is ready in a headless Chromium that draws by software.

    bench/page.py [--columns N] [--levels N] [--pits N] [--rounds N]

The model and its pits are made up (cones, one within the next), so that no `pit` is needed: 118 x 118 columns of 36 levels have
501,264 blocks. The page has the pits, three pushbacks, and a design beside the best pit; nearly all the seconds of writing
it are the widths of the pushbacks. Of the rounds the fewest seconds count; "ready" is by the page's own clock, from the opening to the first picture that is drawn.
"""
import argparse
import os
import sys
import tempfile
import time
from pathlib import Path
from types import SimpleNamespace

from debian_python import run_by_debian

run_by_debian()  # before packages are imported

import numpy as np
import pandas as pd

TOP = Path(__file__).resolve().parent.parent
sys.path[:0] = [str(TOP / "python"), str(TOP / "python/tests/support")]

from browsers import chromium, opened
from pitplan.views import page
from pitplan.model.economics import Economics, Metal
from pitplan.model.grid import Grid
from pitplan.plans.compare import Comparison, by_bench
from pitplan.plans.design import Design
from pitplan.model.model import Model
from pitplan.plans.phases import Phases
from pitplan.study.shells import Shells


# Reading a pixel waits until the picture is drawn, which `opened` doesn't.
DRAWN = """const c = document.getElementById("picture"), g = c.getContext("webgl2") || c.getContext("webgl");
g.readPixels(0, 0, 1, 1, g.RGBA, g.UNSIGNED_BYTE, new Uint8Array(4)); return performance.now()"""


def made_up(columns, levels, pits):
    """Shells of cones about the middle, ragged by a block as pits are."""
    i, j, k = (
        v.ravel()
        for v in np.meshgrid(
            np.arange(columns), np.arange(columns), np.arange(levels), indexing="ij"
        )
    )
    ragged = np.random.default_rng(1).normal(0, 0.7, (columns, columns))[i, j]
    out = np.hypot(i - columns / 2, j - columns / 2) + ragged
    blocks = pd.DataFrame(
        {
            "id": "",
            "ix": i,
            "iy": j,
            "iz": k,
            "tonnes": 16_000.0,
            "rock": "ore",
            "row": np.arange(len(i)),
            "CU": np.maximum(0.0, 0.8 - out / columns),
        }
    )
    model = Model(
        blocks,
        Grid(
            (430_000.0, 7_215_000.0, 1_007.5), (20.0, 20.0, 15.0), (columns, columns, levels), 30.0
        ),
        "made-up",
    )
    economics = Economics(
        metals=(Metal("copper", "CU", price=8500, recovery=0.85),), mining=2.2, processing=9.0
    )
    shells = Shells.__new__(Shells)
    shells.study = SimpleNamespace(
        model=model,
        currency="$",
        priced=economics.priced(model),
        classes=None,
        key="0" * 64,
        manifest={
            "currency": "$",
            "metals": {"copper": {"grade": "CU", "grade_unit": "%", "price_unit": "t"}},
        },
    )
    shells.factors = [300 + 50 * n for n in range(pits)]
    shells.shell = np.clip((out + (levels - 1 - k)) / (0.6 * columns) * pits, 0, pits).astype(
        np.int16
    )
    shells.verdicts = [
        {"count": int((shells.shell <= n).sum()), "worth": "0", "certificate": None}
        for n in range(pits)
    ]
    return shells


def pushbacks(shells):
    """Three of the pits as the ends of pushbacks."""
    chosen = Shells.__new__(Shells)
    chosen.__dict__.update(shells.__dict__)
    ends = [len(shells.factors) // 4, len(shells.factors) // 2, len(shells.factors) - 1]
    chosen.factors = [shells.factors[end] for end in ends]
    chosen.shell = np.searchsorted(ends, shells.shell).astype(np.int16)
    return Phases(chosen)


def designed(shells):
    """A smaller pit, moved east, beside the last but one."""
    study, grid = shells.study, shells.study.model.grid
    blocks, best = study.model.blocks, shells.holds(len(shells.factors) - 2)
    out = (
        np.hypot(blocks.ix - grid.shape[0] / 2 - 2, blocks.iy - grid.shape[1] / 2)
        + grid.shape[2]
        - 1
        - blocks.iz
    )
    held = (out < 0.5 * grid.shape[0]).to_numpy()
    worth, bound = study.priced.worth_of(held, 1000), study.priced.worth_of(best, 1000)
    none = pd.DataFrame()
    return Comparison(
        Design("design", held, np.zeros(len(held), bool)),
        1000,
        "REFUSED NotTight",
        True,
        worth,
        bound,
        "0",
        None,
        best,
        none,
        none,
        by_bench(study, held, best, 1000),
    )


def main():
    words = argparse.ArgumentParser(description=__doc__.split("\n")[0])
    for name, usual in (("columns", 118), ("levels", 36), ("pits", 19), ("rounds", 3)):
        words.add_argument("--" + name, type=int, default=usual)
    asked = words.parse_args()
    shells = made_up(asked.columns, asked.levels, asked.pits)
    table, phases, design = shells.table(), pushbacks(shells), designed(shells)
    with tempfile.TemporaryDirectory() as folder:
        wrote, ready = [], []
        for _ in range(asked.rounds):
            began = time.process_time()
            file = page.write(shells, Path(folder) / "pits.html", table, None, phases, design)
            wrote.append(time.process_time() - began)
            browser = chromium()
            try:
                opened(browser, file)
                ready.append(browser.execute_script(DRAWN) / 1000)
            finally:
                browser.quit()
        print(
            f"{len(shells.study.model):,} blocks, {asked.pits} pits: {file.stat().st_size / 1e6:.2f} MB, written in {min(wrote):.2f} processor seconds, "
            f"ready after {min(ready):.1f} s (load {os.getloadavg()[0]:.0f} on {os.cpu_count()} cores)"
        )


if __name__ == "__main__":
    main()
