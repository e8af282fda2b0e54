#!/usr/bin/python3
"""What a schedule costs by the size of its mine: measured runs, which docs/SCALE.md shows by bench/scale.py.

    bench/schedules.py NAME ..   runs those of `CASES` (or all), and puts them into bench/schedules.csv

Debian's own Python and the packages of python/packages; PIT or out/pit. Mines are those of bench/pitplan.py, the one of tests/day,
and one of veins; rates are such that mining and milling take the same years each. Seconds are processor seconds of Python and of `pit`, memory is the most that either held.
SECONDS_AT_MOST in the environment says after how many seconds of the clock a search ends.
"""
import json
import os
import resource
import shutil
import sys
import time
from pathlib import Path

from debian_python import run_by_debian

run_by_debian()  # before packages are imported

import numpy as np
import pandas as pd
from child_rows import rows_by_child

import scale

HERE = Path(__file__).resolve().parent
ROWS = HERE / "schedules.csv"
SERIES = [400, 500, 600, 700, 800, 900, 1000]
DAY, VEINS = (50, 50, 20), (60, 50, 20)
# Blocks of the model along x, y and z; years; the gap in percent at which the search ends; more terms.
CASES = {
    "10k": ((30, 28, 15), 8, 0.2, {}),
    "50k": ((50, 44, 25), 10, 0.2, {}),
    "50k sink 6": ((50, 44, 25), 10, 0.2, {"sink": 6}),
    "50k panel 2": ((50, 44, 25), 10, 0.2, {"panel": 2}),
    "day": (DAY, 10, 0.2, {}),
    "day sink 5": (DAY, 10, 0.2, {"sink": 5}),
    "day panel 2": (DAY, 10, 0.2, {"panel": 2}),
    "60k veins": (VEINS, 14, 0.2, {}),
    "60k veins sink 5": (VEINS, 14, 0.2, {"sink": 5}),
    "60k veins panel 2": (VEINS, 14, 0.2, {"panel": 2}),
    "150k": ((74, 68, 34), 12, 0.2, {}),
    "500k": ((110, 104, 50), 14, 0.2, {}),
}
MOST_SECONDS = float(os.environ.get("SECONDS_AT_MOST", "900"))


def day_table():
    """The mine of tests/day, its money as economics of `study_of` make it."""
    sys.path.insert(0, str(HERE.parent / "tests" / "program"))
    import day_mine

    return pd.DataFrame(
        [
            (*(20.0 * at for at in block.place[:2]), 10.0 * block.place[2], block.tonnes)
            + (block.grade / 100, "OXI" if block.place[2] > 16 else "SUL")
            for block in day_mine.blocks()
        ],
        columns=["XC", "YC", "ZC", "TONNES", "CU", "ROCK"],
    )


def vein_table():
    """Veins that dip, each of its own thickness and grade, with a nugget effect, below flat ground."""
    chance = np.random.default_rng(1965)
    x, y, z = np.meshgrid(*map(np.arange, VEINS), indexing="ij")
    copper = 0.02 * chance.lognormal(0, 0.5, VEINS)
    for _ in range(7):
        at = chance.uniform((12, 10, 6), (48, 40, 20))
        dip, strike = chance.uniform(0.5, 1.4), chance.uniform(0, np.pi)
        along = (x - at[0]) * np.cos(strike) + (y - at[1]) * np.sin(strike)
        across = (y - at[1]) * np.cos(strike) - (x - at[0]) * np.sin(strike)
        off = across * np.sin(dip) + (z - at[2]) * np.cos(dip)
        within = np.exp(
            -((along / chance.uniform(6, 14)) ** 2) - (off / chance.uniform(0.7, 1.5)) ** 2
        )
        copper += within * chance.uniform(0.3, 0.8) * chance.lognormal(-0.1, 0.45, VEINS)
    places = {"XC": 20.0 * x, "YC": 20.0 * y, "ZC": 10.0 * z, "TONNES": x * 0 + 10_400.0}
    frame = pd.DataFrame({name: each.ravel() for name, each in places.items()})
    rock = np.where(z.ravel() > 16, "OXI", "SUL")
    return frame.assign(CU=np.round(copper.ravel(), 3), ROCK=rock)


def table_of(shape):
    """The table of a mine, and the size of its blocks."""
    made = {DAY: day_table, VEINS: vein_table}.get(shape)
    if not made:
        mines = scale.with_pitplan()[1]
        return mines.mine("schedule{}x{}x{}".format(*shape), *shape), (20, 20, 15)
    path = HERE / "out" / f"{made.__name__}.csv"
    path.parent.mkdir(exist_ok=True)
    if not path.exists():
        made().to_csv(path, index=False)
    return path, (20, 20, 10)


def study_of(shape):
    """The study of a mine, with its pits found."""
    pp, _ = scale.with_pitplan()
    table, size = table_of(shape)
    economics = pp.Economics(
        metals=(pp.Metal("copper", "CU", price=8500, recovery=0.86),),
        mining=2.2,
        processing=9.0,
        mill=["OXI", "SUL"],
    )
    folder = HERE / "out" / table.stem
    try:
        study = pp.Study(folder)
    except pp.PlanError:
        model = pp.read_table(table, size=size)
        study = pp.Study.create(folder, model, economics, pp.Slopes(scale.SLOPE, levels=2))
    return study, study.shells(SERIES)


def one(name):
    """A schedule from nothing, in this process; prints what it cost."""
    shape, years, gap, more = CASES[name]
    study, shells = study_of(shape)
    from pitplan.schedule import Schedule, highs

    row = shells.table().iloc[-1]
    feed = row.ore_t * study.priced.ways[0].feed
    told = {
        "years": years + 1,
        "mining_rate": row.rock_t / years,
        "mill_rate": feed / years,
        **more,
    }
    shutil.rmtree(study.folder / "runs" / "schedule", ignore_errors=True)
    before, began = used(), time.monotonic()
    found = Schedule.of(shells, told, {"discount": 0.08}, (gap / 100, MOST_SECONDS))
    wall = time.monotonic() - began
    for each in highs._idle:  # whose seconds are counted when they have ended
        each.end()
    print(
        json.dumps(
            {
                "case": name,
                "blocks": len(study.model),
                "pit_blocks": int(row.blocks),
                "years": int(found.years.max()),
                "closures": found.closures,
                "npv": round(float(found.npv) / 1e6, 3),
                "bound": round(float(found.bound) / 1e6, 3),
                "gap": float(found.gap),
                "cpu_s": round(used() - before, 1),
                "wall_s": round(wall, 1),
                "memory_mb": round(memory(), 0),
                "load": os.getloadavg()[0],
            }
        )
    )


def each():
    """What this process and those beneath it have used."""
    return [resource.getrusage(who) for who in (resource.RUSAGE_SELF, resource.RUSAGE_CHILDREN)]


def used():
    """Processor seconds."""
    return sum(told.ru_utime + told.ru_stime for told in each())


def memory():
    """Megabytes, the most that one of them held."""
    return max(told.ru_maxrss for told in each()) * 1024 / 1e6


def main():
    rows_by_child(__file__, ROWS, CASES, one, list(CASES))


if __name__ == "__main__":
    main()
