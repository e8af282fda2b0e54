"""Studies with a schedule, for tests: built and scheduled, and what the planner's own table says of
them."""
import subprocess
import sys
from pathlib import Path

import mines
import pandas as pd
from pitplan import Study
from pitplan.schedule import Schedule
from pitplan.study.study_file import read_study_file

PITPLAN = Path(__file__).resolve().parents[3] / "bin" / "pitplan"
RICH = mines.STUDY_TOML.replace("price = 8500", "price = 24000")
TERMS = """
[schedule]
years = 6
mining_rate = [600e3, 500e3]
mill_rate = 400e3
"""
WEIGHTS = {  # of 8 % a year, in the middle of each year, to six decimals
    year: round(1.08 ** -(year - 0.5), 6) for year in range(1, 12)
}


def run(*words):
    ran = subprocess.run(
        [sys.executable, PITPLAN, *map(str, words)], capture_output=True, text=True
    )
    assert ran.returncode == 0, ran.stderr + ran.stdout
    return ran.stdout


def built(folder, terms=TERMS, text=RICH, frame=None):
    """A study with its pits."""
    frame = mines.table(9, 8, 5, 5) if frame is None else frame
    mines.written_study(folder, frame, text + terms)
    run("build", folder)
    run("shells", folder)
    return folder


def scheduled(folder, limits=(0.0005, 600)):
    """The schedule of a study, in this process."""
    plan = read_study_file(folder)
    study = Study(folder)
    shells = study.shells(plan.factors)
    return Schedule.of(shells, plan.values["schedule"], plan.rates, limits)


def of_table(folder, price=24000):
    """The planner's own table with the year of each row, and what a row brings, uses and earns:
    whole dollars, worked out of grades, prices and costs."""
    rows = pd.read_csv(folder / "out" / "schedule_t.csv")
    metal = rows.TONNES * rows.CU / 100 * 0.85
    processing = rows.TONNES * rows.ROCK.map({"OXI": 7.5, "SUL": 9.0})
    revenue, treating, digging = (
        (each).round() for each in (metal * price, processing, rows.TONNES * 2.0)
    )
    rows["milled"] = revenue > treating
    rows["worth"] = (revenue - treating).clip(lower=0) - digging
    rows["metal"] = metal * rows.milled
    rows["ore"] = rows.TONNES * rows.milled
    return rows
