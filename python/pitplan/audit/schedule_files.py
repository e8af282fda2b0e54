"""What a bundle has of a schedule: the texts that `pit schedule` reads, the bound with its
certificate and multipliers, its tables, and a script that checks all of these alone."""
from __future__ import annotations

import json
import shutil
from collections.abc import Mapping
from importlib import resources
from pathlib import Path
from typing import TYPE_CHECKING, Any

import numpy as np

from ..table.spreadsheets import write_table

if TYPE_CHECKING:
    from ..study.shells import Shells

_SCRIPT = "recheck_schedule.py"
OF_SCHEDULE = """
recheck_schedule.py  checks the plan by years in schedule/ again, by Python's standard library\
 alone: python3 recheck_schedule.py
schedule/            when each block is dug, what periods weigh and have, what blocks use, and the\
 flow that proves the bound
tables/              schedule.csv by year and schedule_benches.csv by year and bench, which that script adds up again
"""


def write_schedule(
    shells: Shells, work: Path, values: Mapping[str, Any], rates: Mapping[str, float]
) -> bool:
    """Writes the files of the schedule that was found by the terms as they stand; says whether
    there is one.

    Parameters
    ----------
    shells : Shells
    work : Path
        The bundle's folder.
    values, rates : mapping
        As of `Schedule.of`.
    """
    study = shells.study
    if not (study.folder / "runs" / "schedule").is_dir():
        return False
    from ..schedule.pit_schedule import write_texts  # these need Numba
    from ..schedule.kept_search import Kept
    from ..schedule.plan import Schedule
    from ..schedule.tables import Tables

    found = Schedule.last(shells, values, rates)
    if found is None:
        return False
    made = found.production
    kept = Kept(study.folder, made)
    bound = kept.bound()
    assert bound is not None
    tables = Tables(found)
    write_table(tables.years(), work / "tables" / "schedule.csv")
    write_table(tables.benches(), work / "tables" / "schedule_benches.csv")
    folder = work / "schedule"
    folder.mkdir()
    multipliers = np.array(bound.multipliers, np.int64)
    write_texts(folder, study, made, found.period, found.goes, multipliers)
    (folder / "units.txt").write_text(
        "".join(f"{b} {u}\n" for b, u in zip(made.blocks.tolist(), made.unit.tolist()))
    )
    terms = {
        "sink": made.terms.sink,
        "lag": made.terms.per_year,
        "pushbacks": made.terms.pushbacks,
        "lead": made.terms.lead,
        "fixed_cost": made.terms.fixed_cost,
        "npv": f"{found.npv:f}",  # exact, as the planner's schedule.json has them
        "bound": f"{found.bound:f}",
    }
    (folder / "terms.json").write_text(json.dumps(terms))
    shutil.copyfile(kept.certificate, folder / kept.certificate.name)
    script = resources.files(__package__).joinpath(_SCRIPT).read_text("utf-8")
    (work / _SCRIPT).write_text(script, "utf-8")
    return True
