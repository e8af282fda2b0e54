"""The schedule of a study under each realisation of its grades: what it is worth there, and a bound
of what any schedule of that realisation is worth. The difference is what not knowing the grades
costs, at most.

A block goes to the mill where that pays by the grades of the realisation. The feed of a period may
be more than the mill's rate then; the bound is one of schedules that may feed as much as that. So
it is never below what the schedule is worth. ``risk/schedule.npz`` has the schedule that was asked
for, and ``runs/r0017/schedule.json`` what was found under a realisation.
"""
from __future__ import annotations

import hashlib
import json
import tempfile
from dataclasses import dataclass, replace
from decimal import Decimal
from pathlib import Path
from typing import TYPE_CHECKING, Any, NamedTuple

import numpy as np
import pandas as pd

from ..base import kept_json
from ..base.amounts import THOUSAND
from ..base.arrays import Indices, Ints
from ..base.errors import Disagreement, PlanError
from ..base.files import whole_file
from ..base.next_command import command
from ..base.units_shown import counted
from ..model import store
from ..plans.risk import Realisation, realisation, setup_of
from ..plans.task_line import REALISED, Task
from ..study.shells import Shells
from ..study.study import Study
from .terms import MILLION
from .what_ifs import MINUTE, PERCENT, are_rates, is_term

if TYPE_CHECKING:
    from .plan import Schedule
    from .production import Production

_FOUND: dict[str, kept_json.Holds] = {
    "asked": kept_json.is_digest,
    "npv": kept_json.is_amount,
    "own": kept_json.is_amount,
    "bound": kept_json.is_amount,
    "over": kept_json.is_number,
}
_ASKED: dict[str, kept_json.Holds] = {
    "study": kept_json.is_word,
    "values": kept_json.is_table(is_term),
    "rates": are_rates,
    "gap": kept_json.is_number,
    "minutes": kept_json.is_number,
    "schedule": kept_json.is_digest,
}


@dataclass(frozen=True)
class _GivenSchedule:
    """A schedule, and the terms by which it is held against realisations.

    Attributes
    ----------
    period : int array of shape (blocks,)
        The schedule: when each block is dug, from 0; -1 where it isn't.
    values, rates : dict
        The values of [schedule], with as many years as the schedule's terms have, without panels
        and pushbacks, and those that [shells] gives.
    gap, minutes : float
        At which each search ends: a gap in percent, and a time.
    key : str
        The digest of all that.
    """

    period: Indices
    values: dict[str, Any]
    rates: dict[str, Any]
    gap: float
    minutes: float
    key: str


def _digest_of(*values: Any) -> str:
    """The digest of what JSON has of some values."""
    return hashlib.sha256(json.dumps(values, sort_keys=True).encode()).hexdigest()


def prepare(
    base: Study,
    schedule: Schedule,
    values: dict[str, Any],
    rates: dict[str, Any],
    gap: float,
    minutes: float,
) -> None:
    """Writes down which schedule is to be held against the realisations, and how long each search
    may take. Raises PlanError where the cut-off is by year."""
    terms = schedule.production.terms
    if terms.is_by_year:
        raise PlanError(
            '[schedule] cutoff = "by year": where a block goes is known once its grade is, and a'
            " schedule under a realisation has no such choice",
            try_this='cutoff = "fixed"',
            key=("schedule", "cutoff"),
        )
    given = {
        "study": base.key,
        "values": {
            **values,
            "years": terms.periods // terms.per_year,
            "panel": 1,
            "pushbacks": None,
            "lead": 0,
        },
        "rates": rates,
        "gap": gap,
        "minutes": minutes,
        "schedule": hashlib.sha256(schedule.period.astype("<i4").tobytes()).hexdigest(),
    }
    folder = base.folder / "risk"
    folder.mkdir(exist_ok=True)
    with whole_file(folder / "schedule.npz") as part:
        np.savez_compressed(part, period=schedule.period.astype(np.int16))
    with whole_file(folder / "schedule.json") as part:
        part.write_text(json.dumps(given))


def _given_schedule(base: Study) -> _GivenSchedule | None:
    """What was asked for by `prepare` over this very model, None where nothing was."""
    folder, again = base.folder / "risk", command("risk", base.named, "--schedule")
    try:
        found = kept_json.read(folder / "schedule.json", _ASKED, again)
        with np.load(folder / "schedule.npz", allow_pickle=False) as file:
            period: Indices = file["period"].astype(np.int32)
    except (FileNotFoundError, NotADirectoryError):
        return None
    except (OSError, *store.DAMAGED):
        raise PlanError(f"{folder / 'schedule.npz'} is damaged", try_this=again) from None
    is_same = hashlib.sha256(period.astype("<i4").tobytes()).hexdigest() == found["schedule"]
    if found["study"] != base.key or not is_same:
        return None
    limits = (found["gap"], found["minutes"])
    return _GivenSchedule(period, found["values"], found["rates"], *limits, _digest_of(found))


def realised_tasks(base: Study) -> list[Task]:
    """The tasks of the realisations: the pit of each, and a bound of its schedules."""
    setup, given = setup_of(base), _given_schedule(base)
    count = len(setup.digests) if setup and given else 0
    return [Task(REALISED, str(number), (THOUSAND,)) for number in range(count)]


def _place(study: Realisation) -> Path:
    """The folder of a realisation's runs."""
    return study.place(THOUSAND).parent


def _found_of(base: Study, schedule: _GivenSchedule, number: int) -> dict[str, Any] | None:
    """What was found under a realisation, None where nothing was by these terms."""
    study = realisation(base, number)
    again = command("task", base.named, str(Task(REALISED, str(number), (THOUSAND,))))
    try:
        found = kept_json.read(_place(study) / "schedule.json", _FOUND, again)
    except (FileNotFoundError, NotADirectoryError):
        return None
    return found if found["asked"] == _digest_of(schedule.key, study.key) else None


def is_done(base: Study, number: int) -> bool:
    """Whether the task of a realisation is done."""
    given = _given_schedule(base)
    return given is None or _found_of(base, given, number) is not None


def find(base: Study, number: int) -> None:
    """What the schedule is worth under a realisation, by `pit schedule`, and a bound of the
    schedules of that realisation.

    Raises
    ------
    Disagreement
        Where `pit` says another amount than was added up here, or the bound is below it.
    """
    from .search import Search

    given, study = _given_schedule(base), realisation(base, number)
    if given is None:
        raise PlanError(
            "no schedule was asked to be held against realisations",
            try_this=command("risk", base.named, "--schedule"),
        )
    with study.written():
        made, over = production_under(study, given)
        npv = judged(study, made, given.period)
    search = Search(_place(study), made, study.program)
    search.run(given.gap / PERCENT, given.minutes * MINUTE)
    bound = search.found.bound
    if bound is None or search.found.npv is None or Decimal(bound) / MILLION < npv:
        raise Disagreement(f"realisation {number}: the bound is below a schedule's worth")
    found = {
        "asked": _digest_of(given.key, study.key),
        "npv": f"{npv:f}",
        "own": f"{Decimal(search.found.npv) / MILLION:f}",
        "bound": f"{Decimal(bound) / MILLION:f}",
        "over": over,
    }
    with whole_file(_place(study) / "schedule.json") as part:
        part.write_text(json.dumps(found))


class _Under(NamedTuple):
    """The mine of a realisation, whose periods have at least what a schedule uses there; and by
    what share of a rate a period uses more than it, at most."""

    production: Production
    over: float


def production_under(study: Realisation, schedule: _GivenSchedule) -> _Under:
    """The mine of a realisation for a schedule that was made without knowing its grades."""
    from .pit_schedule import block_uses
    from .plan import production_for

    made = production_for(Shells(study, [THOUSAND]), schedule.values, schedule.rates)
    dug = np.flatnonzero(schedule.period >= 0)
    used = np.zeros(made.capacities.shape, np.int64)
    for row, uses in enumerate(block_uses(study, dug, False)):
        np.add.at(used[row], schedule.period[dug], uses)
    room: Ints = np.maximum(made.capacities, used)
    limited = [row for row, limits in enumerate(made.terms.capacities) if limits]
    over = [float((used[row] / np.maximum(made.capacities[row], 1)).max()) - 1 for row in limited]
    terms = replace(made.terms, capacities=tuple(tuple(row) for row in room.tolist()))
    return _Under(replace(made, terms=terms), max(0.0, *over))


def judged(study: Realisation, made: Production, period: Indices) -> Decimal:
    """What `pit schedule` says that a schedule is worth under a realisation, less its fixed costs.

    Raises
    ------
    Disagreement
        Where it isn't feasible, or is worth another amount than what was added up here.
    """
    from .pit_schedule import TEXTS, write_texts

    worth = study.priced.thousandths(THOUSAND) // THOUSAND * int(study.priced.rounding)
    npv, fixed = Decimal(0), Decimal(0)
    for t, weight in enumerate(made.terms.weights):
        here = period == t
        npv += Decimal(weight) * int(worth[here].sum()) / MILLION
        is_open = (here & study.model.is_rock).any()
        fixed += Decimal(weight) * made.terms.fixed_cost * int(is_open) / MILLION
    dug = replace(made, blocks=np.flatnonzero(period >= 0))
    with tempfile.TemporaryDirectory(prefix=".judged.") as work:
        mine = write_texts(Path(work), study, dug, period, study.priced.way_of(THOUSAND))
        said = study.program.schedule(mine, Path(work) / TEXTS[2])
    if not said.is_feasible or Decimal(said.npv) != npv:
        raise Disagreement(
            f"realisation {study.number}: pit schedule says {said.npv},"
            f" {counted(said.broken, 'broken pair')}, {counted(said.early, 'early pair')} and"
            f" {counted(len(said.over), 'overused period')}; this package counts {npv:f}"
        )
    return npv - fixed


def table(base: Study) -> pd.DataFrame:
    """What was found under each realisation.

    Returns
    -------
    DataFrame
        ``realisation``, ``npv`` (of the schedule), ``own`` (of a schedule that was found with these
        grades known), ``bound`` (what no schedule brings more than there), ``unknown`` (the bound
        less the npv: what not knowing the grades costs, at most), ``over`` (by what share a period
        feeds the mill more than its rate, at most).

    Raises
    ------
    PlanError
        Where one hasn't been found.
    """
    given, rows = _given_schedule(base), []
    for task in realised_tasks(base):
        found = _found_of(base, given, int(task.name)) if given else None
        if found is None:
            raise PlanError(
                f"nothing was found under realisation {task.name}",
                try_this=command("risk", base.named, "--schedule"),
            )
        worths = {name: float(found[name]) for name in ("npv", "own", "bound")}
        unknown = {"unknown": float(Decimal(found["bound"]) - Decimal(found["npv"]))}
        rows.append({"realisation": int(task.name)} | worths | unknown | {"over": found["over"]})
    return pd.DataFrame(rows)
