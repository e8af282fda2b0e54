"""`pitplan submit` and `pitplan status`: pits as tasks of a cluster, and how far they are."""
from __future__ import annotations

import shlex
from contextlib import suppress
from enum import Enum
from pathlib import Path
from typing import TYPE_CHECKING, Optional

import typer
from ..base.errors import MachineError, PlanError
from ..base.next_command import command
from ..base.units_shown import counted, duration_text
from .console import STUDY, app, described, open_study, say, warn
from .tasks_here import do_all

if TYPE_CHECKING:
    from ..plans.task_line import Task
    from ..study.study import Study
    from ..study.study_file import StudyFile
    from ..tasks.clusters import Handed

_SHOWN = 5  # failures that are told


class _Engine(str, Enum):
    """Who starts tasks."""

    LOCAL = "local"
    SLURM = "slurm"
    SNAKEMAKE = "snakemake"

    def __str__(self) -> str:
        return self.value


@app.command()
def submit(
    folder: Path = STUDY,
    engine: _Engine = typer.Option(
        _Engine.LOCAL,
        help="local: processes of this machine; slurm: a job array; snakemake: a Snakefile for other schedulers.",
    ),
    dry: bool = typer.Option(
        False, "--dry", help="Show what would be handed in, and hand in nothing."
    ),
    workers: Optional[int] = typer.Option(None, min=1, help="Of engine local: tasks at a time."),
    minutes: int = typer.Option(240, min=1, help="That a task may take, for the scheduler."),
    at_once: int = typer.Option(200, min=1, help="Tasks of an array that may run at a time."),
    again: bool = typer.Option(
        False,
        "--again",
        help="Hand in too what seems to run on other machines, as where one of them died.",
    ),
) -> None:
    """Hand in what isn't done yet of shells, realisations and what-ifs. What failed is handed in
    again, and nothing else."""
    from ..tasks.clusters import Limits

    study = open_study(folder)
    tasks = _to_hand_in(study, described(folder).factors, again)
    if not tasks:
        say("nothing to hand in: every task is done or in hand")
    elif dry:
        _show(study, tasks, engine, Limits(minutes, at_once))
    elif engine is _Engine.LOCAL:
        do_all(study, tasks, workers)
        say(f"{counted(len(tasks), 'task')} done")
    elif engine is _Engine.SLURM:
        from ..tasks.clusters import submit_slurm

        say(
            (
                f"{counted(len(tasks), 'task')} handed in as job"
                f" {', '.join(submit_slurm(study, tasks, Limits(minutes, at_once)))}; then:"
                f" {command('status', folder)}"
            )
        )
    else:
        from ..tasks.clusters import snakemake_lines, write_snakefile

        written = write_snakefile(study, tasks)
        say(
            f"{counted(len(tasks), 'task')} in {written / 'Snakefile'}; in the folder {study.folder}, on"
        )
        for where, line in snakemake_lines(written).items():
            say(f"  {where}: {line}")


def _to_hand_in(study: Study, factors: list[int], again: bool) -> list[Task]:
    """The tasks that are neither done nor running nor waiting; with `again` also those that seem to
    run on other machines."""
    from ..base.files import host
    from ..tasks.status import FAILED, RUNNING, TO_DO, states
    from ..tasks.tasks import wanted

    found = states(study, wanted(study, factors))
    elsewhere = [
        state
        for state in found
        if state.state == RUNNING
        and state.words.startswith("on ")
        and state.words != f"on {host()}"
    ]
    if elsewhere and not again:
        warn(
            (
                f"{counted(len(elsewhere), 'task')} running"
                f" {', '.join(sorted({state.words for state in elsewhere}))}; if that machine"
                " died: --again"
            )
        )
    return [
        state.task
        for state in found
        if state.state in (FAILED, TO_DO) or (again and state in elsewhere)
    ]


def _show(study: Study, tasks: list[Task], engine: _Engine, limits: object) -> None:
    """What would be handed in."""
    from ..tasks.clusters import Limits, megabytes, slurm_script

    say(f"{counted(len(tasks), 'task')} of {megabytes(study):,} MB each would be handed in:")
    for task in tasks:
        say(f"  pitplan task {shlex.quote(str(study.folder))} {task}")
    if engine is _Engine.SLURM:
        assert isinstance(limits, Limits)
        say(slurm_script(study, min(len(tasks), 1000), "submit/N", limits))


@app.command()
def status(folder: Path = STUDY) -> None:
    """Show what is done, running, waiting and failed, and how long the rest will take."""
    from ..study.last_run import last_line
    from ..tasks.clusters import in_slurm
    from ..tasks.status import FAILED, RUNNING, STATES, seconds_left, states
    from ..tasks.tasks import wanted

    try:
        study = open_study(folder)
    except PlanError:
        _say_older_plan(folder)
        raise
    in_hand: dict[Task, Handed] = {}
    try:
        in_hand = in_slurm(study)
    except MachineError as error:
        warn(f"{error.what}: what waits or runs there isn't shown")
    found = states(study, wanted(study, described(folder).factors), in_hand)
    say(
        ", ".join(
            f"{count} {name}"
            for name in STATES
            if (count := sum(state.state == name for state in found))
        )
        + f", of {len(found)} tasks"
    )
    there = [factor for factor in described(folder).factors if study.verdict(factor)]
    kept = sum(study.certified(factor) is not None for factor in there)
    if kept < len(there):
        say(
            f"certificates: of {kept} of {len(there)} shells; the others are as pit shells states them"
        )
    failed = [state for state in found if state.state == FAILED]
    for state in failed[:_SHOWN]:
        say(f"  failed: {state.task}: {state.words}")
    if len(failed) > _SHOWN:
        say(f"  and {len(failed) - _SHOWN} more")
    for state in [state for state in found if state.state == RUNNING][:_SHOWN]:
        say(f"  running: {state.task}, {state.words}")
    left = seconds_left(study, found)
    if left:
        say(f"the rest will take about {duration_text(left)}, by what is done")
    _say_plan(study, described(folder))
    last = last_line(study.folder)
    if last:
        say(last)


def _say_older_plan(folder: Path) -> None:
    """What the plan by years of a study was worth that has changed since it was built."""
    from ..schedule.last_plan import last_plan
    from ..study.study import Study

    with suppress(PlanError):
        study = Study(folder)
        found = last_plan(study.folder, study.key, {}, {})
        if found is not None:
            say(f"plan by years: {found.words(study.currency)}")


def _without_plan(folder: Path, again: str) -> str:
    """What is said of a study that has no plan by years; `again` is the command that finds one."""
    from ..schedule.kept_search import is_lost, lost
    from ..study.last_run import now_at

    kept = folder / "runs" / "schedule"
    if now_at(folder, "schedule") is not None:
        return "none yet; its search runs"  # how far it is, the last line tells
    if is_lost(kept):
        error = lost(kept)
        return f"none: {error.said}\n  try: {error.try_this}"
    begun = (kept / "schedule.npz").is_file()
    return f"none{' of this model yet, but a search was begun' if begun else ' yet'}; {again} finds one"


def _say_plan(study: Study, plan: StudyFile) -> None:
    """Whether there is a plan by years, what it is worth, and whether it is of study.toml as it
    stands."""
    from ..schedule.last_plan import last_plan

    try:
        found = last_plan(study.folder, study.key, plan.values["schedule"], plan.rates)
    except PlanError as error:
        warn(str(error))
        return
    again = command("schedule", study.named)
    if found is None:
        say(f"plan by years: {_without_plan(study.folder, again)}")
        return
    more = f"; {again} finds it anew" if found.is_stale else ""
    say(f"plan by years: {found.words(study.currency)}{more}")
