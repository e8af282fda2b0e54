"""Tasks that a command does itself, on this machine, and how far they are."""
from __future__ import annotations

import sys
import time
from typing import TYPE_CHECKING, Optional

from ..base import events
from ..base.next_command import command
from .console import err, warn, warn_of_room

if TYPE_CHECKING:
    from ..plans.task_line import Task
    from ..study.study import Study
    from ..tasks.local import TaskListener


def tell_slurm(study: Study, tasks: list[Task]) -> None:
    """Says where what this command will do waits or runs in Slurm too."""
    from ..base.errors import MachineError
    from ..tasks.clusters import in_slurm
    from ..tasks.tasks import Tasks

    try:
        in_hand = in_slurm(study)
    except MachineError:  # `status` says so
        return
    count = sum(
        task in in_hand and in_hand[task].state != ""
        for task in Tasks(study.folder, study.given).left(dict.fromkeys(tasks))
    )
    if count:
        warn(
            f"{count:,} of these tasks {'waits or runs' if count == 1 else 'wait or run'} in Slurm,"
            f" and {'is' if count == 1 else 'are'} done here too\n  try: ctrl-C, and the same"
            f" command once {command('status', study.named)} says that all is done"
        )


def do_all(study: Study, tasks: list[Task], workers: Optional[int]) -> None:
    """Does what isn't done yet of some tasks, on this machine, and shows how far that is."""
    from ..tasks.local import processes_for, run_local
    from ..tasks.tasks import Tasks

    left = Tasks(study.folder, study.program).left(tasks)
    if not left:
        return
    count = processes_for(study, workers)
    warn_of_room(workers, count)
    if not err.is_terminal:
        deaths = run_local(study, left, count, _as_events(_lines()))
    else:
        from rich.progress import (
            BarColumn,
            MofNCompleteColumn,
            Progress,
            TextColumn,
            TimeRemainingColumn,
        )

        with Progress(
            TextColumn("{task.description}"),
            BarColumn(),
            MofNCompleteColumn(),
            TimeRemainingColumn(),
            console=err,
            transient=True,
        ) as bars:
            bar = bars.add_task(f"tasks, {count} at a time", total=len(left))
            deaths = run_local(
                study,
                left,
                count,
                _as_events(lambda task, done, of: bars.update(bar, completed=done)),
            )
    if deaths:
        warn(f"a process was ended {deaths} times, and started again: was memory short?")


def _as_events(listener: TaskListener) -> TaskListener:
    """A listener whose tasks are events, too."""

    def progress(task: Task, done: int, of: int) -> None:
        events.event("task", task=str(task), done=done, of=of)
        listener(task, done, of)

    return progress


def _lines() -> TaskListener:
    """A line for each task that is done, for logs."""
    began = time.time()
    return lambda task, done, of: print(
        f"{task} done: {done} of {of} after {time.time() - began:.0f} s",
        file=sys.stderr,
        flush=True,
    )
