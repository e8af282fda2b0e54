"""How far a study's tasks are: done, running, waiting, failed with what they said, and how long the
rest will take."""
from __future__ import annotations

import json
import os
import re
from collections.abc import Mapping, Sequence
from dataclasses import dataclass
from pathlib import Path

import numpy as np

from ..base.errors import STOPPED
from ..plans.task_line import Task
from ..study.study import Study
from ..base.files import host
from .clusters import Handed, in_slurm
from .tasks import DONE_WORDS, Tasks

DONE, RUNNING, WAITING, FAILED, TO_DO = "done", "running", "waiting", "failed", "to do"
STATES = (DONE, RUNNING, WAITING, FAILED, TO_DO)
ENDED = "was ended from outside"


@dataclass(frozen=True)
class _State:
    """Where a task is.

    Attributes
    ----------
    task : Task
    state : str
        One of `STATES`.
    words : str
        Where it runs, or what it failed with.
    missing : int
        How many of its pits aren't found yet.
    """

    task: Task
    state: str
    words: str = ""
    missing: int = 0


def states(
    study: Study, tasks: Sequence[Task], in_hand: Mapping[Task, Handed] | None = None
) -> list[_State]:
    """Where each task is.

    Parameters
    ----------
    in_hand : mapping, optional
        What Slurm has, as `clusters.in_slurm` says. Default: it is asked.

    Raises
    ------
    MachineError
        Where tasks were handed in to Slurm, and Slurm can't be asked.
    """
    of, slurm = Tasks(study.folder, study.given), in_slurm(study) if in_hand is None else in_hand
    return [_state_of(of, task, slurm.get(task)) for task in dict.fromkeys(tasks)]


def _state_of(of: Tasks, task: Task, handed: Handed | None) -> _State:
    """Where a task is: by its verdicts, by Slurm, by what is half done, and by the words that it
    left."""
    missing = of.missing(task)
    if not missing:
        return _State(task, DONE)
    if handed and handed.state == "PENDING":
        return _State(task, WAITING, "in Slurm's queue", len(missing))
    at, is_dead = _half_done(of.place(task), missing)
    if handed and not handed.state and at - {host()}:
        at, is_dead = at & {host()}, True  # it was another machine's, and Slurm has it no more
    if at or (handed and handed.state):
        return _State(
            task,
            RUNNING,
            f"on {', '.join(sorted(at))}" if at else f"Slurm says {handed.state if handed else ''}",
            len(missing),
        )
    try:
        return _State(
            task, FAILED, str(json.loads(of.note(task).read_text())["words"]), len(missing)
        )
    except (
        FileNotFoundError,
        NotADirectoryError,
        ValueError,
        KeyError,
        TypeError,
    ):  # the last three of a note that is damaged
        last = handed.last_line() if handed else None
        if last is not None and DONE_WORDS.search(last):
            last = None  # it was done, over a model that stands there no more
        why = (
            f"; its log ends with: {last}"
            if last not in (None, "", STOPPED)
            else ": killed, out of memory, or out of time"
        )
        return (
            _State(task, FAILED, ENDED + why, len(missing))
            if is_dead or last is not None
            else _State(task, TO_DO, "", len(missing))
        )


def _half_done(folder: Path, missing: Sequence[int]) -> tuple[set[str], bool]:
    """On which machines somebody works at one of these factors, and whether a process of this
    machine that is no more has left something half done. What a process of another machine has left
    can't be told from what it is at.
    """
    at, is_dead = set(), False
    for path in folder.glob(".f*"):
        parts = path.name.removesuffix(".old").rsplit(".", 3)
        if len(parts) != 4 or not _is_of(parts[0], missing):
            continue
        if parts[1] != host() or os.path.exists(f"/proc/{parts[2]}"):
            at.add(parts[1])
        else:
            is_dead = True
    return at, is_dead


def _is_of(name: str, missing: Sequence[int]) -> bool:
    """Whether a folder of that name, of a factor (".f00800") or of a series (".f00300-01200"), is
    for one of these factors."""
    found = re.fullmatch(r"\.f(\d+)(?:-(\d+))?", name)
    return found is not None and any(
        int(found[1]) <= factor <= int(found[2] or found[1]) for factor in missing
    )


def seconds_left(study: Study, states: Sequence[_State]) -> float | None:
    """How long the rest will take, from the pits that are found and as many at a time as run now;
    None where none is found yet."""
    of = Tasks(study.folder, study.given)
    took = [
        max(verdict["seconds"], 0.0)
        for state in states
        for factor in state.task.factors
        if (verdict := of.study(state.task).verdict(factor))
    ]
    left = sum(state.missing for state in states)
    if not took:
        return None if left else 0.0
    return float(np.mean(took)) * left / max(1, sum(state.state == RUNNING for state in states))
