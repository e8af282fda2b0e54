"""The unit of work: one line of words that may be started anywhere, twice, and again after a crash.

    run base 800                   the pit of the study itself at factor 0.8
    run price+20 1000              the pit of a what-if
    realisation 17 800,1000        the pits of a realisation of the grades
    schedule price+20 1000         the schedule of a what-if, and its bound
    realisation-schedule 17 1000   the study's schedule under a realisation, and a bound there

A task does nothing where a verdict over this very model stands. Else it works in a folder beside
the result, and renames. So whatever starts such lines needs no state of its own, and to go on is to
start them again.
"""
from __future__ import annotations

import json
import re
import time
from collections.abc import Iterable, Iterator, Sequence
from contextlib import contextmanager, suppress
from pathlib import Path
from tempfile import TemporaryDirectory
from typing import TYPE_CHECKING

from ..base.errors import PlanError
from ..base.files import host, mark, sweep
from ..plans.task_line import BASE, Task
from ..study.study import Study
from ..study.workers import memory_of
from .task_kinds import KINDS

if TYPE_CHECKING:
    from ..pit.program import Pit

_MADE = 200  # bytes a block that a realisation's process holds beside its `pit` (bench/scale.csv)
# ends what `done_line` says
DONE_WORDS = re.compile(r": (?:\d+ pits? found|schedule found|done before)$")
_PROCESS = 200_000_000  # bytes of a process of this package with nothing in it


def done_line(task: Task, count: int) -> str:
    """What is said of a task that is done: how many pits were found for it."""
    return f"{task}: " + (f"{KINDS[task.kind].found(count)} found" if count else "done before")


class Tasks:
    """The studies of a folder that tasks run over: the study itself, its what-ifs and its
    realisations. Those of one process share the model that they read.

    Parameters
    ----------
    folder : Path
        Of the study.
    program : Pit, optional
    """

    def __init__(self, folder: Path, program: Pit | None = None) -> None:
        self.base = Study(folder, program)
        self.studies: dict[tuple[str, str], Study] = {(BASE, ""): self.base}
        self.is_verified: set[tuple[str, str]] = set()

    def study(self, task: Task) -> Study:
        """The study that a task runs over. Raises PlanError where there is no such scenario or
        realisation."""
        at = (task.kind, task.name) if task.name != BASE else (BASE, "")
        if at not in self.studies:
            self.studies[at] = KINDS[task.kind].study(self.base, task.name)
        return self.studies[at]

    def missing(self, task: Task) -> list[int]:
        """The factors of a task that no verdict over this very model stands for, or no schedule
        that was searched for as long as was asked."""
        return KINDS[task.kind].missing(self.base, self.study(task), task)

    def left(self, tasks: Iterable[Task]) -> list[Task]:
        """Those of the tasks that aren't done."""
        return [task for task in tasks if self.missing(task)]

    def do(self, task: Task) -> int:
        """Does a task: how many pits were found, 0 where all were there.

        Raises
        ------
        PlanError
            As `Study.run`; its words are kept in the folder ``log`` until the task is done, for
            `pitplan status`.
        """
        kind, missing, study = KINDS[task.kind], self.missing(task), self.study(task)
        if missing:
            sweep(study.place(missing[0]).parent)
            try:
                self.verify(task)
                with self.begun(task):
                    with kind.written(study):
                        for factor in kind.pits(study, missing):
                            study.run(factor)
                    kind.finish(self.base, task.name)
            except (PlanError, OSError, MemoryError) as error:
                self.keep_words(task, str(error) or "memory was refused")
                raise
            finally:
                kind.forget(study)
        with suppress(NotADirectoryError):  # where log is a file
            self.note(task).unlink(missing_ok=True)
        return len(missing)

    def place(self, task: Task) -> Path:
        """The folder in which a folder of its own shows that a task is being done: that of its
        pits, or of its schedule."""
        return KINDS[task.kind].place(self.base, self.study(task), task)

    @contextmanager
    def begun(self, task: Task) -> Iterator[None]:
        """Leaves a folder while a schedule is searched for, as a run of `pit` has one of its own:
        by it `status` knows that the task runs, or was ended."""
        if not KINDS[task.kind].leaves_a_folder:
            yield
            return
        folder = self.place(task)
        folder.mkdir(parents=True, exist_ok=True)
        sweep(folder)
        with TemporaryDirectory(prefix=f".f{task.factors[0]:05d}.{mark()}", dir=folder):
            yield

    def verify(self, task: Task) -> None:
        """Takes the digests of the files that a task reads, once in a process."""
        study = self.study(task)
        if (str(study.where), "") not in self.is_verified:
            study.verify()
            self.is_verified.add((str(study.where), ""))

    def note(self, task: Task) -> Path:
        """Where the words of a failure are kept."""
        return self.base.folder / "log" / f"{task.label}.failed.json"

    def keep_words(self, task: Task, words: str) -> None:
        """Keeps what a task failed with; on a full disk it can't be kept, and the words have been
        told anyway."""
        try:
            self.note(task).parent.mkdir(exist_ok=True)
            self.note(task).write_text(
                json.dumps({"task": str(task), "words": words, "host": host(), "time": time.time()})
            )
        except OSError:
            pass


def memory_of_task(study: Study) -> int:
    """Bytes of memory that a task over a study takes at most, about."""
    return memory_by_size(int(study.manifest["blocks"]), study.pairs.count)


def memory_by_size(blocks: int, pairs: int) -> int:
    """Bytes of memory that a task over a model of that size takes at most, about."""
    return _PROCESS + memory_of(blocks, pairs) + blocks * _MADE


def wanted(study: Study, factors: Sequence[int]) -> list[Task]:
    """All tasks of a study: its own factors, its what-ifs, and its realisations, of those that were
    asked for."""
    return [task for kind in KINDS.values() for task in kind.wanted(study, factors)]
