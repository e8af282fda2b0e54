"""What the tasks of each kind do, a class for each kind: what else knows of kinds asks these.

To add a kind is to add its class here and to `KINDS`, and its word to `plans.task_line`, which reads
lines.
"""
from __future__ import annotations

from abc import ABC, abstractmethod
from collections.abc import Sequence
from contextlib import AbstractContextManager, nullcontext
from pathlib import Path
from typing import TYPE_CHECKING, cast

from ..plans.task_line import BASE, REALISATION, REALISED, RUN, SCHEDULE, Task
from ..study.study import Study

if TYPE_CHECKING:
    from ..plans.risk import Realisation


class TaskKind(ABC):
    """Tasks that find the pits of a study.

    Attributes
    ----------
    leaves_a_folder : bool
        Whether a folder has to show that such a task is being done. Else the run of `pit` has one.
    """

    leaves_a_folder = False

    @abstractmethod
    def study(self, base: Study, name: str) -> Study:
        """The study that a task of this name runs over. Raises PlanError where there is none."""

    @abstractmethod
    def wanted(self, study: Study, factors: Sequence[int]) -> list[Task]:
        """All tasks of this kind that were asked for over a study, whose own factors these are."""

    def missing(self, base: Study, study: Study, task: Task) -> list[int]:
        """The factors of a task for which what it has to find isn't there."""
        return [factor for factor in task.factors if not study.verdict(factor)]

    def pits(self, study: Study, missing: list[int]) -> list[int]:
        """The factors whose pits a task has to find first."""
        return missing

    def finish(self, base: Study, name: str) -> None:
        """Does what comes after the pits."""

    def place(self, base: Study, study: Study, task: Task) -> Path:
        """The folder in which a folder of its own shows that a task is being done."""
        return study.place(task.factors[0]).parent

    def found(self, count: int) -> str:
        """What a task has found that looked for so many factors, at least one."""
        return f"{count} pit{'s' * (count > 1)}"

    def written(self, study: Study) -> AbstractContextManager[object]:
        """Has the files of the study that are made for the time of a task alone."""
        return nullcontext()

    def forget(self, study: Study) -> None:
        """Lets go of what no other task of this process needs."""


class _Run(TaskKind):
    """``run base 800``: pits of the study itself or of a what-if."""

    def study(self, base: Study, name: str) -> Study:
        from ..plans.vary import scenario

        return base if name == BASE else scenario(base, name)

    def wanted(self, study: Study, factors: Sequence[int]) -> list[Task]:
        from ..plans.vary import vary_tasks

        return [*(Task(RUN, BASE, (factor,)) for factor in factors), *vary_tasks(study)]


class _Realisation(TaskKind):
    """``realisation 17 800,1000``: pits of a realisation, whose blocks are made for the task."""

    def study(self, base: Study, name: str) -> Study:
        from ..plans.risk import realisation

        return realisation(base, int(name))

    def wanted(self, study: Study, factors: Sequence[int]) -> list[Task]:
        from ..plans.risk import risk_tasks

        return risk_tasks(study)

    def written(self, study: Study) -> AbstractContextManager[object]:
        return cast("Realisation", study).written()

    def forget(self, study: Study) -> None:
        cast("Realisation", study).forget()


class _Schedule(TaskKind):
    """``schedule price+20 1000``: the schedule of a what-if, whose pit may be there already."""

    leaves_a_folder = True

    def study(self, base: Study, name: str) -> Study:
        from ..schedule.what_ifs import study_named

        return base if name == BASE else study_named(base, name)

    def wanted(self, study: Study, factors: Sequence[int]) -> list[Task]:
        from ..schedule.what_ifs import what_if_tasks

        return what_if_tasks(study)

    def missing(self, base: Study, study: Study, task: Task) -> list[int]:
        from ..schedule.what_ifs import is_done

        return [] if is_done(base, task.name) else list(task.factors)

    def pits(self, study: Study, missing: list[int]) -> list[int]:
        return [factor for factor in missing if not study.verdict(factor)]

    def finish(self, base: Study, name: str) -> None:
        from ..schedule.what_ifs import find

        find(base, name)

    def place(self, base: Study, study: Study, task: Task) -> Path:
        """One of its own, since what-ifs that change terms alone share the pits of a study."""
        from ..schedule.what_ifs import place

        return place(base, task.name) / "runs" / "schedule"

    def found(self, count: int) -> str:
        return "schedule"


class _RealisationSchedule(_Realisation):
    """``realisation-schedule 17 1000``: the study's schedule under a realisation, and a bound."""

    leaves_a_folder = True

    def wanted(self, study: Study, factors: Sequence[int]) -> list[Task]:
        from ..schedule.realisations import realised_tasks

        return realised_tasks(study)

    def missing(self, base: Study, study: Study, task: Task) -> list[int]:
        from ..schedule.realisations import is_done

        return [] if is_done(base, int(task.name)) else list(task.factors)

    def finish(self, base: Study, name: str) -> None:
        from ..schedule.realisations import find

        find(base, int(name))

    def place(self, base: Study, study: Study, task: Task) -> Path:
        return super().place(base, study, task) / "runs" / "schedule"

    def found(self, count: int) -> str:
        return "schedule"


# in the order in which all tasks are listed
KINDS: dict[str, TaskKind] = {
    RUN: _Run(),
    REALISATION: _Realisation(),
    SCHEDULE: _Schedule(),
    REALISED: _RealisationSchedule(),
}
