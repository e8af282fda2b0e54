"""A task as the line of words that names it."""
from __future__ import annotations

import hashlib
from collections.abc import Sequence
from dataclasses import dataclass

from ..base.amounts import THOUSAND
from ..base.errors import PlanError
from ..study.shells import thousandths

BASE = "base"
RUN, REALISATION = "run", "realisation"
SCHEDULE, REALISED = "schedule", "realisation-schedule"
# of each kind of task whether its name is a number; what it does is in `tasks.task_kinds`
_IS_NUMBERED = {RUN: False, REALISATION: True, SCHEDULE: False, REALISED: True}


@dataclass(frozen=True, order=True)
class Task:
    """A line of words after ``pitplan task STUDY``.

    Attributes
    ----------
    kind : str
        One of `_IS_NUMBERED`.
    name : str
        Of the scenario, "base" for the study itself; or the number of the realisation, from 0.
    factors : tuple of int
        In thousandths, ascending.
    """

    kind: str
    name: str
    factors: tuple[int, ...]

    def __str__(self) -> str:
        return f"{self.kind} {self.name} {','.join(map(str, self.factors))}"

    @property
    def label(self) -> str:
        """Its name in file names, which have at most 255 bytes: of many factors the first, the last
        and a digest of all."""
        whole = str(self).replace(" ", "_").replace(",", "_")
        if len(whole) <= 100:
            return whole
        digest = hashlib.sha256(whole.encode()).hexdigest()[:16]
        return f"{self.kind}_{self.name}_{self.factors[0]}-{self.factors[-1]}_{digest}"


def task_of(words: Sequence[str]) -> Task:
    """The task that words name.

    Raises
    ------
    PlanError
        Where they name none.

    >>> str(task_of(["realisation", "17", "800,1000"]))
    'realisation 17 800,1000'
    """
    example = "pitplan task STUDY run base 800, or pitplan task STUDY realisation 17 800,1000"
    if len(words) != 3 or words[0] not in _IS_NUMBERED:
        raise PlanError(f"{' '.join(words)!r} is no task", try_this=example)
    is_numbered, parts = _IS_NUMBERED[words[0]], words[2].split(",")
    if not all(part.isdigit() for part in parts) or (is_numbered and not words[1].isdigit()):
        raise PlanError(
            f"{' '.join(words)!r} is no task: factors are whole thousandths", try_this=example
        )
    factors = tuple(sorted({thousandths(int(part) / THOUSAND) for part in parts}))
    return Task(words[0], str(int(words[1])) if is_numbered else words[1], factors)
