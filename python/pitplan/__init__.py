"""The planner's side of `pit`: from a table of blocks and slope angles to proved pits, tables and
pictures::

    import pitplan as pp
    model  = pp.read_table("mine.csv", size=(20, 20, 10))
    study  = pp.Study.create("work", model, pp.Economics(...), pp.Slopes(45))
    shells = study.shells(pp.factors(0.3, 1.2, 0.05))
    shells.table(); shells.benches(); shells.of_blocks()

This package computes no best pit. Each that it shows is one that `pit shells` states, which is
proved to state none but the best; or, where certificates were asked for, the PIT lines of one that
`pit check` has accepted. The digests of its files still hold, and its worth, added up again from
the planner's own table, is `pit`'s to the last digit.
"""
from __future__ import annotations

from typing import TYPE_CHECKING

from .base.public_names import door

__version__ = "0.1.0"

if TYPE_CHECKING:
    from .base import (
        Disagreement as Disagreement,
        MachineError as MachineError,
        NotAccepted as NotAccepted,
        PlanError as PlanError,
    )
    from .model import (
        Economics as Economics,
        Grid as Grid,
        Metal as Metal,
        Process as Process,
        Model as Model,
        read_table as read_table,
    )
    from .pit import Accepted as Accepted, Pit as Pit, Stated as Stated
    from .plans import (
        Comparison as Comparison,
        Design as Design,
        Phases as Phases,
        Risk as Risk,
        Task as Task,
    )
    from .slopes import Slopes as Slopes
    from .study import Shells as Shells, Study as Study, factors as factors
    from .tasks import Tasks as Tasks, run_dask as run_dask, run_local as run_local
    from .views import page as page
    from .views import pictures as plot
else:
    __getattr__, __dir__, __all__ = door(
        __name__,
        {
            "base": "Disagreement MachineError NotAccepted PlanError",
            "model": "Economics Grid Metal Model Process read_table",
            "pit": "Accepted Pit Stated",
            "plans": "Comparison Design Phases Risk Task",
            "slopes": "Slopes",
            "study": "Shells Study factors",
            "tasks": "Tasks run_dask run_local",
            "views": "page",
        },
        {"plot": "views.pictures"},
    )
