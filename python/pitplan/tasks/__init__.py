"""Units of work that may be started anywhere: on this machine, and by Slurm, Snakemake or Dask."""
from __future__ import annotations

from typing import TYPE_CHECKING

from ..base.public_names import door

if TYPE_CHECKING:
    from .clusters import (
        run_dask as run_dask,
        submit_slurm as submit_slurm,
        write_snakefile as write_snakefile,
    )
    from .local import run_local as run_local
    from .tasks import Tasks as Tasks
else:
    __getattr__, __dir__, __all__ = door(
        __name__,
        {
            "clusters": "run_dask submit_slurm write_snakefile",
            "local": "run_local",
            "tasks": "Tasks",
        },
    )
