"""A block model on a regular grid: rows, gaps and sub-blocks, what each block weighs, brings and
costs, its class, and how a model is kept."""
from __future__ import annotations

from typing import TYPE_CHECKING

from ..base.public_names import door

if TYPE_CHECKING:
    from .economics import Economics as Economics, Metal as Metal, Process as Process
    from .grid import Grid as Grid
    from .model import Model as Model, TableKeys as TableKeys, read_table as read_table
else:
    __getattr__, __dir__, __all__ = door(
        __name__,
        {
            "economics": "Economics Metal Process",
            "grid": "Grid",
            "model": "Model TableKeys read_table",
        },
    )
