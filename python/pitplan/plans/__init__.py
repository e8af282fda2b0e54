"""What is asked of proved pits: pushbacks, widths, designs, what-ifs, realisations of the grades."""
from __future__ import annotations

from typing import TYPE_CHECKING

from ..base.public_names import door

if TYPE_CHECKING:
    from .compare import Comparison as Comparison
    from .design import (
        Design as Design,
        by_column as by_column,
        by_file as by_file,
        by_ids as by_ids,
        with_sub_blocks as with_sub_blocks,
    )
    from .phases import Phases as Phases
    from .risk import Risk as Risk
    from .task_line import Task as Task, task_of as task_of
    from .vary import Change as Change
    from .widening import Widening as Widening
else:
    __getattr__, __dir__, __all__ = door(
        __name__,
        {
            "compare": "Comparison",
            "design": "Design by_column by_file by_ids with_sub_blocks",
            "phases": "Phases",
            "risk": "Risk",
            "task_line": "Task task_of",
            "vary": "Change",
            "widening": "Widening",
        },
    )
