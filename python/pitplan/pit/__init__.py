"""The one package that starts `pit`, and reads its answers and certificates."""
from __future__ import annotations

from typing import TYPE_CHECKING

from ..base.public_names import door

if TYPE_CHECKING:
    from .program import (
        Accepted as Accepted,
        Bounded as Bounded,
        Files as Files,
        Pit as Pit,
        Stated as Stated,
    )
    from .schedule_answer import Scheduled as Scheduled
    from .value_answer import Valued as Valued
else:
    __getattr__, __dir__, __all__ = door(
        __name__,
        {
            "program": "Accepted Bounded Files Pit Stated",
            "schedule_answer": "Scheduled",
            "value_answer": "Valued",
        },
    )
