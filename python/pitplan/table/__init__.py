"""The planner's table as text: its dialect, what its columns are, formulas over them, cells as
numbers; and the keys of study.toml."""
from __future__ import annotations

from typing import TYPE_CHECKING

from ..base.public_names import door

if TYPE_CHECKING:
    from .formula import worked_out as worked_out
    from .spreadsheets import write_table as write_table
else:
    __getattr__, __dir__, __all__ = door(
        __name__, {"formula": "worked_out", "spreadsheets": "write_table"}
    )
