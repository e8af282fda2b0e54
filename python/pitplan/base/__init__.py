"""What all other packages use: errors with their remedies, events, amounts and units, whole files
and their digests, the machine, ctrl-C."""
from __future__ import annotations

from typing import TYPE_CHECKING

from .public_names import door

if TYPE_CHECKING:
    from .errors import (
        Disagreement as Disagreement,
        MachineError as MachineError,
        NotAccepted as NotAccepted,
        PlanError as PlanError,
    )
else:
    __getattr__, __dir__, __all__ = door(
        __name__,
        {"errors": "Disagreement MachineError NotAccepted PlanError"},
    )
