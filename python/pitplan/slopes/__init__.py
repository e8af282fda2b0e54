"""From slope angles and ramps to offsets, to the settings that list them; air above steep ground."""
from __future__ import annotations

from typing import TYPE_CHECKING

from ..base.public_names import door

if TYPE_CHECKING:
    from .slopes import Slopes as Slopes
else:
    __getattr__, __dir__, __all__ = door(__name__, {"slopes": "Slopes"})
