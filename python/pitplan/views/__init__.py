"""Pictures of pits, benches and schedules, the page in three dimensions, reports, and exports."""
from __future__ import annotations

from typing import TYPE_CHECKING

from ..base.public_names import door

if TYPE_CHECKING:
    from . import page as page, pictures as pictures
    from .page_views import View as View
    from .pictures import Style as Style
else:
    __getattr__, __dir__, __all__ = door(
        __name__, {"": "page pictures", "page_views": "View", "pictures": "Style"}
    )
