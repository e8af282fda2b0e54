"""A plan by years of the best pit's blocks, and a bound of what any such plan is worth: the mine in
whole numbers, its relaxation, the search, `pit`'s judgement, tables."""
from __future__ import annotations

from typing import TYPE_CHECKING

from ..base.public_names import door

if TYPE_CHECKING:
    from .plan import Schedule as Schedule
    from .production import Production as Production
    from .search import Search as Search
    from .terms import Terms as Terms
    from .year_ends import YearEnds as YearEnds
else:
    __getattr__, __dir__, __all__ = door(
        __name__,
        {
            "plan": "Schedule",
            "production": "Production",
            "search": "Search",
            "terms": "Terms",
            "year_ends": "YearEnds",
        },
    )
