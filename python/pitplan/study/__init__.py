"""A study's folder: study.toml, its files for `pit`, its lock, its verdicts, its pits and their
tables, and what looks wrong of it."""
from __future__ import annotations

from typing import TYPE_CHECKING

from ..base.public_names import door

if TYPE_CHECKING:
    from .pit_by_pit import Rates as Rates
    from .shells import (
        Shells as Shells,
        factors as factors,
        series_of as series_of,
        thousandths as thousandths,
    )
    from .study import Study as Study
    from .verdicts import Verdict as Verdict
    from .study_file import StudyFile as StudyFile, read_study_file as read_study_file
else:
    __getattr__, __dir__, __all__ = door(
        __name__,
        {
            "pit_by_pit": "Rates",
            "shells": "Shells factors series_of thousandths",
            "study": "Study",
            "verdicts": "Verdict",
            "study_file": "StudyFile read_study_file",
        },
    )
