"""What a study and its table are called in headings and titles."""
from __future__ import annotations

import os
from pathlib import Path
from typing import TYPE_CHECKING

if TYPE_CHECKING:
    from ..study.study import Study


def name_of(study: Study) -> str:
    """The name of a study is that of its folder. Its table may be called otherwise, and several
    studies may be of one table."""
    return Path(os.path.abspath(study.folder)).name or study.model.name


def table_of(study: Study) -> str:
    """The name of the table that a study is of; nothing where it was made of no file."""
    return study.table.name if study.table else ""
