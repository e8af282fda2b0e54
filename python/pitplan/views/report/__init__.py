"""A study as a report: what it says is gathered once, and written as PDF and as a workbook."""
from __future__ import annotations

from typing import TYPE_CHECKING

from ...base.public_names import door

if TYPE_CHECKING:
    from . import pdf as pdf, xlsx as xlsx
    from .contents import Report as Report, gathered as gathered
else:
    __getattr__, __dir__, __all__ = door(__name__, {"": "pdf xlsx", "contents": "Report gathered"})
