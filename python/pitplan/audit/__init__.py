"""What an auditor gets, the scripts that check it again without this package, and what
`pitplan doctor` looks at."""
from __future__ import annotations

from typing import TYPE_CHECKING

from ..base.public_names import door

if TYPE_CHECKING:
    from . import bundle as bundle
    from .doctor import Finding as Finding, findings as findings
else:
    __getattr__, __dir__, __all__ = door(__name__, {"": "bundle", "doctor": "Finding findings"})
