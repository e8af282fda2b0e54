"""Compiles inner loops by Numba, when they are first called."""
from __future__ import annotations

from collections.abc import Callable
from typing import Any, TypeVar, cast

from ..base.errors import MachineError

try:
    import numba
except ImportError:
    raise MachineError(
        "Numba isn't there, which a schedule needs", try_this="apt install python3-numba"
    ) from None

_Loop = TypeVar("_Loop", bound=Callable[..., Any])


def compiled(function: _Loop) -> _Loop:
    """A loop that is compiled, and lets other threads run; the code is kept for later runs where
    there is a place for it."""
    try:
        return cast(_Loop, numba.njit(cache=True, nogil=True)(function))
    except RuntimeError:  # no folder for it that may be written
        return cast(_Loop, numba.njit(nogil=True)(function))
