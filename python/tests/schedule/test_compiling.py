"""Inner loops are compiled, give what Python gives, and let other threads run."""
import importlib
import sys

import numpy as np
import pytest

from pitplan.base.errors import MachineError
from pitplan.schedule import compiling
from pitplan.schedule.compiling import compiled


def added(values: np.ndarray) -> int:
    total = 0
    for value in values:
        total += value
    return total


def test_a_loop_is_compiled_and_gives_the_same():
    loop = compiled(added)
    values = np.arange(1000)
    assert loop(values) == added(values)
    assert loop.signatures  # of Numba: it was compiled for these arrays
    assert loop.targetoptions["nogil"]


def test_where_no_folder_may_be_written_it_is_compiled_all_the_same(monkeypatch):
    right, asked = compiling.numba.njit, []

    def njit(**options):
        asked.append(options)
        if options.pop("cache", False):
            raise RuntimeError("cannot cache function: no locator available")
        return right(**options)

    monkeypatch.setattr(compiling.numba, "njit", njit)
    loop = compiled(added)
    monkeypatch.undo()  # Numba's own code asks for it when it first compiles
    assert loop(np.arange(4)) == 6
    assert len(asked) == 2


def test_without_numba_the_package_is_named(monkeypatch):
    monkeypatch.setitem(sys.modules, "numba", None)
    try:
        with pytest.raises(MachineError, match="Numba isn't there") as refused:
            importlib.reload(compiling)
    finally:
        monkeypatch.undo()
        importlib.reload(compiling)
    assert refused.value.try_this == "apt install python3-numba"
