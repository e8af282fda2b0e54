"""Modules that are loaded when something of them is asked for: some take longer to load than many a
command takes to run."""
from __future__ import annotations

import importlib
import importlib.util
import sys
import threading
from importlib.machinery import ModuleSpec, PathFinder
from types import ModuleType
from typing import Any

_LOADING = threading.RLock()
_STOPPED_BY = "stopped by"  # no name that code asks for


class _Later(ModuleType):
    """A module that is loaded when something of it is asked for. What stops that, as ctrl-C does,
    comes again at whatever is asked for then: a handler that names an error of the module would
    hide it."""

    def __getattr__(self, name: str) -> Any:
        with _LOADING:
            if sys.modules.get(self.__name__) is self:
                del sys.modules[self.__name__]
                try:
                    self.__dict__.update(vars(importlib.import_module(self.__name__)))
                except BaseException as error:
                    self.__dict__[_STOPPED_BY] = error
                    raise
        if _STOPPED_BY in self.__dict__:
            raise self.__dict__[_STOPPED_BY]
        return getattr(sys.modules[self.__name__], name)


def lazily(name: str) -> None:
    """Lets the import of a module wait; one that isn't there, or is loaded already, stays as it
    is."""
    spec = None if name in sys.modules else _spec_of(name)
    if spec:
        sys.modules[name] = _Later(name)
        sys.modules[name].__spec__ = spec


def _spec_of(name: str) -> ModuleSpec | None:
    """Where a module is, or a module of a package, which isn't loaded for that."""
    package, _, inner = name.rpartition(".")
    if not package:
        return importlib.util.find_spec(inner)
    of_package = importlib.util.find_spec(package)
    return PathFinder.find_spec(name, of_package.submodule_search_locations) if of_package else None
