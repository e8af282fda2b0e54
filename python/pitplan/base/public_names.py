"""Public names of a package that are imported when they are asked for, so that a command loads what
it needs and no more."""
from __future__ import annotations

import importlib
import sys
from collections.abc import Callable, Mapping
from typing import Any

_Door = tuple[Callable[[str], Any], Callable[[], list[str]], list[str]]


def door(package: str, where: Mapping[str, str], also: Mapping[str, str] | None = None) -> _Door:
    """What a package has as its `__getattr__`, `__dir__` and `__all__`.

    Parameters
    ----------
    package : str
        Its name.
    where : mapping
        The names that each of its modules gives, with blanks between them; under "" modules that
        are public themselves.
    also : mapping, optional
        Modules by another name than their own.
    """
    homes = {name: module for module, names in where.items() for name in names.split()}
    modules = also or {}

    def public(name: str) -> Any:
        if name in modules:
            return importlib.import_module(f".{modules[name]}", package)
        if name not in homes:
            raise AttributeError(f"module {package!r} has no attribute {name!r}")
        home = importlib.import_module(f".{homes[name] or name}", package)
        return getattr(home, name) if homes[name] else home

    def listed() -> list[str]:
        return sorted({*vars(sys.modules[package]), *homes, *modules})

    return public, listed, sorted([*homes, *modules])
