"""How many processors and how much memory a process may use, by the system and by the control
groups that a container or a scheduler sets.

Linux has two versions of control groups, and a machine may have both. Of either the group of this
process and each group above it may have limits; a container that sees its own groups alone has them
at the top. Memory that only holds pages of files isn't taken: the system gives it away where it is
needed.

The scripts of this repository use this module too, by ``tools/machine.py``, so it needs nothing but
Python's own.
"""
from __future__ import annotations

import os
import re
from collections.abc import Iterator
from pathlib import Path

_GROUPS = Path("/sys/fs/cgroup")
_OWN_CGROUP = Path("/proc/self/cgroup")
_MEMORY = Path("/proc/meminfo")
UNKNOWN = 6_000_000_000  # bytes, where neither the system nor a group says anything
_TWO = ""  # where version 2 stands beside the controllers of version 1


def _text_of(file: Path) -> str:
    """What a file has; nothing where it can't be read."""
    try:
        return file.read_text()
    except (OSError, ValueError):
        return ""


def _number_in(text: str, pattern: str) -> int | None:
    """The number that the first group of a pattern finds in a text."""
    found = re.search(pattern, text, re.M)
    return int(found[1]) if found else None


def _folders(controller: str, groups: Path = _GROUPS, own: Path = _OWN_CGROUP) -> list[Path]:
    """The folders of this process's group and of those above it, from the top down.

    Parameters
    ----------
    controller : str
        Of version 1, as "memory"; `_TWO` for version 2.
    """
    lines = [line.split(":", 2) for line in _text_of(own).splitlines() if line.count(":") >= 2]
    path = next(
        (
            path
            for number, names, path in lines
            if (controller in names.split(",") if controller else number == "0" and not names)
        ),
        "",
    )
    parts = [part for part in path.split("/") if part and part != ".."]
    tops = [groups / controller] if controller else [groups, groups / "unified"]
    return [top.joinpath(*parts[:count]) for top in tops for count in range(len(parts) + 1)]


def processors(groups: Path = _GROUPS, own: Path = _OWN_CGROUP) -> int:
    """How many processors this process may keep busy: those that it may run on, or the whole ones
    of its quota, at least one."""
    found = [len(os.sched_getaffinity(0))]
    for folder in _folders(_TWO, groups, own):
        quota = re.match(r"(\d+) (\d+)", _text_of(folder / "cpu.max"))
        found += [int(quota[1]) // int(quota[2])] if quota and int(quota[2]) else []
    for folder in _folders("cpu", groups, own):
        share, period = (
            _number_in(_text_of(folder / name), r"^(\d+)")
            for name in ("cpu.cfs_quota_us", "cpu.cfs_period_us")
        )
        found += [share // period] if share and period else []
    return max(1, min(found))


def free_memory(groups: Path = _GROUPS, own: Path = _OWN_CGROUP, memory: Path = _MEMORY) -> int:
    """How many bytes of memory this process may still take: what is free on the machine, and what
    its groups' limits leave."""
    free = _number_in(_text_of(memory), r"^MemAvailable:\s+(\d+)")
    found = [free * 1024] if free is not None else []
    for limit, held, taken in _limits(groups, own):
        found.append(limit - sum(_number_in(held, rf"^{kind} (\d+)") or 0 for kind in taken))
    return max(0, min(found, default=UNKNOWN))


def whole_memory(groups: Path = _GROUPS, own: Path = _OWN_CGROUP, memory: Path = _MEMORY) -> int:
    """How many bytes of memory a process may take that has the machine, or its group, to itself:
    those of the machine, or the least of its groups' limits."""
    whole = _number_in(_text_of(memory), r"^MemTotal:\s+(\d+)")
    found = [whole * 1024] if whole is not None else []
    found += [limit for limit, _, _ in _limits(groups, own)]
    return min(found, default=UNKNOWN)


def _limits(groups: Path, own: Path) -> Iterator[tuple[int, str, tuple[str, ...]]]:
    """Each limit of memory that this process's groups have: its bytes, the text of what the group
    holds, and the kinds of memory there that count as taken."""
    for controller, names, taken in (
        (_TWO, ("memory.max", "memory.high"), ("anon", "shmem")),
        ("memory", ("memory.limit_in_bytes",), ("total_rss", "total_shmem")),
    ):
        for folder in _folders(controller, groups, own):
            for name in names:
                limit = _number_in(_text_of(folder / name), r"^(\d+)")
                if limit is not None:
                    yield limit, _text_of(folder / "memory.stat"), taken
