"""A process that does what needs pitplan, one thing after the other; ended and begun anew where one takes too long."""
from __future__ import annotations

import asyncio
import multiprocessing
import os
import threading
from collections.abc import Callable
from concurrent.futures import ProcessPoolExecutor
from concurrent.futures.process import BrokenProcessPool
from importlib import import_module
from pathlib import Path
from typing import Any, Union

from ..base.machine import whole_memory
from ..base.within import only_within
from .folder import Refused, refused

PATIENCE = 300  # seconds that a question may take
_SHARE = 0.85  # of the memory of the machine, or of its container, that this process may take
# a function of `work` by its name, which only the process loads
_Do = Union[str, Callable[..., Any]]


class Worker:
    """It works in the desk's folder `root`, so that messages name files as a planner there would."""

    def __init__(self, root: Path) -> None:
        self.root = root
        self.pool: ProcessPoolExecutor | None = None

    def begin(self) -> ProcessPoolExecutor:
        """The process, started where there is none."""
        if self.pool is None:
            context = multiprocessing.get_context("spawn")
            self.pool = ProcessPoolExecutor(1, context, settle, (self.root,))
            self.pool.submit(import_module, f"{__package__}.work")  # the first question waits less
        return self.pool

    async def __call__(self, do: _Do, *words: Any) -> Any:
        """Has a function of `work` done; paths are told as from the desk's folder."""
        near = [it.relative_to(self.root) if isinstance(it, Path) else it for it in words]
        said = "the process that did this was ended: memory was short, or somebody ended it"
        for _ in range(2):  # once more alone: the question itself may end the process
            pool = self.begin()
            try:
                asked = asyncio.wrap_future(pool.submit(answered, do, *near))
                return await asyncio.wait_for(asked, PATIENCE)
            except BrokenProcessPool:
                self.end(pool)
            except asyncio.TimeoutError:
                self.end(pool)
                said = f"that took longer than {PATIENCE} seconds, and was ended"
                break
        return Refused(503, said, "the same once more").answer

    def end(self, pool: ProcessPoolExecutor | None = None) -> None:
        """Ends the process, whatever it does."""
        pool = pool or self.pool
        if pool is None:
            return
        for process in list((pool._processes or {}).values()):
            process.kill()
        pool.shutdown(wait=False)
        if self.pool is pool:
            self.pool = None


def settle(root: Path) -> None:
    """At the start of a process: where it works, that it reads nothing outside, and what memory it may take."""
    import resource

    os.chdir(root)
    only_within(root)
    threading.Thread(target=_end_with_the_desk, daemon=True).start()
    most = int(_SHARE * whole_memory())
    resource.setrlimit(resource.RLIMIT_AS, (most, most))


def _end_with_the_desk() -> None:
    """Waits for the desk's end, and ends this process. Linux's own signal comes by thread."""
    desk = multiprocessing.parent_process()
    assert desk is not None
    desk.join()
    os._exit(1)


def answered(do: _Do, *words: Any) -> Any:
    """What a function gives, or its error as a planner is told it."""
    try:
        do = getattr(import_module(f"{__package__}.work"), do) if isinstance(do, str) else do
        return do(*words)
    except Exception as error:  # some can't be told from process to process
        return refused(error).answer
