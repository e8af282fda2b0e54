"""Ctrl-C that isn't lost: Python drops what is raised within a callback of an import's lock or of the
collector of garbage, so that a command could go on as if nobody had pressed it."""
from __future__ import annotations

import signal
from collections.abc import Collection, Iterator
from concurrent.futures import FIRST_COMPLETED, Future, wait
from typing import TypeVar

_T = TypeVar("_T")
_LOOK = 0.2  # seconds between two looks for a stop
# The signals that came: a list, since a handler that takes a lock waits for itself where it is called
# again within.
_asked: list[int] = []


def hear() -> None:
    """Remembers ctrl-C from now on, beside raising it; where it is ignored, as under nohup, it
    stays so."""
    if signal.getsignal(signal.SIGINT) is signal.default_int_handler:
        signal.signal(signal.SIGINT, stop)


def stop(number: int, frame: object) -> None:
    """What a signal that ends the command does. Raises KeyboardInterrupt.

    SIGTERM does so once: of a parent that was killed it comes as often as the parent had threads,
    and what the first one ends mustn't be disturbed.
    """
    _asked.append(number)
    if number == signal.SIGTERM:
        signal.signal(number, signal.SIG_IGN)
    raise KeyboardInterrupt


def raise_if_asked() -> None:
    """Raises KeyboardInterrupt where such a signal has come."""
    if _asked:
        raise KeyboardInterrupt


def as_they_end(futures: Collection[Future[_T]]) -> Iterator[Future[_T]]:
    """Each future once it is done.

    Raises
    ------
    KeyboardInterrupt
        Once a signal that ends the command has come, also where Python has dropped what it raised.
    """
    left = set(futures)
    while left:
        done, left = wait(left, _LOOK, FIRST_COMPLETED)
        raise_if_asked()
        yield from done
