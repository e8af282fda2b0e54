"""How far the pits of a command are: a bar on a terminal, lines in a log, and events."""
from __future__ import annotations

import sys
import time
from collections.abc import Iterator
from contextlib import contextmanager
from typing import TYPE_CHECKING

from ..base import events
from ..base.units_shown import share_text
from .console import err

if TYPE_CHECKING:
    from ..study.runs import FactorProgress


@contextmanager
def pits_shown(factors: list[int], workers: int) -> Iterator[FactorProgress]:
    """Shows how far the runs are: on a terminal a bar with the time left and a line for each that
    runs, else a line for each that is done."""
    if not err.is_terminal:
        yield _as_events(_lines(len(factors)), len(factors))
        return
    from rich.progress import BarColumn, Progress, TextColumn, TimeRemainingColumn

    with Progress(
        TextColumn("{task.description}"),
        BarColumn(),
        TextColumn("{task.fields[text]}"),
        TimeRemainingColumn(),
        console=err,
        transient=True,
    ) as bars:
        every = bars.add_task(f"pits, {workers} at a time", total=float(len(factors)), text="")
        lanes: dict[int, int] = {}
        shares: dict[int, float] = {}

        def listener(factor: int, what: str, share: float) -> None:
            shares[factor] = 1.0 if what == "done" else 0.95 * share
            done = sum(value == 1.0 for value in shares.values())
            bars.update(
                every,
                completed=sum(shares.values()),
                text=(
                    f"{done} of {len(factors)}"
                    if what != "proved"
                    else f"{sum(value > 0 for value in shares.values())} of {len(factors)} proved"
                ),
            )
            if what == "proved":
                return  # one run for all factors: no line for each
            if what in ("done", "killed"):
                if factor in lanes:
                    bars.remove_task(lanes.pop(factor))  # type: ignore[arg-type]
            elif factor not in lanes:
                lanes[factor] = bars.add_task(
                    f"  factor {share_text(factor)}", total=1.0, text=what
                )
            else:
                now = what if share < 1 else "checking"
                bars.update(lanes[factor], completed=share, text=now)  # type: ignore[arg-type]

        yield _as_events(listener, len(factors))


def _as_events(listener: FactorProgress, of: int) -> FactorProgress:
    """A listener whose pits are events, too: each hundredth of its way."""
    last: dict[int, tuple[str, int]] = {}

    def progress(factor: int, what: str, share: float) -> None:
        now = what, int(100 * share)
        if last.get(factor) != now:
            last[factor] = now
            events.event("pit", factor=factor, state=what, share=round(share, 2), of=of)
        listener(factor, what, share)

    return progress


def _lines(total: int) -> FactorProgress:
    """A line for each factor that is proved or done, for logs."""
    began, there = time.time(), set[int]()

    def listener(factor: int, what: str, share: float) -> None:
        is_new = what in ("done", "proved") and factor not in there
        if is_new:
            there.add(factor)
        if is_new or what == "killed":
            print(
                (
                    f"factor {share_text(factor)} {what}: {len(there)} of {total} after"
                    f" {time.time() - began:.0f} s"
                ),
                file=sys.stderr,
                flush=True,
            )

    return listener
