"""`pitplan task`: the unit of work, for whatever starts it."""
from __future__ import annotations

import signal
import sys
from pathlib import Path
from typing import Any, List

import typer

from ..base.interrupts import stop
from ..base.within import refuse_study
from .console import app, say

_STOPPED = 130

_WORDS: Any = typer.Argument(
    ...,
    help=(
        "run SCENARIO FACTOR, realisation NUMBER FACTORS, schedule SCENARIO 1000 or"
        " realisation-schedule NUMBER 1000; factors in thousandths. - reads such"
        " lines from the standard input."
    ),
)


@app.command()
def task(
    folder: Path = typer.Argument(..., help="The folder of the study."), words: List[str] = _WORDS
) -> None:
    """Find the pits of one task, for clusters. Does nothing where they are there; may be started
    anywhere, twice, and after a crash."""
    from ..plans.task_line import task_of
    from ..tasks.local import serve
    from ..tasks.tasks import Tasks, done_line

    # how a scheduler ends a task: what is half done is taken away, as after ctrl-C
    signal.signal(signal.SIGTERM, stop)
    refuse_study(folder)
    tasks = Tasks(folder)
    if words == ["-"]:
        try:
            serve(
                tasks.do,
                iter(sys.stdin.readline, ""),
                lambda said: print(said, flush=True),
                task_of,
            )
        except KeyboardInterrupt:
            sys.exit(_STOPPED)  # who started this one says so
        return
    found = task_of(words)
    say(done_line(found, tasks.do(found)))
