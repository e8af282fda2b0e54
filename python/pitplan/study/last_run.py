"""What the last command that had a study did, in words, by its events and by the study's lock."""
from __future__ import annotations

import time
from collections.abc import Mapping, Sequence
from pathlib import Path
from typing import Any

from ..base.events import of_last_run, step_words
from .study_lock import is_held

_Event = Mapping[str, Any]


def last_line(folder: Path) -> str | None:
    """A line of the command that has the study, or of the last that had it; None where none had it
    yet."""
    events, who = of_last_run(folder), is_held(folder)
    if who is not None:
        return f"now: {who}{_how_far(events)}"
    began = next((event for event in events if event["event"] == "begin"), None)
    if began is None:
        return None
    last = events[-1]
    name, at = " ".join(map(str, began.get("command", []))), time.strftime(
        "%Y-%m-%d %H:%M:%S", time.localtime(float(last.get("time", 0)))
    )
    if last["event"] != "end":
        return (
            f"last: {name} was ended from outside at {at}{_how_far(events)}; the same command goes"
            " on from there"
        )
    if last.get("status") == 0:
        return (
            f"last: {name} was done at {at}, after"
            f" {float(last['time']) - float(began['time']):.0f} s"
        )
    wrong = next(
        (str(event["said"]) for event in events if event["event"] == "error" and "said" in event),
        "",
    )
    return f"last: {name} ended with status {last.get('status')} at {at}" + (
        f": {wrong}" if wrong else ""
    )


def now_at(folder: Path, command: str) -> str | None:
    """How far a command of this name is that has the study now; None where none has it."""
    events = of_last_run(folder)
    if is_held(folder) is None or not events or events[0].get("command", [])[1:2] != [command]:
        return None
    return _how_far(events).removeprefix(", ") or "begins"


def _how_far(events: Sequence[_Event]) -> str:
    """How many pits are done, or what was begun last; "" where nothing is told."""
    done = {
        event["factor"]
        for event in events
        if event["event"] == "pit" and event.get("state") in ("done", "proved")
    }
    of = next((event["of"] for event in reversed(events) if event["event"] == "pit"), None)
    if of:
        return f", {len(done)} of {of} pits"
    tasks = next((event for event in reversed(events) if event["event"] == "task"), None)
    if tasks:
        return f", {tasks.get('done')} of {tasks.get('of')} tasks"
    step = next((event for event in reversed(events) if event["event"] == "step"), None)
    return f", {step_words(step)}" if step else ""
