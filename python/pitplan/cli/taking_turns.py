"""How a command gets a study to itself, and tells what it does."""
from __future__ import annotations

import functools
from collections.abc import Callable, Mapping
from pathlib import Path
from typing import Any

import typer

from ..base import events
from ..base.errors import PlanError, exit_status
from ..base.within import refuse_study
from ..study.study_lock import turn
from .console import Wants, err, wants

# The commands that write into a study.
WRITERS = (
    "build",
    "slopes",
    "shells",
    "plot",
    "page",
    "phases",
    "schedule",
    "export",
    "compare",
    "risk",
    "vary",
    "report",
    "submit",
    "bundle",
)


_DONE = 0


def take_turns(app: typer.Typer) -> None:
    """Lets each command that writes into a study have it to itself while it runs."""
    for command in app.registered_commands:
        if command.callback is not None and command.callback.__name__ in WRITERS:
            command.callback = _alone(command.callback)


def _named_study(arguments: Mapping[str, Any]) -> Path:
    """The study that a command was given: by an argument of its own, by the one of its words that
    is no change, or by the first of two."""
    words = [word for word in arguments.get("words") or () if "=" not in word]
    words += arguments.get("pair", ())[:-1]
    return Path(arguments.get("folder") or (words[0] if words else "."))


def _waiting(who: str) -> None:
    """Says who has the study that a command waits for."""
    events.event("wait", what=who)
    err.print(f"waiting: {who}", markup=False, soft_wrap=True)


def _alone(command: Callable[..., Any], waiting: Wants = wants) -> Callable[..., Any]:
    """A command that has its study to itself, and leaves in it what it told."""

    @functools.wraps(command)
    def run(*args: Any, **arguments: Any) -> Any:
        from ..study.study_file import path_of

        folder = path_of(_named_study(arguments)).parent
        refuse_study(folder)
        with turn(folder, events.words(), waiting.waits, _waiting), events.of_study(folder) as ends:
            try:
                found = command(*args, **arguments)
            except BaseException as wrong:
                ends(exit_status(wrong), wrong if isinstance(wrong, PlanError) else None)
                raise
            ends(found if isinstance(found, int) else _DONE, None)
            return found

    return run
