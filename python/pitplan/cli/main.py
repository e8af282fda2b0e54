"""The command line: a module of this package for each command, and what an error looks like."""
from __future__ import annotations

import errno
import gc
import importlib
import inspect
import pkgutil
import sys
from pathlib import Path

import click
from rich.markup import escape

from ..base import events, interrupts
from ..base.errors import (
    ENDED,
    MACHINE,
    NO,
    WRONG,
    PlanError,
    exit_status,
    STOPPED,
)
from ..base.lazy_modules import lazily
from ..base.next_command import remember
from ..study import older_outputs
from .console import app, err, tell
from .taking_turns import take_turns

# of a working day, for --help
ORDER = (
    "init",
    "check",
    "build",
    "slopes",
    "shells",
    "plot",
    "page",
    "phases",
    "schedule",
    "export",
    "compare",
    "risk",
    "vary",
    "report",
    "submit",
    "status",
    "task",
    "bundle",
    "schema",
    "desk",
    "doctor",
)
# modules of this package that have no command
_SHARED = ("main", "console", "chosen_pits", "tables", "progress", "tasks_here", "taking_turns")
__all__ = ["ENDED", "MACHINE", "NO", "WRONG", "main"]


def load_commands() -> None:
    """Imports every module of commands; each registers its own."""
    for module in pkgutil.iter_modules([str(Path(__file__).parent)]):
        if module.name not in _SHARED:
            importlib.import_module(f"{__package__}.{module.name}")
    for it in app.registered_commands:  # typer says "[default: None]" of what has no default
        for parameter in inspect.signature(it.callback).parameters.values() if it.callback else ():
            if getattr(parameter.default, "default", 0) in (None, ...):
                parameter.default.show_default = False
    app.registered_commands.sort(
        key=lambda c: (
            ORDER.index(c.callback.__name__)
            if c.callback and c.callback.__name__ in ORDER
            else len(ORDER)
        )
    )


def _remedy(error: OSError) -> str:
    """What to try where the system refuses a file."""
    if error.errno in (errno.EACCES, errno.EPERM, errno.EROFS):
        return (
            "\n  try: a folder that you may write in:"
            f" {escape(str(Path(error.filename or '.').parent))} is none"
        )
    if error.errno == errno.EISDIR:
        return (
            "\n  try: move that folder away, since a file stands there, and run the command again"
        )
    return (
        "\n  try: make room on that disk; what is done is kept"
        if error.errno in (errno.ENOSPC, errno.EDQUOT)
        else ""
    )


def main() -> None:
    """Runs a command. Exit status: 0 done, 1 no, 2 a wrong use of the command line, 3 a file is
    wrong, 4 the machine, 130 stopped."""
    try:
        _run()
    except SystemExit as ended:
        events.end(exit_status(ended))
        gc.freeze()  # or the end goes over all that pandas and Numba have made, half a second
        raise


def _run() -> None:
    """Runs a command, and says how it failed. Ends the process by its exit status."""
    try:
        interrupts.hear()
        remember(sys.argv[0])
        events.begin()
        lazily("pandas")  # the first pits can be looked for while it is loaded
        load_commands()
        take_turns(app)
        try:
            status = app(prog_name="pitplan", standalone_mode=False)
        finally:
            older_outputs.note()
        sys.exit(status if isinstance(status, int) else 0)
    except click.ClickException as error:
        error.show()
        sys.exit(error.exit_code)
    except PlanError as error:
        tell(error)
        sys.exit(exit_status(error))
    except (KeyboardInterrupt, click.Abort) as stopped:  # of click with what it caught as its cause
        err.print(getattr(stopped.__cause__ or stopped, "said", STOPPED))
        sys.exit(ENDED)
    except MemoryError:
        err.print(
            "[red]error:[/red] memory was refused\n  try: fewer --workers, or a machine with more"
            " memory"
        )
        sys.exit(MACHINE)
    except OSError as error:
        what = f"{error.filename}: {error.strerror}" if error.filename else f"{error}"
        err.print(f"[red]error:[/red] {escape(what)}{_remedy(error)}", soft_wrap=True)
        sys.exit(MACHINE)
