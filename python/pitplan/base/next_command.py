"""Commands that a message names, spelled so that they can be pasted into a shell."""
from __future__ import annotations

import os
import shlex
import shutil
from pathlib import Path

# in the environment: how this program was called, also for the processes that it starts
_TYPED = "PITPLAN_TYPED"


def remember(called: str) -> None:
    """Keeps how this program was called: by its name where the path leads to it, else by the path
    that was typed."""
    on_path = shutil.which("pitplan")
    if Path(called).name == "pitplan" and not (
        on_path and os.path.exists(called) and os.path.samefile(on_path, called)
    ):
        os.environ.setdefault(_TYPED, called)


def command(name: str, study: str | os.PathLike[str] = ".", *more: str) -> str:
    """A command over a study, as it is typed where this program was called.

    Parameters
    ----------
    name : str
        Of the command.
    study : path
        As the user named it. Default: this folder, which needs no word.
    *more : str
        Further words.

    >>> command("vary", "my mine", "price=-20..20")
    "pitplan vary 'my mine' price=-20..20"
    """
    folder = [] if Path(study) == Path(".") else [str(study)]
    return shlex.join([os.environ.get(_TYPED, "pitplan"), name, *folder, *more])
