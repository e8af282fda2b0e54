"""`--within FOLDER`: nothing outside a folder is read or written, for whoever runs studies of
others.

What a study.toml names may be any file of the machine, and a folder of a study may be a link to any
other. With this option a study, a table, a design or realisations that lie outside the folder,
links followed, are refused before they are read, and so is each place that something would be
written to, also where the command line names it. It holds for the processes that the command
starts, too.
"""
from __future__ import annotations

import os
from pathlib import Path

from .errors import PlanError

NAME = "PITPLAN_WITHIN"  # in the environment, for the processes that this one starts


def only_within(folder: Path) -> None:
    """From now on nothing outside a folder is read or written.

    Raises
    ------
    PlanError
        Where it is no folder.
    """
    if not folder.is_dir():
        raise PlanError(f"--within {folder}: there is no such folder")
    os.environ[NAME] = str(folder.resolve())


def is_outside(path: Path) -> bool:
    """Whether a file lies outside of the folder, links followed; no file does where none was
    named."""
    folder = os.environ.get(NAME)
    return bool(folder) and not path.resolve().is_relative_to(str(folder))


def refuse_study(folder: Path) -> None:
    """Refuses a study that lies outside of the folder, or in which a link leads outside: what is
    written there would go through it.

    Raises
    ------
    PlanError
        Naming the link.
    """
    if not os.environ.get(NAME):
        return
    refuse_outside(folder, "written")
    for top, folders, files in os.walk(folder):
        for path in (Path(top, name) for name in (*folders, *files)):
            if path.is_symlink() and is_outside(path):
                raise PlanError(
                    f"is a link that leads outside of {os.environ[NAME]}, and --within lets nothing be written there",
                    table=path,
                    try_this="take the link away, or put the file itself there",
                )


def refuse_outside(path: Path, what: str = "read") -> None:
    """Refuses a file that lies outside of the folder, where one was named.

    Parameters
    ----------
    path : Path
        Of a file that may not be there yet.
    what : {"read", "written"}

    Raises
    ------
    PlanError
        Where it does.
    """
    if is_outside(path):
        raise PlanError(
            f"lies outside of {os.environ[NAME]}, and --within lets nothing else be {what}",
            table=path,
        )
