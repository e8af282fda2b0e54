"""`pitplan check`: all errors of study.toml and the table, and what lies in the ground."""
from __future__ import annotations

import time
from collections.abc import Mapping
from pathlib import Path
from typing import TYPE_CHECKING, Any, NoReturn

import typer

from ..base.errors import ENDED, Gathered, PlanError
from ..base.next_command import command
from ..base.units_shown import counted
from . import console
from .tables import print_regions, print_tonnage, tell_strange
from .console import STUDY, app, err, say

if TYPE_CHECKING:
    from ..study.check import Checked

_EVERY = 0.3  # seconds between two looks whether a file was saved
_MOST_COLUMNS = 12  # whose cells are counted in a line
_COMPASS = {"north": 0, "east": 90, "south": 180, "west": 270}


@app.command()
def check(
    folder: Path = STUDY,
    is_watching: bool = typer.Option(
        False,
        "--watch",
        help="Do it again whenever study.toml or the table is saved, until stopped.",
    ),
) -> None:
    """Say what is wrong with a study, all of it at once, and what looks wrong. Takes seconds; builds nothing."""
    if is_watching:
        try:
            _watch(folder)
        except KeyboardInterrupt:  # nothing was begun that could be kept
            err.print("stopped")
            raise typer.Exit(ENDED) from None
    checked = _once(folder)
    found = Gathered()
    found.add(checked.errors)
    found.tell()
    say(f"{_ending(checked)}; then: {command('build', folder)}")


def _ending(checked: Checked) -> str:
    """What a check came to, in words."""
    if checked.errors:
        return counted(len(checked.errors), "error")
    looks = counted(len(checked.looks), "look")
    return f"no errors; {looks} to decide on" if checked.looks else "nothing is wrong"


def _not_estimated(cells: Mapping[str, int]) -> str:
    """How many cells of which columns count as 0, by `absent`.

    >>> _not_estimated({"CU": 1, "AU": 1200})
    'not estimated, by absent: 1 cell of CU, 1,200 cells of AU'
    """
    parts = [f"{counted(count, 'cell')} of {name}" for name, count in cells.items()]
    more = len(parts) - _MOST_COLUMNS
    return f"not estimated, by absent: {', '.join(parts[:_MOST_COLUMNS])}" + (
        f", and of {counted(more, 'further column')}" if more > 0 else ""
    )


def _once(folder: Path) -> Checked:
    """Checks a study, shows what there is to show, and gives what was found."""
    from ..study.check import check
    from ..study.study_file import path_of

    console.study_toml = path_of(folder)
    with err.status("reading study.toml and the table"):
        found = check(folder)
    model, parts = found.model, found.parts
    if model is not None:
        say(
            (
                f"{model.table}: {len(model):,} blocks of"
                f" {' x '.join(f'{v:g}' for v in model.grid.size)} on a grid of"
                f" {' x '.join(map(str, model.grid.shape))}"
            )
        )
        for note in model.notes:
            say("  " + note)
        if model.absent_cells:
            say("  " + _not_estimated(model.absent_cells))
    if parts and parts.slopes and model is not None:
        for name in parts.slopes.names:
            wall = parts.slopes.wall(name, model.grid.size, model.grid.rotation)
            say(
                f"  walls of {name}, as seen from the pit's middle: "
                + ", ".join(f"{way} {wall.slope(bearing):.4g}" for way, bearing in _COMPASS.items())
            )
        if not any(error.key[:1] == ("slopes",) for error in found.errors):
            print_regions(parts.slopes, model)
    tonnage = found.tonnage
    if tonnage is not None:
        print_tonnage(tonnage)
    if parts and not found.errors:
        from ..schedule.terms import wrong_terms

        plan = parts.whole()
        found.errors += wrong_terms(plan, command("shells", folder))
        for line in _order_said(plan.values["schedule"]) if not found.errors else ():
            say(line)
    tell_strange(found.looks)
    return found


def _order_said(terms: Mapping[str, Any]) -> list[str]:
    """In which order pushbacks will be dug, by [schedule]; nothing where it has none.

    >>> print(*_order_said({"pushbacks": [0.5, 0.8], "lead": 2}), sep="\\n")
    pushbacks, dug in this order by [schedule], each 2 benches ahead of those after it:
      1: the pit of factor 0.5
      2: what the pit of factor 0.8 adds
      3: the rest of the best pit
    """
    shares = terms["pushbacks"] or []
    if not shares:
        return []
    ahead = f", each {terms['lead']} bench{'es' * (terms['lead'] > 1)} ahead of those after it"
    first, *more = (f"{share:g}" for share in shares)
    parts = [f"the pit of factor {first}"]
    parts += [f"what the pit of factor {share} adds" for share in more]
    return [
        f"pushbacks, dug in this order by [schedule]{ahead if terms['lead'] else ''}:",
        *(f"  {n}: {part}" for n, part in enumerate([*parts, "the rest of the best pit"], 1)),
    ]


def _watch(folder: Path) -> NoReturn:
    """Checks a study whenever it is saved, until ctrl-C."""
    seen = None
    while True:
        now = _stamps(folder)
        if now != seen:
            seen = now
            say(time.strftime("%H:%M:%S"))
            found = _once(folder)
            for error in found.errors:
                console.tell(error)
            say(f"{_ending(found)}; ctrl-C ends")
        time.sleep(_EVERY)


def _stamps(folder: Path) -> list[tuple[int, int] | None]:
    """When study.toml and the table were written last, and their sizes; None of a file that isn't
    there."""
    from ..study.study_file import parts_of_file, path_of

    path, table = path_of(folder), None
    try:
        table = parts_of_file(folder).table
    except PlanError:
        pass
    return [_stamp(path), _stamp(table) if table else None]


def _stamp(path: Path) -> tuple[int, int] | None:
    """When a file was written last, and its size; None where it isn't there."""
    try:
        found = path.stat()
    except OSError:
        return None
    return found.st_mtime_ns, found.st_size
