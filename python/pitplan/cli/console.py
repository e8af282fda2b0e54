"""What all commands share: the application, where they print, and how they find a study."""
from __future__ import annotations

import os
import sys
from collections.abc import Sequence
from dataclasses import dataclass
from pathlib import Path
from typing import TYPE_CHECKING, Any, Optional

from ..base.lazy_modules import lazily

lazily("typer.rich_utils")  # typer loads it with itself, and only help and errors ask for it

import click
import typer
from rich.console import Console, RenderableType
from rich.markup import escape
from typer.core import TyperGroup

from .. import __version__
from ..base import events
from ..base.errors import PlanError
from ..base.next_command import command
from ..base.within import only_within, refuse_outside
from ..base.units_shown import share_text

if TYPE_CHECKING:
    from rich.status import Status

    from ..study.shells import Shells
    from ..study.study import Study
    from ..study.study_file import StudyFile


class _InOrder(TyperGroup):
    """The commands as they were registered, and not by the alphabet."""

    def list_commands(self, ctx: click.Context) -> list[str]:
        return list(self.commands)

    def get_params(self, ctx: click.Context) -> list[click.Parameter]:
        """The options of the application; those that have no default say none."""
        found = super().get_params(ctx)
        for it in found:  # typer says "[default: None]" of its own, for completions
            if isinstance(it, click.Option) and it.default is None:
                it.show_default = False
        return found


app = typer.Typer(
    cls=_InOrder,
    add_completion=True,
    no_args_is_help=True,
    pretty_exceptions_enable=False,
    rich_markup_mode=None,
    context_settings={"help_option_names": ["-h", "--help"]},
    help=(
        "From a planner's table of blocks to proved pits, tables and pictures. Every best pit that"
        " it shows is proved by `pit`."
    ),
    epilog=(
        "Exit status: 0 done; 1 no, where pit check refuses or a check of pitplan fails; 2 a wrong"
        " use of the command line; 3 a file is wrong; 4 the machine (memory, disk); 130 stopped."
    ),
)


class _Messages(Console):
    """A console whose steps are events, too."""

    def long_step(self, text: str) -> Status:
        """A step that may take minutes: off a terminal, where nothing moves, a line says so."""
        if not self.is_terminal:
            print(f"{text} ..", file=sys.stderr, flush=True)
        return self.status(text)

    def status(self, status: RenderableType, **more: Any) -> Status:
        events.event("step", what=str(status))
        return super().status(status, **more)


@dataclass
class Wants:
    """What was asked for before the command's name: whether a command waits for its turn."""

    waits: bool = True


wants = Wants()
# Off a terminal a table is as wide as COLUMNS says, and else as most of them need.
_WIDE = 160
out = Console(
    width=None if sys.stdout.isatty() or os.environ.get("COLUMNS", "").isdigit() else _WIDE,
    soft_wrap=not sys.stdout.isatty(),
    highlight=False,
)
err = _Messages(stderr=True, highlight=False)
study_toml: Path | None = None  # that was read last, whose lines errors show
STUDY: Any = typer.Argument(
    Path("."), help="The folder of the study, with its study.toml.", show_default="this folder"
)


def and_study(metavar: str, what: str) -> Any:
    """The argument of a command that takes a study, which may be left out, and one more word;
    `study_and` parts them."""
    text = f"The folder of the study (default: this one), and {what}"
    return typer.Argument(..., metavar=f"[FOLDER] {metavar}", help=text)


def study_and(name: str, pair: Sequence[str]) -> tuple[Path, str]:
    """The study that a command of this name is given, and the word after it.

    Raises
    ------
    PlanError
        Where there are further words, or the study stands last, as earlier versions took it.
    """
    *first, last = pair
    if len(first) > 1:
        raise PlanError(f"{pair[2]!r} is a word too many", try_this=command(name, *pair[:2]))
    if first and _is_study(last) and not _is_study(first[0]):
        raise PlanError(
            f"the study comes first: {first[0]} is none, and {last} is one",
            try_this=command(name, last, first[0]),
        )
    return Path(*first), last


def _is_study(word: str) -> bool:
    """Whether a word names a study that is there."""
    path = Path(word)
    return (path if path.suffix == ".toml" else path / "study.toml").is_file()


# beside an option --column that names the column of a design
COLUMN_VALUE: Any = typer.Option(
    None,
    "--value",
    show_default=False,
    help="With --column: the cell of the rows that it takes. Default: any number above 0, or yes.",
)

# beside an option --schedule of a command that looks for several
SCHEDULES_GAP: Any = typer.Option(
    0.5, "--gap", min=0.0, help="With --schedule: end each within so many percent of its bound."
)
SCHEDULES_MINUTES: Any = typer.Option(
    5.0, "--minutes", min=0.0, help="With --schedule: end each after so many minutes."
)


def _tell_version(is_asked: bool) -> None:
    if is_asked:
        out.print(f"pitplan {__version__}")
        raise typer.Exit


@app.callback()
def before_any_command(
    version: bool = typer.Option(
        False, "--version", help="Print the version.", is_eager=True, callback=_tell_version
    ),
    no_wait: bool = typer.Option(
        False, "--no-wait", help="End where another command has the study, and don't wait for it."
    ),
    within: Optional[Path] = typer.Option(
        None,
        "--within",
        metavar="FOLDER",
        help="Read and write nothing outside this folder: no study, table, design or realisations, and no result.",
    ),
) -> None:
    """Options that stand before the command's name."""
    wants.waits = not no_wait
    if within is not None:
        only_within(within)


def say(text: str) -> None:
    """Prints a text as it is: names of the planner's may look like rich's marks."""
    events.event("said", what=text)
    out.print(escape(text), soft_wrap=True)


def warn(text: str, indent: str = "") -> None:
    """Says what the planner should look at."""
    events.look(text)
    err.print(f"{indent}[yellow]look:[/yellow] {escape(text)}", soft_wrap=True)


def tell(error: PlanError) -> None:
    """Prints an error, or each of several, with the line of study.toml that it concerns."""
    from ..base.error_text import lines_of

    for each in error.each():
        if study_toml and each.key and each.table is None and each.row is None:
            each.table = study_toml.name
    events.error(error, study_toml)
    for each in error.each():
        err.print(
            "[red]error:[/red] " + escape("\n".join(lines_of(each, study_toml))), soft_wrap=True
        )


def warn_of_room(wanted: int | None, count: int) -> None:
    """Says where fewer work at a time than were asked for."""
    if wanted and count < wanted:
        warn(f"{count} of {wanted} workers: free memory has no room for more")


def print_columns(
    title: str,
    names: Sequence[str],
    rows: Sequence[Sequence[str]],
    word_columns: int = 0,
    has_total: bool = False,
) -> None:
    """Prints a table of texts; the first `word_columns` columns stand left, and a total below a gap. Where
    the screen is narrow the headings go over several lines, the gaps shrink, and what has no room
    stands in a part of its own below, beside the first columns; no figure and no word is cut off.
    """
    from rich.box import SIMPLE_HEAD
    from rich.table import Table

    from ..base.narrow_tables import folded

    events.event("table", title=title, names=list(names), rows=[list(row) for row in rows])
    fit = folded(names, rows, out.width, max(word_columns, 1))
    for at, part in enumerate(fit.parts):
        shown = Table(
            title=None if at else escape(title),
            title_justify="left",
            box=SIMPLE_HEAD,
            padding=(0, 0) if fit.is_narrow else (0, 1),
            show_edge=not fit.is_narrow,
        )
        for i in part:
            width = fit.widths[i] if fit.is_narrow else None  # rich would take it from words, too
            shown.add_column(
                escape(names[i]), justify="left" if i < word_columns else "right", width=width
            )
        for left, row in zip(reversed(range(len(rows))), rows):
            shown.add_row(*(escape(row[i]) for i in part), end_section=has_total and left == 1)
        out.print(shown, crop=False)


def described(folder: Path) -> StudyFile:
    """What the study's study.toml says."""
    global study_toml
    from ..study.study_file import path_of, read_study_file

    study_toml = path_of(folder)
    refuse_outside(study_toml)
    found = read_study_file(folder)
    refuse_outside(found.table)
    return found


def open_study(folder: Path) -> Study:
    """The study as it was built.

    Raises
    ------
    PlanError
        Where it wasn't built, or study.toml or the table has changed since.
    """
    from ..study.study import Study

    plan = described(folder)
    study = Study(plan.path.parent, named=folder)
    if study.table is not None:
        refuse_outside(study.table)
    study.refuse_changed(plan.path, plan.digest, plan.table)
    return study


def shells_of(folder: Path) -> tuple[Shells, dict[str, Any]]:
    """The shells at all factors of study.toml, and the rates for `Shells.table`; nothing is run.

    Raises
    ------
    PlanError
        Where a pit hasn't been run yet.
    """
    from ..study.shells import Shells

    plan = described(folder)
    study = open_study(folder)
    missing = [factor for factor in plan.factors if not study.verdict(factor)]
    if missing:
        raise PlanError(
            (
                f"{len(missing)} of {len(plan.factors)} pits haven't been run, the first at factor"
                f" {share_text(missing[0])}"
            ),
            try_this=command("shells", folder),
        )
    return Shells(study, plan.factors), plan.rates


def results(study: Study) -> Path:
    """The folder for tables and pictures, made where it isn't there. What is written there from now
    on is noted as of this model."""
    from ..study import older_outputs

    folder = study.folder / "out"
    folder.mkdir(exist_ok=True)
    older_outputs.watch(folder, study.key, warn)
    return folder


def show_schedule(study: Study, digest: str) -> None:
    """From now on what is written shows the schedule with this digest. Exports, reports, tables and
    pictures of another one are put out of the way, and this is said."""
    from ..study import older_outputs

    folder = results(study)
    tell_aside(folder, older_outputs.set_schedules_aside(folder, digest), "schedule")
    older_outputs.watch_schedule(digest)


def tell_aside(folder: Path, aside: tuple[list[str], list[str]], what: str) -> None:
    """Says what of the model or the schedule before was put out of the way, as `older` gives it."""
    from ..study import older_outputs

    (moved, changed), place = aside, folder / older_outputs.OLDER
    if moved:
        say(f"{place} has what was written of the {what} before: {', '.join(moved)}")
    if changed:
        warn(f"{place} has {older_outputs.CHANGED}, of the {what} before: {', '.join(changed)}")
