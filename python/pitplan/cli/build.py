"""`pitplan init` and `pitplan build`: from a table to study.toml, and to files for `pit`."""
from __future__ import annotations

from pathlib import Path
from typing import TYPE_CHECKING, Optional

import typer

from ..base.errors import PlanError
from ..base.next_command import command
from ..base.units_shown import duration_text
from ..base.within import refuse_outside
from ..table.study_keys import keys_of
from .console import STUDY, app, described, err, say, tell_aside, warn
from .tables import print_kinds, print_patterns, print_regions, print_tonnage, tell_strange

if TYPE_CHECKING:
    from ..study.study import Study
    from ..study.study_file import StudyFile


@app.command()
def init(
    table: Path = typer.Argument(..., help="A table of blocks: CSV or CSV.gz."),
    folder: Optional[Path] = typer.Option(
        None,
        "--study",
        help="The folder of the new study. Default: the table's name without its ending.",
    ),
    column: list[str] = typer.Option(
        [],
        "--column",
        "-c",
        metavar="KEY=NAME",
        help=(
            "What a column is, as x=este, where its name isn't a usual one. May be given several"
            f" times. KEY is one of {', '.join(keys_of('model')['columns'].choices)}."
        ),
    ),
    encoding: Optional[str] = typer.Option(
        None, "--encoding", help="Of the table where it isn't UTF-8, as cp1252."
    ),
    is_forced: bool = typer.Option(False, "--force", help="Write over a study.toml that is there."),
) -> None:
    """Look at a table of blocks, and write a study.toml for it."""
    from ..base.files import put_aside, whole_file
    from ..study.first_look import look_at, unused_grades, written
    from ..study.building import near

    typed = ([] if folder is None else ["--study", str(folder)]) + ["--force"] * is_forced
    look = look_at(table, dict(map(_named, column)), encoding, typed=typed)
    folder = folder or Path(table.name.removesuffix(".gz").removesuffix(".csv"))
    path = folder / "study.toml"
    _make_folder(folder, path.exists() and not is_forced)
    if path.exists():
        say(f"what stood in {path} is kept as {put_aside(path).name}")
    with whole_file(path) as part:
        part.write_text(written(look, near(table, folder)))
    say(f"{table}: {look.rows:,} rows")
    say("  columns: " + ", ".join(f"{key} = {name}" for key, name in look.names.items()))
    say(f"  grades: {', '.join(look.grades) or 'none found'}")
    if look.region:
        say(f"  regions of slopes, if you want them: {look.region} ({', '.join(look.regions)})")
    if look.oxides:
        say(
            f"  processes, if you want them: {', '.join(look.oxides)} to a mill or a leach,"
            f" {', '.join(look.sulphides)} to the mill"
        )
    if look.size:
        say(
            f"  blocks of {' x '.join(f'{v:g}' for v in look.size)}"
            + (f", turned by {look.rotation:g} degrees" if look.rotation else "")
            + (", with sub-blocks" if look.has_sub_blocks else "")
        )
    for note in [*look.notes, *unused_grades(look)]:
        warn(note, "  ")
    say(
        f"{path} is written: put your own prices, costs and slopes there, then:"
        f" {command('build', folder)}"
    )


def _make_folder(folder: Path, is_taken: bool) -> None:
    """Makes the folder of a new study where there is none, unless it is taken by another study."""
    if is_taken:
        raise PlanError(
            f"{folder / 'study.toml'} is there already",
            try_this="--force writes over it, --study names another folder",
        )
    if folder.exists() and not folder.is_dir():
        raise PlanError(
            f"{folder} is a file, and a study is a folder", try_this="--study names another folder"
        )
    refuse_outside(folder, "written")
    folder.mkdir(parents=True, exist_ok=True)


def _named(said: str) -> tuple[str, str]:
    """A key and the name of its column, from KEY=NAME."""
    key, sign, name = said.partition("=")
    if not sign:
        raise PlanError(f"--column {said} is no KEY=NAME", try_this="--column x=este")
    return key.strip(), name.strip()


@app.command()
def build(folder: Path = STUDY) -> None:
    """Read the table, work out what each block brings and costs, and make the slopes."""
    import numpy as np

    from ..base.amounts import THOUSAND
    from ..model.grade_tonnage import by_rock
    from ..study.strange_inputs import looks
    from ..study.building import Building
    from ..study.study import Study

    plan = described(folder)
    with err.status("reading the table"):
        model = plan.read_model()
    say(
        f"{plan.table.name}: {len(model):,} blocks of"
        f" {' x '.join(f'{v:g}' for v in model.grid.size)} on a grid of"
        f" {' x '.join(map(str, model.grid.shape))}"
    )
    for note in model.notes:
        say("  " + note)
    with err.status("prices and slopes"):
        Building(
            plan.path.parent,
            model,
            plan.economics,
            plan.slopes,
            keys=plan.digest,
        ).write()
        study = Study(plan.path.parent, named=folder)
        study.priced.check_room(max(plan.factors, default=THOUSAND))
    for note in study.model.notes[len(model.notes) :]:
        say("  " + note)
    print_tonnage(by_rock(study.model, study.priced, study.manifest["metals"]))
    print_kinds(study, {"": np.ones(len(study.model), bool)}, "in place,")
    if plan.economics.forbid:
        part = int(plan.economics.partly_forbidden(model).sum())
        say(
            f"{int(study.priced.forbidden.sum()):,} of {len(model):,} blocks may not be dug, by"
            " forbid"
            + (f"; of {part:,} of them it holds for some sub-blocks alone" if part else "")
        )
    print_regions(plan.slopes, model)
    tell_strange(looks(model, study.priced.first(len(model)), plan))
    print_patterns(plan.slopes, study.model.grid, study.model.units.length)
    tell_strange(list(study.pairs.strange()))
    _set_aside(study, plan)
    _print_size(study, plan)


def _set_aside(study: Study, plan: StudyFile) -> None:
    """Puts the tables and pictures of the model before out of the way of the new one's, and says
    so."""
    from ..study import older_outputs

    folder = study.folder / "out"
    keys = {study.key, older_outputs.key_of_walls(plan.slopes, study.model.grid)}
    tell_aside(folder, older_outputs.set_aside(folder, keys), "model")


def _print_size(study: Study, plan: StudyFile) -> None:
    """The first guess of what a pit will take."""
    from ..study.workers import guess_of, workers_for

    guess = guess_of(study)
    count = len(plan.factors)
    workers = workers_for(study)
    say(
        f"{study.pairs}. A pit will take about {guess.memory / 1e6:,.0f} MB and"
        f" {duration_text(guess.seconds)}; all {count}, {workers} at a time,"
        f" {duration_text(guess.seconds * count / workers)}"
    )
    say(f"built in {study.folder}; then: {command('shells', study.named)}")
