"""Factors and designs that a planner names on the command line, and their pits; the schedule that was
found last."""
from __future__ import annotations

from collections.abc import Sequence
from pathlib import Path
from typing import TYPE_CHECKING, NamedTuple

from ..base.errors import PlanError
from ..base.next_command import command
from ..base.units_shown import share_text
from ..study.shells import Shells, series_of, thousandths
from ..study.study import Study
from ..study.workers import workers_for
from .console import described, err, open_study, say, shells_of, show_schedule, warn
from .progress import pits_shown

if TYPE_CHECKING:
    from ..plans.compare import Comparison
    from ..plans.design import Design
    from ..plans.phases import Phases
    from ..schedule.plan import Schedule
    from ..study.study_file import StudyFile


def shares_of(text: str) -> list[int]:
    """Factors in thousandths of a list with commas, ascending.

    Raises
    ------
    PlanError
        Where one is no share of the price, or they don't ascend.

    >>> shares_of("0.5, 0.75,1")
    [500, 750, 1000]
    """
    found = []
    for word in text.split(","):
        try:
            found.append(float(word))
        except ValueError:
            raise PlanError(
                f"{word.strip()!r} is no factor",
                try_this="shares of the price with commas, as 0.5,0.75,1.0",
            ) from None
    return series_of(found)


def pits_at(folder: Path, series: list[int]) -> Shells:
    """The pits of a study at some factors; nothing is run.

    Raises
    ------
    PlanError
        Where one hasn't been run: with the nearest that have.
    """
    study = open_study(folder)
    for factor in series:
        if not study.verdict(factor):
            raise _not_run(study, factor)
    return Shells(study, series)


def pushbacks_at(folder: Path, factors: str) -> Phases:
    """The pushbacks that end at some factors, a list with commas; it is told whether they are those
    that `phases` widened.

    Raises
    ------
    PlanError
        Where a pit hasn't been run, or there is no such pushback.
    """
    from ..plans.last_pushbacks import again

    shells = pits_at(folder, shares_of(factors))
    with err.status("pushbacks are cut"):
        found, which = again(shells)
    say(which)
    return found


def with_certificates(shells: Shells) -> Shells:
    """The same pits with their certificates; a bar shows how far those are that are made now."""
    left = [verdict["factor"] for verdict in shells.verdicts if not verdict["certificate"]]
    if not left:
        return shells
    count = workers_for(shells.study)
    with pits_shown(left, count) as listener:
        return shells.with_certificates(
            count,
            lambda factor, what, share: listener(factor, what, share) if factor in left else None,
        )


def last_schedule(folder: Path) -> Schedule:
    """The schedule that was found last by the terms of study.toml.

    Raises
    ------
    PlanError
        Where none was.
    """
    from ..schedule.plan import Schedule

    plan = described(folder)
    shells, rates = shells_of(folder)
    found = Schedule.last(shells, plan.values["schedule"], rates)
    if found is None:
        raise PlanError(
            "no schedule by the terms of study.toml has been found",
            try_this=command("schedule", folder),
        )
    show_schedule(shells.study, found.digest)
    return found


def schedule_if_found(plan: StudyFile, shells: Shells) -> Schedule | None:
    """The same; None where there is none, which is told where there is another one."""
    if not (shells.study.folder / "runs" / "schedule").is_dir():
        return None
    from ..schedule.plan import Schedule  # needs Numba

    found = Schedule.last(shells, plan.values["schedule"], plan.rates)
    if found is None:
        warn(
            "the plan by years isn't in it: it was found for other terms, prices or pits than"
            f" those of study.toml now\n  try: {command('schedule', shells.study.named)}, and report again"
        )
    else:
        show_schedule(shells.study, found.digest)
    return found


class DesignOptions(NamedTuple):
    """The options that name a design: one of a file of ids, of a surface, of either, and a
    column."""

    ids: Path | None = None
    surface: Path | None = None
    file: Path | None = None
    column: str | None = None
    value: str | None = None
    layers: Sequence[str] = ()


def design_of(study: Study, options: DesignOptions, encoding: str | None) -> Design:
    """The design that options name. `encoding` is that of the study's table.

    Raises
    ------
    PlanError
        Where it can't be read, or isn't one of this model.
    """
    from ..plans.design import by_column, by_file, by_ids_of, by_surface, with_sub_blocks

    ids, surface, file, column, value, layers = options
    is_surface = surface or file and file.suffix.lower() == ".dxf"
    with err.long_step("the design is read"):
        model = study.model if is_surface else with_sub_blocks(study)
        if ids:
            return by_ids_of(model, ids, encoding)
        if surface:
            return by_surface(model, surface, layers, encoding)
        if file:
            return by_file(model, file, layers, encoding)
        return by_column(model, str(column), value)


def beside(study: Study, design: Design, factor: float) -> Comparison:
    """A design beside the best pit at a factor, as a share of the price.

    Raises
    ------
    PlanError
        Where that pit hasn't been run.
    """
    from ..plans.compare import compare

    wanted = thousandths(factor)
    if not study.verdict(wanted):
        raise _not_run(study, wanted)
    if not study.certified(wanted):
        with_certificates(Shells(study, [wanted]))
    with err.long_step("pit value reads the design"):
        return compare(study, design, wanted)


def _not_run(study: Study, factor: int) -> PlanError:
    """The error of a pit that isn't there."""
    there = [
        int(path.name[1:])
        for path in sorted((study.folder / "runs" / "base").glob("f*"))
        if path.name[1:].isdigit()
    ]
    there = [found for found in there if study.verdict(found)]
    near = sorted(sorted(there, key=lambda found: abs(found - factor))[:2])
    if not near:
        return PlanError(
            f"the pit at factor {share_text(factor)} hasn't been run",
            try_this=command("shells", study.named),
        )
    return PlanError(
        f"the pit at factor {share_text(factor)} hasn't been run; the nearest that have are "
        + ", ".join(share_text(found) for found in near),
        try_this=(
            "one of these; or put it into factors in [shells] of study.toml, then:"
            f" {command('shells', study.named)}"
        ),
    )
