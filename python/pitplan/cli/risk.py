"""`pitplan risk`: realisations of the grades."""
from __future__ import annotations

import sys
from collections.abc import Iterator
from contextlib import contextmanager
from pathlib import Path
from typing import TYPE_CHECKING, Optional

import typer

from ..base.errors import PlanError
from ..base.next_command import command
from ..base.units_shown import counted, printed_scale
from .console import (
    SCHEDULES_GAP,
    SCHEDULES_MINUTES,
    STUDY,
    app,
    described,
    err,
    open_study,
    print_columns,
    results,
    say,
    warn,
)
from .tables import print_rock_of_classes
from .tasks_here import do_all, tell_slurm

if TYPE_CHECKING:
    import pandas as pd

    from ..plans.risk import Risk, Setup
    from ..schedule.plan import Schedule
    from ..study.study import Study

_ALONE = "1"  # the factors where none are said
_MEAN_TOLERANCE = (
    0.02  # of the table's mean grade: by how much that of realisations may differ untold
)


@app.command()
def risk(
    folder: Path = STUDY,
    realisations: Optional[Path] = typer.Option(
        None,
        help=(
            "An .npy (realisations x rows of the table), or a CSV with a column for each. Not"
            " needed to go on."
        ),
    ),
    factors: str = typer.Option(_ALONE, help="Shares of the price, as 0.8,1,1.2."),
    metal: Optional[str] = typer.Option(
        None, help="Whose grades these are. Default: the first metal."
    ),
    is_schedule: bool = typer.Option(
        False,
        "--schedule",
        help=(
            "What the schedule that `schedule` found last is worth under each realisation, beside"
            " a bound of the schedules of that realisation, in place of pits."
        ),
    ),
    gap: float = SCHEDULES_GAP,
    minutes: float = SCHEDULES_MINUTES,
    later: bool = typer.Option(
        False,
        "--later",
        help="Look through the realisations and find no pit yet: pitplan submit does.",
    ),
    workers: Optional[int] = typer.Option(
        None,
        min=1,
        help="Realisations at a time. Default: as many as processors and free memory allow.",
    ),
) -> None:
    """Find the proved pit of each realisation of the grades, and how likely each block is. Goes on
    where it was stopped."""
    from ..plans.risk import risk_tasks

    study = open_study(folder)
    setup = _asked_for(study, folder, realisations, factors, metal)
    _tell_means(study, setup)
    if is_schedule:
        _risk_of_schedule(study, folder, (gap, minutes), later, workers)
        return
    if later:
        say(
            f"{counted(len(setup.digests), 'realisation')} at"
            f" {len(setup.factors)} factor{'s' * (len(setup.factors) > 1)}; then:"
            f" {command('submit', folder)}, and {command('risk', folder)} for the tables"
        )
        return
    tell_slurm(study, risk_tasks(study))
    do_all(study, risk_tasks(study), workers)
    _show_pits(study)


def _show_pits(study: Study) -> None:
    """The tables, the pictures and the screen, of the pits that are there."""
    from ..base.amounts import THOUSAND
    from ..plans.risk import Risk

    with _doing("the pits are read and added up again"):
        found = Risk(study)
    factor = THOUSAND if THOUSAND in found.factors else found.factors[-1]
    with _doing("the pits of each likelihood are priced, and all is written"):
        pits = _write_risk(found, factor)
    _print_risk(found, factor, pits)
    _warn_of_edges(found)


def _asked_for(
    study: Study, folder: Path, realisations: Optional[Path], factors: str, metal: Optional[str]
) -> Setup:
    """The realisations that are asked for, or were last."""
    from ..plans.risk import prepare, setup_of

    if realisations is not None:
        series = _series_said(factors)
        plan = described(folder)
        with err.status("the realisations are looked through"):
            prepare(study, plan.economics, realisations, series, metal, plan.keys)
    setup = setup_of(study)
    if setup is None:
        raise PlanError(
            "no realisations were asked for over the model that stands there",
            try_this=command("risk", folder, "--realisations", "FILE"),
        )
    if realisations is None:
        _refuse_another(setup, factors, metal, folder)
    return setup


def _risk_of_schedule(
    study: Study,
    folder: Path,
    limits: tuple[float, float],
    later: bool,
    workers: Optional[int],
) -> None:
    """The study's schedule under each realisation; `limits` are a gap in percent and minutes."""
    from ..schedule import realisations
    from .chosen_pits import last_schedule

    plan = described(folder)
    found = last_schedule(folder)
    realisations.prepare(study, found, plan.values["schedule"], plan.rates, *limits)
    tasks = realisations.realised_tasks(study)
    if later:
        again = command("risk", folder, "--schedule")
        say(
            f"{counted(len(tasks), 'schedule')}; then: {command('submit', folder)}, and {again} for the table"
        )
        return
    tell_slurm(study, tasks)
    do_all(study, tasks, workers)
    _write_risk_of_schedule(study, found)


def _write_risk_of_schedule(study: Study, schedule: Schedule) -> None:
    """The table by realisation, and its spread on the screen."""
    from ..schedule import realisations
    from ..table.spreadsheets import write_table

    found = realisations.table(study)
    write_table(found, results(study) / "risk_schedule.csv")
    money = printed_scale(found[["npv", "bound"]], study.currency)
    shares = {"least": 0.0, "p10": 0.1, "p50": 0.5, "p90": 0.9, "most": 1.0}
    lines = [
        (
            what,
            *(money.text(found[name].quantile(share)) for share in shares.values()),
            money.text(found[name].mean()),
        )
        for name, what in (
            ("npv", "the schedule"),
            ("own", "one with the grades known"),
            ("bound", "bound of all these"),
            ("unknown", "bound less the schedule"),
        )
    ]
    print_columns(
        f"npv under {counted(len(found), 'realisation')}, in {money.unit}",
        ("of each realisation", *shares, "mean"),
        lines,
        word_columns=1,
    )
    say(
        f"by the table's own grades the schedule is worth {money.said(float(schedule.npv))}; not"
        f" knowing the grades costs at most {money.said(found.unknown.mean())} on the mean"
    )
    if found.over.max() > 0:
        most, treated = "the mill's rate", "milled"
        if study.priced.process_names:
            most, treated = "the rate of its process", "treated"
        warn(
            f"under {int((found.over > 0).sum()):,} of them a period has more feed than {most}, up to"
            f" {found.over.max():.1%}: it is counted as {treated}, in the bound too"
        )
    say(f"{results(study)}: risk_schedule.csv")


@contextmanager
def _doing(text: str) -> Iterator[None]:
    """Shows what is done for some time, and off a terminal, as in a scheduler's log, in a line."""
    if not err.is_terminal:
        print(text, file=sys.stderr, flush=True)
    with err.status(text):
        yield


def _series_said(factors: str) -> list[int]:
    """The factors that --factors says, in thousandths."""
    from ..study.shells import series_of

    try:
        return series_of(float(part) for part in factors.split(","))
    except ValueError:
        raise PlanError(
            f"--factors {factors}: these are no numbers", try_this="--factors 0.8,1,1.2"
        ) from None


def _refuse_another(setup: Setup, factors: str, metal: Optional[str], folder: Path) -> None:
    """Refuses factors and a metal that aren't those which the realisations were given with: to go
    on takes neither."""
    from ..plans.risk import spelled_factor

    grades = {str(m["name"]): str(m["grade"]) for m in setup.economics["metals"]}
    if (factors == _ALONE or _series_said(factors) == setup.factors) and (
        metal is None or grades.get(metal) == setup.column
    ):
        return
    given = ",".join(map(spelled_factor, setup.factors))
    name = next(name for name, grade in grades.items() if grade == setup.column)
    more = [
        *(["--factors", factors] if factors != _ALONE else []),
        *(["--metal", metal] if metal is not None else []),
    ]
    raise PlanError(
        f"the realisations that stand there were given as grades of {name}, at --factors {given}",
        try_this=command("risk", folder, "--realisations", "FILE", *more),
    )


def _tell_means(study: Study, setup: Setup) -> None:
    """Says where the realisations aren't true to the table on the mean."""
    from ..plans.grade_files import NOT_ALIKE
    from ..plans.risk import means

    with err.status("the realisations beside the table"):
        found = means(study, setup)
    if found.apart:
        warn(
            "realisation"
            f" {', '.join(map(str, found.apart[:9]))}{', ..' * (len(found.apart) > 9)} of"
            f" {len(setup.digests)} has nothing to do with the table, row by row (a correlation of"
            f" less than {NOT_ALIKE:g}); a realisation varies around the estimate\n  try: its rows"
            " in the order of the table's"
        )
    if not abs(found.share) > _MEAN_TOLERANCE:
        return
    by = f"{abs(found.share):.1%} " if found.table > 0 else ""
    warn(
        f"the realisations' mean grade of {found.metal} is {found.realisations:.4g} {found.unit},"
        f" {by}{'above' if found.share > 0 else 'below'} the table's"
        f" {found.table:.4g} {found.unit}, by tonnes over {found.rows:,} rows: so their worths"
        " differ from the plan's, which is neither upside nor risk\n  try: realisations whose mean"
        " is the table's, or a table whose mean is theirs"
    )


def _write_risk(risk: Risk, factor: int) -> pd.DataFrame:
    """The tables, and a section and a page by likelihood at a factor; gives `Risk.pits` at it."""
    from ..table.spreadsheets import write_table
    from ..views import page
    from ..views.pictures import save
    from ..views.risk_pictures import section

    folder = results(risk.study)
    write_table(risk.runs, folder / "risk_runs.csv")
    write_table(risk.table(), folder / "risk.csv")
    write_table(risk.of_blocks(), folder / "likelihood.csv")
    pits = risk.pits(factor)
    write_table(pits, folder / "likelihood_pits.csv")
    save(section(risk, factor), folder / "likelihood.png")
    page.write_likelihood(risk, factor, folder / "likelihood.html", pits)
    return pits


def _warn_of_edges(risk: Risk) -> None:
    """Says of the smallest factor at which realisations' pits touch the model's side or reach its
    floor, of how many they are."""
    from ..plans.risk import spelled_factor
    from ..study.edges import FLOOR, SIDE

    for counts, (what, hint) in ((risk.side, SIDE), (risk.floor, FLOOR)):
        at = next((i for i in range(len(risk.factors)) if counts[i].any()), None)
        if at is not None:
            most = int(counts[at].max())
            warn(
                f"at factor {spelled_factor(risk.factors[at])} the pit of"
                f" {int((counts[at] > 0).sum()):,} of {risk.count:,} realisations"
                f" {what.format(f'up to {most:,} blocks there')}\n  try: {hint}"
            )


def _print_risk(risk: Risk, factor: int, pits: pd.DataFrame) -> None:
    """The spread over the realisations on the screen, and the pit of a likelihood that is worth
    most on the mean."""
    from ..base.amounts import THOUSAND
    from ..plans.risk import spelled_factor

    table = risk.table()
    worths = [f"worth_{name}" for name in ("p10", "p50", "p90", "mean")]
    rocks = [f"rock_t_{name}" for name in ("p10", "p50", "p90")]
    money = printed_scale(table[worths], risk.study.currency)
    rock = printed_scale(table[rocks], risk.study.model.units.weight)
    lines = [
        (
            f"{row['factor']:.3f}",
            *(money.text(row[name]) for name in worths),
            *(rock.text(row[name]) for name in rocks),
        )
        for row in table.to_dict("records")
    ]
    print_columns(
        f"{risk.count} realisations, {money.unit} and {rock.unit}; a tenth of them lies below p10",
        ("factor", "worth p10", "p50", "p90", "mean", "rock p10", "p50", "p90"),
        lines,
    )
    print_rock_of_classes(
        risk.study,
        pits,
        {"likelihood": [f"{share:.0%}" for share in pits.likelihood]},
        f"rock of each pit by likelihood at factor {spelled_factor(factor)}, by resource class",
    )
    if risk.factors != [THOUSAND]:
        say("each worth is at its factor's own price")
    most = pits.worth_mean.idxmax()
    say(
        f"at factor {spelled_factor(factor)}: of the {len(pits)} pits by likelihood that of at"
        f" least {pits.likelihood[most]:.0%}, {pits.blocks[most]:,} blocks, is worth most on the"
        f" mean, {money.said(pits.worth_mean[most])}; each realisation's own best pit,"
        f" {money.text(pits.best_mean[most])}"
    )
    say(
        f"{results(risk.study)}: risk.csv, risk_runs.csv, likelihood.csv, likelihood_pits.csv,"
        " likelihood.png, likelihood.html"
    )
