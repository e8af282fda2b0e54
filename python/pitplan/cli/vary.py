"""`pitplan vary`: what-ifs, each a study with one thing changed."""
from __future__ import annotations

import math
import sys
import time
from collections.abc import Iterator, Sequence
from pathlib import Path
from typing import TYPE_CHECKING, Any, List, Optional, Tuple

import typer

from ..base import events
from ..base.errors import PlanError
from ..base.next_command import command
from ..base.units_shown import counted, printed_scale
from .console import (
    SCHEDULES_GAP,
    SCHEDULES_MINUTES,
    app,
    described,
    err,
    open_study,
    print_columns,
    results,
    say,
    warn,
)
from .tables import print_rock_of_classes
from .tasks_here import do_all, tell_slurm

if TYPE_CHECKING:
    import pandas as pd

    from ..plans.task_line import Task
    from ..plans.vary import Change
    from ..study.pit_by_pit import Rates
    from ..study.study import Study
    from ..study.study_file import StudyFile

_APART = {True: "larger", False: "within the gaps"}
_WORDS: Any = typer.Argument(
    None,
    metavar="[FOLDER] [CHANGES]...",
    help=(
        "The folder of the study (default: this one), and changes, as price=-20..20"
        " price:gold=-10..10 recovery=-5..5 recovery:gold=-5..5 mining=-10..10"
        " processing=-10..10 mining_rate=-10..10 mill_rate=-10..10, or of processes"
        " processing:leach=-10..10 rate:leach=-10..10 (percent of themselves) slope=-3..3"
        " (degrees) discount=-2..2 (points: from 8 % to 10 % a year are 2); with --schedule"
        " also sink=-1..1 (benches). Default: the changes of the last run."
    ),
)


@app.command()
def vary(
    words: List[str] = _WORDS,
    factor: float = typer.Option(1.0, help="Share of the price."),
    is_schedule: bool = typer.Option(
        False,
        "--schedule",
        help="A plan by years for each change, beside a bound of its own, in place of a pit.",
    ),
    gap: float = SCHEDULES_GAP,
    minutes: float = SCHEDULES_MINUTES,
    later: bool = typer.Option(
        False, "--later", help="Build what is needed and find no pit yet: pitplan submit does."
    ),
    workers: Optional[int] = typer.Option(
        None, min=1, help="Pits at a time. Default: as many as processors and free memory allow."
    ),
) -> None:
    """Find the proved pit with one thing changed at a time, and which of them moves the worth most, and the npv."""
    folder, changes = _folder_and_changes(words or [])
    study = open_study(folder)
    if is_schedule:
        if factor != 1.0:
            raise PlanError("a schedule is of the full price: --schedule goes without --factor")
        tasks = _schedules_asked(study, folder, changes, (gap, minutes))
    else:
        tasks = _pits_asked(study, folder, changes, factor)
    if later:
        again = command("vary", folder, *(["--schedule"] if is_schedule else []))
        what = counted(len(tasks), "schedule" if is_schedule else "pit")
        say(f"{what}; then: {command('submit', folder)}, and {again} for the table")
        return
    tell_slurm(study, tasks)
    do_all(study, tasks, workers)
    if is_schedule:
        _write_schedules(study)
    else:
        _write_what_ifs(study, _rates_of(described(folder)))


def _pits_asked(study: Study, folder: Path, changes: List[str], factor: float) -> list[Task]:
    """The tasks of the what-ifs that are asked for, or were last."""
    from ..plans.vary import asked_of, changes_of, prepare, vary_tasks
    from ..study.shells import thousandths

    if changes:
        plan = described(folder)
        with err.status("the model of each change is built"):
            prepare(
                study,
                plan.economics,
                plan.slopes,
                _told(changes_of(changes)),
                thousandths(factor),
                _rates_of(plan),
            )
    if asked_of(study) is None:
        raise PlanError(
            "no what-ifs were asked for over the model that stands there",
            try_this=command("vary", folder, "price=-20..20", "recovery=-5..5", "slope=-3..3"),
        )
    return list(dict.fromkeys(vary_tasks(study)))


def _schedules_asked(
    study: Study, folder: Path, changes: List[str], limits: Tuple[float, float]
) -> list[Task]:
    """The tasks of the schedules that are asked for, or were last; `limits` are a gap in percent
    and minutes.

    Raises PlanError where [schedule] or the rates of study.toml have changed since they were.
    """
    from ..plans.vary import changes_of
    from ..schedule.what_ifs import KNOWN, Asked, must_be_asked, prepare, what_if_tasks

    plan = described(folder)
    terms, rates = plan.values["schedule"], plan.rates
    if changes:
        wanted = changes_of(changes, KNOWN)
        each = [(change.what, change.by) for change in wanted]
        with err.status("the model of each change is built"):
            asked = Asked(study.key, each, terms, rates, *limits)
            prepare(study, plan.economics, plan.slopes, _told(wanted), asked)
    asked = must_be_asked(study)
    if (asked.values, asked.rates) != (terms, rates):
        raise PlanError(
            "the rates or [schedule] of study.toml aren't those that these schedules were asked for"
            " with",
            try_this=command("vary", folder, "--schedule", "discount=-2..2", "price=-10..10"),
        )
    return what_if_tasks(study)


def _told(changes: Sequence[Change]) -> Iterator[Change]:
    """The changes, each told before its model is built: off a terminal by a line."""
    began = time.time()
    for at, change in enumerate(changes, 1):
        events.event("step", what=f"the model of {change} is built: {at} of {len(changes)}")
        if not err.is_terminal:
            spent = time.time() - began
            print(
                f"the model of {change}: {at} of {len(changes)} begun after {spent:.0f} s",
                file=sys.stderr,
                flush=True,
            )
        yield change


def _write_schedules(study: Study) -> None:
    """The table of schedules, their chart, and the table on the screen."""
    from ..plans.vary import called
    from ..schedule.what_ifs import table, tornado
    from ..table.spreadsheets import write_table
    from ..views.pictures import save

    with err.status("pit judges each schedule"):
        found, folder = table(study), results(study)
    write_table(found, folder / "vary_schedule.csv")
    save(tornado(found, study.currency), folder / "tornado-schedule.png")
    rock = printed_scale(found["rock_t"], study.model.units.weight)
    money = printed_scale(found[["npv", "bound"]], study.currency)
    print_columns(
        f"a schedule for each, in {money.unit}; no schedule of its row brings more than its bound",
        ("what", "by", "blocks", f"rock {rock.unit}", "years")
        + ("npv", "npv difference", "both gaps", "bound", "bound difference", "below it")
        + ("difference is",),
        [
            (
                called(row["what"]) if change else "as planned",
                change.amount if change else "",
                f"{row['blocks']:,}",
                rock.text(row["rock_t"]),
                f"{row['years']}",
                money.text(row["npv"]),
                money.text(row["npv_difference"], "+") if change else "",
                money.text(row["gaps"]) if change else "",
                money.text(row["bound"]),
                money.text(row["bound_difference"], "+") if change else "",
                f"{math.ceil(row['gap'] * 100) / 100:.2f} %",  # never less than it is
                _APART[bool(row["is_apart"])] if change else "",
            )
            for row, change in zip(found.to_dict("records"), _changes_in(found))
        ],
        word_columns=1,
    )
    alike = [change for change, is_apart in zip(_changes_in(found), found.is_apart) if not is_apart]
    if len(alike) > 1:  # the study itself is one of them
        say(
            f"of {counted(len(alike) - 1, 'change')} the npv difference is within the gaps of both"
            " schedules: these can't be told apart\n  try: a smaller --gap, and more --minutes"
        )
    say(f"{folder}: vary_schedule.csv, tornado-schedule.png")


def _rates_of(plan: StudyFile) -> Rates:
    """The rates and the discount of study.toml; None where it says none."""
    from ..study.pit_by_pit import Rates

    found = plan.rates
    return Rates(
        found.get("mining_rate"),
        found.get("mill_rate"),
        found.get("discount", Rates().discount),
        found.get("process_rates", {}),
    )


def _folder_and_changes(words: List[str]) -> Tuple[Path, List[str]]:
    """The folder of the study, which is the word without =, and the changes."""
    folders = [word for word in words if "=" not in word]
    if len(folders) > 1:
        raise PlanError(
            f"{folders[1]!r} is no change",
            try_this="price=-20..20 recovery=-5..5 slope=-3..3, each change with = and without blanks",
        )
    return Path(folders[0] if folders else "."), [word for word in words if "=" in word]


def _write_what_ifs(study: Study, rates: Rates) -> None:
    """The table, the charts, and the table on the screen."""
    from ..plans.vary import called, table, tornado
    from ..table.spreadsheets import write_table
    from ..views.pictures import save

    found, folder = table(study, rates), results(study)
    currency = study.currency
    write_table(found, folder / "vary.csv")
    save(tornado(found, currency), folder / "tornado.png")
    rock = printed_scale(found["rock_t"], study.model.units.weight)
    money = printed_scale(found[["worth", "npv"]], currency)
    lines = []
    for row, change in zip(found.itertuples(), _changes_in(found)):
        moves = change is not None and not change.keeps_pit
        lines.append(
            (
                called(change.what) if change else "as planned",
                change.amount if change else "",
                f"{row.blocks:,}",
                rock.text(row.rock_t),
                money.text(row.worth),
                money.text(row.difference, "+") if moves else "",
                money.text(row.npv),
                money.text(row.npv_difference, "+") if change else "",
            )
        )
    print_columns(
        f"a proved pit for each, worths in {money.unit}; npv: that pit bench after bench, discounted",
        (
            "what",
            "by",
            "blocks",
            f"rock {rock.unit}",
            "worth",
            "difference",
            "npv",
            "npv difference",
        ),
        lines,
        word_columns=1,
    )
    print_rock_of_classes(
        study,
        found,
        {"what": [line[0] for line in lines], "by": [line[1] for line in lines]},
        "rock of each pit by resource class",
    )
    say(f"{folder}: vary.csv, tornado.png")
    _warn_of_edges(found)


def _changes_in(table: pd.DataFrame) -> Iterator[Change | None]:
    """The change of each row; None of the study itself."""
    from ..plans.task_line import BASE
    from ..plans.vary import Change

    for row in table.itertuples():
        yield None if row.what == BASE else Change(row.what, row.by)


def _warn_of_edges(table: pd.DataFrame) -> None:
    """Says which what-ifs have a pit that touches the model's side or reaches its floor."""
    from ..study.edges import FLOOR, SIDE

    own = [change is None or not change.keeps_pit for change in _changes_in(table)]
    table = table[own]
    for name, (what, hint) in (("side_blocks", SIDE), ("floor_blocks", FLOOR)):
        there = table[table[name] > 0]
        if len(there):
            many = "of " + ", ".join(str(it or "the study itself") for it in _changes_in(there))
            if len(there) > 3:
                is_each = len(there) == len(table)
                of = "of each of these" if is_each else f"in {len(there):,} of these"
                many = f"{of} {len(table):,} what-ifs"
            warn(
                f"the pit {many} {what.format(f'up to {int(there[name].max()):,} blocks there')}\n  try: {hint}"
            )
