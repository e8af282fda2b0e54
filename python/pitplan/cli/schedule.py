"""`pitplan schedule`: a plan by years, beside a bound of all such plans."""
from __future__ import annotations

import json
import math
import sys
import time
from collections.abc import Iterator, Mapping
from contextlib import contextmanager
from pathlib import Path
from typing import TYPE_CHECKING, Any, Optional

import typer

from ..base import events
from ..base.errors import PlanError
from ..base.files import whole_file
from ..base.next_command import command
from ..base.units_shown import counted, printed_scale
from .console import (
    STUDY,
    app,
    described,
    err,
    print_columns,
    results,
    say,
    shells_of,
    show_schedule,
    warn,
)

if TYPE_CHECKING:
    import pandas as pd

    from ..schedule.plan import Schedule
    from ..schedule.search import Found, Listener
    from ..schedule.search_ends import Limits
    from ..schedule.tables import Tables
    from ..study.shells import Shells

_PERCENT, _MINUTE = 100.0, 60.0
_WIDE = 1.0  # percent of a gap, from which on a reason is told
_FEW = 40.0  # blocks or panels of a period, below which parts of one count for that much


@app.command()
def schedule(
    folder: Path = STUDY,
    gap: float = typer.Option(
        0.1, "--gap", min=0.0, help="End within so many percent of the bound."
    ),
    minutes: float = typer.Option(
        30.0,
        "--minutes",
        min=0.0,
        help=(
            "End the search after so many minutes, once it has a schedule and a first bound; what is"
            " found is kept."
        ),
    ),
    mining_width: Optional[float] = typer.Option(
        None,
        "--mining-width",
        min=0.0,
        help=(
            "The least width that machines need, in the unit of the coordinates: how much rock"
            " of each year lies where it is less wide."
        ),
    ),
) -> None:
    """Plan by years: a schedule of the best pit, its net present value, and a proved bound of all
    schedules. Goes on where it was stopped."""
    from ..schedule.last_plan import basis_of
    from ..schedule.plan import Schedule
    from ..schedule.search_ends import Limits
    from ..schedule.tables import Tables

    plan = described(folder)
    shells, rates = shells_of(folder)
    values, limits = plan.values["schedule"], Limits(gap / _PERCENT, minutes * _MINUTE)
    basis = basis_of(shells.study.key, values, rates)
    with _shown(gap / _PERCENT) as listener, _stopped(shells, limits, basis):
        found = Schedule.of(shells, values, rates, limits, listener)
    show_schedule(shells.study, found.digest)
    tables = Tables(found, mining_width)
    years = tables.years()
    _write_facts(found.shells, found.facts | basis)
    _write_tables(found, tables, years, plan.keys.encoding)
    _draw(found, years)
    _write_page(found, years)
    _print_years(found, years)
    _tell(found, years)


def _words(found: Found) -> str:
    """How far a search is."""
    if found.npv is None:
        return "no schedule yet"
    bound = f"the best of {found.closures:,} bounds" if found.closures > 1 else "the bound"
    gap = f"{found.gap:.3%} below {bound}" if found.gap < 1e9 else "no bound yet"
    return f"a schedule of {counted(found.filled, 'period')}, {gap}"


@contextmanager
def _stopped(shells: Shells, limits: Limits, basis: Mapping[str, Any]) -> Iterator[None]:
    """After ctrl-C, where the search has a schedule, says how far it is and writes schedule.json; then
    what shows another schedule is put out of the way."""
    from ..schedule.search_ends import STOPPED, End, SearchStopped

    try:
        yield
    except SearchStopped as stopped:
        if stopped.digest:
            end = End(STOPPED, *limits)
            warn(f"{end.words}: {_words(stopped.found)}")
            when = "" if stopped.found.bound is not None else ", once there is a first bound"
            warn(f"its table{when}: {command('schedule', shells.study.named, '--minutes', '0')}")
            show_schedule(shells.study, stopped.digest)
            _write_facts(shells, stopped.found.facts | end.facts | basis)
        raise


def _write_facts(shells: Shells, facts: Mapping[str, Any]) -> None:
    """What was found, how far it is below the bound, and why the search ended."""
    with whole_file(results(shells.study) / "schedule.json") as part:
        part.write_text(json.dumps(facts, indent=1) + "\n", "utf-8")


@contextmanager
def _shown(wanted: float) -> Iterator[Listener]:
    """Shows how far a search is: on a terminal a line that changes, else a line for each step."""
    began, before = time.time(), [""]

    if not err.is_terminal:

        def listener(found: Found, what: str) -> None:
            if what != before[0]:
                before[0] = what
                events.event("step", what=what, far=_words(found))
                print(
                    f"{what}: {_words(found)} after {time.time() - began:.0f} s",
                    file=sys.stderr,
                    flush=True,
                )

        yield listener
        return
    from rich.progress import BarColumn, Progress, TextColumn, TimeElapsedColumn

    from ..schedule.search import Lasting

    with Progress(
        TextColumn("{task.description}"),
        BarColumn(),
        TextColumn("{task.fields[text]}"),
        TimeElapsedColumn(),
        console=err,
        transient=True,
    ) as bars:
        bar = bars.add_task("schedule", total=1.0, text="")

        def drawn(found: Found, what: str) -> None:
            events.event("step", what=what, far=_words(found))
            if isinstance(what, Lasting):
                bars.console.print(what, highlight=False)
                return
            share = min(wanted / found.gap, 1.0) if 0 < found.gap < 1e9 else 0.0
            bars.update(bar, completed=share, description=what, text=_words(found))

        yield drawn


def _write_tables(
    schedule: Schedule, tables: Tables, years: pd.DataFrame, encoding: str | None
) -> None:
    """By period, by bench, and the planner's own table, in its own encoding, with the year of each
    row, or the period where a year has several, and where it goes."""
    from ..table.spreadsheets import write_table
    from ..views.export import table_back

    study = schedule.shells.study
    folder = results(study)
    write_table(years, folder / "schedule.csv")
    write_table(tables.benches(), folder / "schedule_benches.csv")
    if study.table is None:
        return
    path = folder / f"schedule_{study.table.name}"
    try:
        has_parts = schedule.production.terms.per_year > 1
        name, numbers = ("period", schedule.periods) if has_parts else ("year", schedule.years)
        more = {name: numbers, "sent": schedule.ways}
        rows = table_back.write_columns(study, more, path, encoding)
        say(
            f"{path}: the table with two columns more, {name} and sent, that"
            f" {rows:,} of its rows {'has' if rows == 1 else 'have'}"
        )
    except PlanError as error:
        warn(str(error))


def _draw(schedule: Schedule, years: pd.DataFrame) -> None:
    """The years as bars, and a bench and a section by year."""
    from ..views import pictures, schedule_pictures

    folder = results(schedule.shells.study)
    toe, row = schedule_pictures.middle_of(schedule)
    for name, figure in (
        ("schedule-years", schedule_pictures.by_year(schedule, years)),
        (f"schedule-plan-{toe:.10g}", schedule_pictures.plan(schedule, toe)),
        (f"schedule-section-row-{row}", schedule_pictures.section(schedule, row)),
    ):
        path = folder / f"{name}.png"
        pictures.save(figure, path)
        say(str(path))


def _write_page(schedule: Schedule, years: pd.DataFrame) -> None:
    """The mine at the end of each period, as a page."""
    from ..views import page, schedule_view
    from ..views.study_names import name_of

    study = schedule.shells.study
    path = results(study) / "schedule.html"
    try:
        view = schedule_view.schedule(schedule, years)
        page.write_views(path, study, [view], f"{name_of(study)}: {view.name.lower()}")
        say(f"{path}: {path.stat().st_size / 1e6:.1f} MB, opens in any browser")
    except PlanError as error:  # as where three.js isn't there
        warn(str(error))


def _print_years(schedule: Schedule, years: pd.DataFrame) -> None:
    """The schedule on the screen; all of its columns are in the file."""
    from ..schedule.tables import binds_text

    study = schedule.shells.study
    metals, has_width = study.manifest["metals"], "narrow_share" in years
    processes = study.priced.process_names
    rock = printed_scale(years["rock_t"], study.model.units.weight)
    money = printed_scale(years[["cash_flow", "npv"]], study.currency)
    names = (
        "period" if schedule.production.terms.per_year > 1 else "year",
        f"rock {rock.unit}",
        f"ore {rock.unit}",
        "strip",
        f"feed {rock.unit}",
        *(f"{name} {rock.unit}" for name in processes),
        *(f"{name} {unit['grade_unit']}" for name, unit in metals.items()),
        "cash flow",
        "discounted",
        "npv so far",
        f"bottom {study.model.units.length}",
        *(("narrow",) if has_width else ()),
        "binds",
    )

    def text(value: float, places: int = 2) -> str:
        return "" if value != value else f"{value:,.{places}f}"

    def share(value: float) -> str:
        return "" if value != value else f"{value:.0%}"

    lines = [
        (
            str(row["period"]),
            rock.text(row["rock_t"]),
            rock.text(row["ore_t"]),
            text(row["strip"]),
            rock.text(row["feed_t"]),
            *(rock.text(row[f"process_{name}_feed_t"]) for name in processes),
            *(text(row[f"grade_{name}"], 3) for name in metals),
            *(money.text(row[name]) for name in ("cash_flow", "discounted", "npv")),
            "" if row["bottom"] != row["bottom"] else f"{row['bottom']:,.10g}",
            *((share(row["narrow_share"]),) if has_width else ()),
            binds_text(row),
        )
        for row in years.to_dict("records")
    ]
    print_columns(f"by year, in {money.unit} at the full price", names, lines)


def _tell(schedule: Schedule, years: pd.DataFrame) -> None:
    """What the schedule is worth, how far it is below the bound, why the search ended, and what to
    look at."""
    terms, currency = schedule.production.terms, schedule.shells.study.currency
    word = "period" if terms.per_year > 1 else "year"
    say(
        f"pit schedule says: feasible, {counted(schedule.count, 'block')}, net present value {currency}"
        f" {math.floor(schedule.npv + schedule.fixed):,}"
    )
    if terms.fixed_cost:
        say(
            f"less the fixed costs of the {counted((years['fixed_cost'] > 0).sum(), word)} in which"
            f" rock is dug: {currency} {math.floor(schedule.npv):,}"
        )
    # pit bound knows no fixed costs: what they take from its bound is arithmetic of this package
    by_whom = (
        "by a bound that pit bound has accepted, less the fixed costs, which pitplan takes off"
        if terms.fixed_cost
        else "which pit bound has accepted"
    )
    say(
        f"by these terms{_by_ways(terms.is_by_year)} no schedule brings more than {currency}"
        f" {math.ceil(schedule.bound):,}, {by_whom}: this one is at most {schedule.gap_text} below the"
        " best"
    )
    if schedule.end:
        say(schedule.end.words)
    each = schedule.units_a_period
    if schedule.gap > _WIDE and each < _FEW:
        say(
            f"a {word} digs {each:,.1f} {'panels' if terms.panel > 1 else 'blocks'} on the mean: the"
            " bound may dig them in parts, which no schedule does, so that more minutes may not"
            " narrow this gap"
        )
    for line in _counted_here(schedule):
        say(line)
    _warn_of_rest(schedule, years)


def _by_ways(is_by_year: bool) -> str:
    """Of which choice of ways the bound is."""
    if is_by_year:
        return ", each block by whichever way,"
    return ", each block where it is worth most at the full price,"


def _counted_here(schedule: Schedule) -> Iterator[str]:
    """What `pit` doesn't count, and what it counts otherwise."""
    from ..base.amounts import THOUSAND

    terms = schedule.production.terms
    if terms.is_by_year:
        priced, dug = schedule.shells.study.priced, schedule.periods > 0
        milled = int((schedule.sent & dug).sum())
        there = "a process" if priced.process_names else "the mill"
        yield (
            f"{milled:,} of the blocks {'goes' if milled == 1 else 'go'} to {there}, each in the"
            " year in which it is dug"
        )
        if priced.process_names:
            other = int((schedule.sent & dug & (schedule.goes != priced.way_of(THOUSAND))).sum())
            yield (
                f"{other:,} of them {'goes' if other == 1 else 'go'} to another process than at the"
                " full price; the bound is of every such choice"
            )
    if terms.pushbacks:
        yield (
            f"the order of the {len(terms.pushbacks) + 1} pushbacks is checked by pitplan, not by pit"
        )
    if terms.fixed_cost:
        yield (
            "the bound has of a year's fixed cost the share of the rates that the year uses; the gap"
            " has the rest of it"
        )


def _warn_of_rest(schedule: Schedule, years: pd.DataFrame) -> None:
    """Says what of the pit stays in the ground."""
    study, left = schedule.shells.study, schedule.left()
    if not left.blocks:
        return
    rock = printed_scale(years["rock_t"], study.model.units.weight)
    is_full = len(years) == schedule.production.terms.periods  # up to the last that digs anything
    is_closed = bool((schedule.production.capacities[:, -1] == 0).any())
    more = "a last rate above 0 in [schedule], which is that of all years after it"
    warn(
        left.words(rock, study.currency)
        + (f"\n  try: {more}" if is_closed else "\n  try: more years in [schedule]" * is_full)
    )
