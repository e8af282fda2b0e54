"""The page's view of a schedule: the mine at the end of each period."""
from __future__ import annotations

import math
from collections.abc import Iterator
from typing import TYPE_CHECKING

import pandas as pd

from ..base.units_shown import lengths, printed_scale, scale_of
from ..schedule.tables import binds_text
from .pit_surfaces import surfaces
from .page_views import (
    Columns,
    ViewTable,
    View,
    beside,
    by_kinds,
    grade_texts,
    rock_and_metal,
    scaled,
    so_far,
)

if TYPE_CHECKING:
    from ..schedule.plan import Schedule
    from ..study.study import Study

_NOTE = (
    "When each block of the best pit is dug. pit schedule says that after each {period} the mine keeps"
    " the slopes, that none uses more than its rates, and what the schedule is worth. No schedule of"
    " these blocks by these terms, {choice}, brings more than the bound, {by_whom}. Ore is what goes"
    " to {there} {way}. Rates and discount are those of [schedule], and of [shells] where it has none."
)
_NO_CLASSES = (
    'There is no table of ore by class: it has what would pay at {there}, and with cutoff = "by'
    ' year" some of that goes to waste.'
)
_ACCEPTED = "which pit has accepted"
# pit bound knows no fixed costs: what they take from its bound is arithmetic of this package
_ACCEPTED_BEFORE = "one that pit has accepted less the fixed costs, which pitplan takes off"
_FIXED = " Cash flow and net present value are what is left after the fixed costs."


def schedule(schedule: Schedule, years: pd.DataFrame) -> View:
    """The mine at the end of each period; `years` as `Tables.years` gives it.

    Raises PlanError where a surface isn't one height for each column.
    """
    study, currency = schedule.shells.study, schedule.shells.study.currency
    terms = schedule.production.terms
    way = "as the schedule sends it" if terms.is_by_year else "at factor 1"
    choice = (
        "each by whichever way"
        if terms.is_by_year
        else "each where it is worth most at the full price"
    )
    processes = study.priced.process_names
    there = " or ".join(processes) or "the mill"
    word = "period" if terms.per_year > 1 else "year"
    names = [str(t) for t in years["period"]]
    dug = {
        name: (schedule.period >= 0) & (schedule.period < int(name)) & study.model.is_rock
        for name in names
    }
    own = {name: (schedule.period == int(name) - 1) & study.model.is_rock for name in names}
    left, rock = schedule.left(), printed_scale(years["rock_t"], study.model.units.weight)
    running = scaled("Net present value so far", years["npv"], scale_of(years["npv"], currency))
    columns = [
        *_dug(study, years, years),
        running,
        ("Rate that binds", [binds_text(row, True) or "-" for row in years.to_dict("records")]),
    ]
    sums = _dug(study, so_far(years, study.manifest["metals"], processes), years)
    return View(
        f"Schedule by {word}s",
        f"After {word}",
        ViewTable(f"By {word}", word.capitalize(), names, columns),
        surfaces(study, ((f"the mine after {word} {name}", held) for name, held in dug.items())),
        f"{word.capitalize()} in which the block is dug",
        _NOTE.format(
            period=word,
            there=there,
            way=way,
            choice=choice,
            by_whom=_ACCEPTED_BEFORE if terms.fixed_cost else _ACCEPTED,
        )
        + (_FIXED if terms.fixed_cost else ""),
        names,
        len(names),
        years["rock_t"].tolist(),
        lines=[
            f"{currency} {math.floor(schedule.npv):,}, at most {schedule.gap_text} below the best: no"
            f" schedule brings more than {currency} {math.ceil(schedule.bound):,}",
            *([left.words(rock, currency)] if left.blocks else []),
            *([schedule.end.words[0].upper() + schedule.end.words[1:]] if schedule.end else []),
            *([_NO_CLASSES.format(there=there)] if terms.is_by_year and study.classes else []),
        ],
        more=[] if terms.is_by_year else by_kinds(study, word.capitalize(), own),
        sides=beside(columns, sums, [running]),
    )


def _dug(study: Study, rows: pd.DataFrame, years: pd.DataFrame) -> Columns:
    """What each row of a table as `Tables.years` digs and earns, at the scales of the years."""
    money = scale_of(years["npv"], study.currency)
    return [
        ("Blocks", [f"{v:,}" for v in rows["blocks"]]),
        (f"Down to ({study.model.units.length})", lengths(rows["bottom"])),
        *rock_and_metal(rows, study.manifest["metals"], study.model.units.weight, years),
        *(
            column
            for name in study.priced.process_names
            for column in _by_process(study, rows, years, name)
        ),
        scaled("Cash flow", rows["cash_flow"], money),
        scaled("Discounted", rows["discounted"], money),
    ]


def _by_process(
    study: Study, rows: pd.DataFrame, years: pd.DataFrame, name: str
) -> Iterator[tuple[str, list[str]]]:
    """What a process gets in each row: ore in place, its feed, and the grades of that ore."""
    before, weight = f"process_{name}_", study.model.units.weight
    rock = scale_of(years["ore_t"] + years["waste_t"], weight)
    yield scaled(f"Ore to {name}", rows[f"{before}ore_t"], rock)
    yield scaled(f"Feed of {name}", rows[f"{before}feed_t"], rock)
    for metal, units in study.manifest["metals"].items():
        grade = f"{before}grade_{metal}"
        texts = grade_texts(rows[grade], years[grade])
        yield f"Grade of ore to {name}, {metal} ({units['grade_unit']})", texts
