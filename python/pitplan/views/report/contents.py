"""What a report of a study says: its tables as numbers, its pictures, and what of it is proved. How
it is laid out, `pdf` and `xlsx` know."""
from __future__ import annotations

import math
import time
from collections.abc import Mapping
from dataclasses import dataclass, field
from typing import TYPE_CHECKING, Any

import numpy as np
import pandas as pd

from ... import __version__
from ...base.amounts import THOUSAND
from ...base.digests import sha256
from ...base.units_shown import alike, factor_text, printed_scale, separated, share_text
from ...model.grade_tonnage import by_class, by_process, by_rock
from ...study import edges
from .. import pictures, slope_rose
from ..study_names import name_of, table_of

if TYPE_CHECKING:
    from matplotlib.figure import Figure

    from ...plans.phases import Phases
    from ...schedule.plan import Schedule
    from ...study.shells import Shells
    from ...study.study import Study
    from ...study.study_file import StudyFile

_Units = Mapping[str, Mapping[str, str]]
_SUMMED = ("blocks", "rock_t", "ore_t", "waste_t", "worth")
_BEST = "each keeps the slopes, and no pit that keeps them is worth more at its factor."
_CERTIFIED = "{pits} a certificate that pit check has accepted"
_STATED = (
    "{pits} as pit shells states {them}, and that program is proved to state none but the best"
)
_WIDENED = (
    "Widened pushbacks but the last are no best pits. That the mine keeps the slopes after each"
    " was said by pit value when they were cut."
)
_CHECKED = (
    (
        "Each pit's worth was added up again from the table in whole amounts, and is pit's to"
        " the last digit; so is its number of blocks."
    ),
    "Each pit lies within the next.",
    (
        "The digests in this report are those of the files that pit read; they were taken again"
        " before the report was written."
    ),
)
_JUDGED = (
    "The plan by years keeps the slopes and its capacities, as pit schedule says. No plan by"
    " these terms is worth more than {currency} {bound:,}: that bound is proved, and the plan"
    " is at most {gap} below it."
)
_OPEN = (
    (
        "Grades, tonnes, prices, costs, recoveries, units and slope angles are what the table"
        " and study.toml say. Nothing shows that they are true."
    ),
    "Walls are made of whole blocks, so they are as steep as asked only as nearly as the table of slopes says.",
    (
        "Discounted worths and years are those of two simple orders, pit after pit and bench"
        " after bench. They are no schedule, and aren't proved."
    ),
    (
        "A pit has no ramps and no least width; berms and ramps are in it only as far as the"
        " overall angles leave room for them."
    ),
    "Tables and pictures are made by pitplan, in Python, of the proved pits.",
)


@dataclass(frozen=True)
class Column:
    """A column of a table.

    Attributes
    ----------
    name, unit : str
    kind : {"text", "figure", "factor", "count", "amount", "metal", "grade", "ratio", "length",
    "angle", "error", "years"}
        How its values are shown. A figure is a text of digits; a factor is a share of the price, or
        a word in its place. Amounts of one unit are shown at one scale, metals each at its own.
    values : list
        Texts or numbers; nan where there is none.
    """

    name: str
    unit: str
    kind: str
    values: list[Any]

    @property
    def heading(self) -> str:
        """Its name with the unit."""
        return f"{self.name} ({self.unit})" if self.unit else self.name


@dataclass(frozen=True)
class ReportTable:
    """A table: its name as a sheet has it, what it is, its columns. One that `is_long` is for a
    workbook alone."""

    name: str
    caption: str
    columns: list[Column]
    is_long: bool = False


@dataclass
class Report:
    """What a report says.

    Attributes
    ----------
    title, when : str
    facts : list of (str, str)
        Of the cover.
    asked : str
        The text of study.toml.
    tables : list of ReportTable
    pictures : list of (str, Figure)
    walls : list of str
        Of each region how far its walls are from what was asked for, and what its ramp makes of its
        angles.
    proved, unproved : list of str
    """

    title: str
    when: str
    facts: list[tuple[str, str]]
    asked: str
    tables: list[ReportTable]
    pictures: list[tuple[str, Figure]]
    walls: list[str]
    proved: list[str]
    unproved: list[str] = field(default_factory=list)

    def table(self, name: str) -> ReportTable:
        """The table of a name."""
        return next(table for table in self.tables if table.name == name)


def gathered(
    shells: Shells,
    plan: StudyFile,
    phases: Phases | None = None,
    title: str | None = None,
    years: Schedule | None = None,
) -> Report:
    """What the report of a study says.

    Parameters
    ----------
    shells : Shells
        At all factors of study.toml.
    plan : StudyFile
        What that says.
    phases : Phases, optional
        Pushbacks to tell of.
    title : str, optional
        Default: the study's name.
    years : Schedule, optional
        The plan by years to tell of.

    Raises
    ------
    PlanError
        Where the slopes can't be held, or no picture can be drawn.
    """
    study = shells.study
    table = shells.table(**plan.rates)
    chosen = pictures.pit_index(shells, None)
    units: _Units = study.manifest["metals"]
    tables = [
        _of_rocks(shells),
        _of_pits(shells, table),
        *of_processes(shells),
        *of_classes(shells),
        _of_benches(shells, chosen),
        _of_shells(shells),
    ]
    if phases is not None:
        tables += [*_of_phases(phases), *of_phase_processes(phases), *of_phase_classes(phases)]
    by_year = _of_years(years) if years is not None else []
    tables += [table for table, _ in by_year]
    tables += [_of_slopes(plan, shells), _of_digests(plan, shells)]
    level, row = pictures.middle_of(shells)
    grid, unit = study.model.grid, study.model.units.length
    return Report(
        title or name_of(study),
        time.strftime("%Y-%m-%d %H:%M UTC", time.gmtime()),
        [*_facts_of(shells, table, chosen), *_facts_of_phases(phases), *_facts_of_years(years)],
        plan.path.read_text("utf-8-sig"),
        tables,
        [
            (
                "Pit by pit",
                pictures.pit_by_pit(table, study.currency, weight=study.model.units.weight),
            ),
            ("Plan of a bench", pictures.plan(shells, level)),
            ("Section along a row of the model", pictures.section(shells, row=row)),
            *(("The plan by years", picture) for _, picture in by_year),
            ("Slopes by bearing", slope_rose.rose(plan.slopes, grid)),
        ],
        [line for name in plan.slopes.names for line in plan.slopes.lines(name, grid, unit)],
        proved_of(shells, years),
        [*_OPEN, *([_WIDENED] if phases is not None and phases.moved else []), *_edges_of(shells)],
    )


def _facts_of_phases(phases: Phases | None) -> list[tuple[str, str]]:
    """Which pushbacks the report tells of."""
    if phases is None:
        return []
    factors = ", ".join(map(factor_text, phases.shells.factors))
    return [("Pushbacks", f"{len(phases)}, {phases.set_name}, at factors {factors}")]


def _facts_of_years(years: Schedule | None) -> list[tuple[str, str]]:
    """What the plan by years that the report tells of comes to."""
    if years is None:
        return []
    worth = f"{years.shells.study.currency} {math.floor(years.npv):,}"
    return [("Plan by years", f"worth {worth} today, at most {years.gap_text} below the best")]


def _of_years(schedule: Schedule) -> list[tuple[ReportTable, Figure]]:
    """The plan by years, as a table and a picture."""
    from ...schedule.tables import Tables  # these need Numba
    from ..schedule_pictures import by_year

    study = schedule.shells.study
    years, currency = Tables(schedule).years(), study.currency
    columns = [
        Column("Period", "", "count", years["period"].tolist()),
        Column("Year", "", "count", years["year"].tolist()),
        *_amounts(years, study),
        Column("Cash flow", currency, "amount", years["cash_flow"].tolist()),
        Column("Discounted", currency, "amount", years["discounted"].tolist()),
        Column("Discounted so far", currency, "amount", years["npv"].tolist()),
        Column(
            "Toe of the lowest bench", study.model.units.length, "length", years["bottom"].tolist()
        ),
    ]
    return [
        (
            ReportTable("Plan by years", "What each period digs, mills and earns", columns),
            by_year(schedule, years),
        )
    ]


def _facts_of(shells: Shells, table: pd.DataFrame, chosen: int) -> list[tuple[str, str]]:
    """What the cover says: the model, and the pit at today's price."""
    study, row = shells.study, table.iloc[chosen]
    grid, rock = study.model.grid, printed_scale([row.rock_t], study.model.units.weight)
    name = factor_text(shells.factors[chosen])
    found = [
        ("Table", table_of(study) or study.model.name),
        (
            "Blocks",
            f"{len(study.model):,} of {' x '.join(f'{v:g}' for v in grid.size)}"
            + (f", turned by {grid.rotation:g} degrees" if grid.rotation else ""),
        ),
        (
            "Pits",
            f"1, at factor {factor_text(shells.factors[0])} of the price"
            if len(shells) == 1
            else (
                f"{len(shells)}, at factors {factor_text(shells.factors[0])} to"
                f" {factor_text(shells.factors[-1])} of the price"
            ),
        ),
        (
            f"Pit at factor {name}",
            f"{int(row.blocks):,} blocks, {rock.said(row.rock_t)} of rock",
        ),
        (
            "Ore and waste in it",
            f"{rock.said(row.ore_t)} and {rock.said(row.waste_t)}"
            + (f", strip ratio {row.strip:.2f}" if row.ore_t else ""),
        ),
        (
            f"Worth, proved at factor {name}",
            f"{study.currency} {separated(str(row.worth_at_factor))}",
        ),
        (
            "Discounted, by two simple orders",
            f"{study.currency} {row.npv_best:,.0f} and {row.npv_worst:,.0f}",
        ),
        ("Found by", f"{', '.join(study.version)}; pitplan {__version__}"),
    ]
    return found


def _of_rocks(shells: Shells) -> ReportTable:
    """Grade and tonnage of each rock."""
    study = shells.study
    lines = by_rock(study.model, study.priced, study.manifest["metals"])
    columns = [Column("Rock", "", "text", lines["rock"].tolist())]
    columns += _tonnages(lines, study)
    return ReportTable("Rocks", "In place, at the full price; metals as recovered", columns)


def of_classes(shells: Shells) -> list[ReportTable]:
    """Grade and tonnage of each resource class, in place and of each pit; none where the table has
    no classes."""
    study = shells.study
    if study.classes is None:
        return []
    metals, sets = study.manifest["metals"], {"in place": np.ones(len(study.model), bool)}
    factors = {factor_text(factor): factor / THOUSAND for factor in shells.factors}
    sets |= {name: shells.holds(i) for i, name in enumerate(factors)}
    lines = by_class(study.model, study.priced, metals, study.classes, sets)
    columns = [
        Column("Pit at factor", "", "factor", [factors.get(name, name) for name in lines["of"]]),
        Column("Class", "", "text", lines["class"].tolist()),
    ]
    columns += _tonnages(lines, study)
    return [ReportTable("Classes", "Pits by resource class, at the full price", columns)]


def of_processes(shells: Shells) -> list[ReportTable]:
    """What goes to each process, in place and of each pit; none where there is one."""
    study = shells.study
    if not study.priced.process_names:
        return []
    metals, sets = study.manifest["metals"], {"in place": np.ones(len(study.model), bool)}
    factors = {factor_text(factor): factor / THOUSAND for factor in shells.factors}
    sets |= {name: shells.holds(i) for i, name in enumerate(factors)}
    lines = by_process(study.model, study.priced, metals, sets)
    columns = [
        Column("Pit at factor", "", "factor", [factors.get(name, name) for name in lines["of"]]),
        Column("To", "", "text", lines["to"].tolist()),
    ]
    columns += _tonnages(lines, study)
    return [ReportTable("Processes", "Pits by process, at the full price", columns)]


def _tonnages(lines: pd.DataFrame, study: Study) -> list[Column]:
    """The columns of a table of grade and tonnage, as `tonnage.by_rock` gives it, after its
    words."""
    metals, weight = study.manifest["metals"], study.model.units.weight
    columns = [
        Column("Blocks", "", "count", lines["blocks"].tolist()),
        Column("Rock in place", weight, "amount", (lines[f"M{weight}"] * 1e6).tolist()),
        Column("Ore in place", weight, "amount", (lines[f"ore M{weight}"] * 1e6).tolist()),
    ]
    for name, units in metals.items():
        grade, price = units["grade_unit"], units["price_unit"]
        columns.append(
            Column(f"Grade of {name}", grade, "grade", lines[f"{name} {grade}"].tolist())
        )
        columns.append(
            Column(f"Recovered {name}", price, "metal", lines[f"{name} {price}"].tolist())
        )
    return columns


def _amounts(frame: pd.DataFrame, study: Study) -> list[Column]:
    """Blocks, rock, ore, waste, strip ratio, and of each metal grade and metal; then the worth,
    where there is one."""
    units, weight = study.manifest["metals"], study.model.units.weight
    strip = frame["waste_t"] / frame["ore_t"].where(frame["ore_t"] > 0)
    found = [
        Column("Blocks", "", "count", frame["blocks"].astype(int).tolist()),
        Column("Rock", weight, "amount", frame["rock_t"].tolist()),
        Column("Ore", weight, "amount", frame["ore_t"].tolist()),
        Column("Waste", weight, "amount", frame["waste_t"].tolist()),
        Column("Strip ratio", f"{weight}/{weight}", "ratio", strip.tolist()),
    ]
    for name, unit in units.items():
        found.append(
            Column(f"Grade of {name}", unit["grade_unit"], "grade", frame[f"grade_{name}"].tolist())
        )
        found.append(
            Column(
                f"Recovered {name}", unit["price_unit"], "metal", frame[f"metal_{name}"].tolist()
            )
        )
    if "worth" in frame:
        found.append(Column("Worth", study.currency, "amount", frame["worth"].tolist()))
    return found


def _of_pits(shells: Shells, table: pd.DataFrame) -> ReportTable:
    """Pit by pit."""
    study, currency = shells.study, shells.study.currency
    frame = table.assign(worth=table["worth_at_base"])
    return ReportTable(
        "Pit by pit",
        "The proved pit at each factor of the price; worths at the full price, the proved one at the factor's own",
        [
            Column("Factor", "", "factor", [factor / THOUSAND for factor in shells.factors]),
            *_amounts(frame, study),
            Column("Best case", currency, "amount", table["npv_best"].tolist()),
            Column("Worst case", currency, "amount", table["npv_worst"].tolist()),
            Column("Years", "", "years", table["years"].tolist()),
            Column(
                "Worth at its factor, proved",
                currency,
                "figure",
                alike(separated(text) for text in table["worth_at_factor"]),
            ),
        ],
    )


def _of_shells(shells: Shells) -> ReportTable:
    """What each shell adds on each bench."""
    frame, study = shells.benches(), shells.study
    return ReportTable(
        "Bench by shell",
        "What each shell adds on each bench; worths at the full price",
        [
            Column("Bench", study.model.units.length, "length", frame["bench"].tolist()),
            Column("Shell", "", "factor", frame["shell"].tolist()),
            *_amounts(frame, study),
        ],
        True,
    )


def _of_benches(shells: Shells, chosen: int) -> ReportTable:
    """The chosen pit, bench by bench from the top."""
    study, units = shells.study, shells.study.manifest["metals"]
    frame = shells.benches()
    frame = frame[frame["shell"] <= shells.factors[chosen] / THOUSAND]
    for name in units:
        frame[f"grade_{name}"] = frame[f"grade_{name}"].fillna(0.0) * frame["ore_t"]
    names = [f"{what}_{name}" for name in units for what in ("grade", "metal")]
    summed = frame.groupby("bench")[[*_SUMMED, *names]].sum().sort_index(ascending=False)
    summed = summed.reset_index()
    ore = summed["ore_t"].where(summed["ore_t"] > 0)
    for name in units:
        summed[f"grade_{name}"] = summed[f"grade_{name}"] / ore
    return ReportTable(
        "Benches",
        (
            f"The pit at factor {factor_text(shells.factors[chosen])}, bench by bench:"
            " elevations of the blocks' centres, worths at the full price"
        ),
        [
            Column("Bench", study.model.units.length, "length", summed["bench"].tolist()),
            *_amounts(summed, study),
        ],
    )


def of_phase_classes(phases: Phases) -> list[ReportTable]:
    """Grade and tonnage of each resource class, of each pushback; none where the table has no
    classes."""
    study = phases.shells.study
    if study.classes is None:
        return []
    sets = {str(k): phases.pushback == k for k in range(1, len(phases) + 1)}
    lines = by_class(study.model, study.priced, study.manifest["metals"], study.classes, sets)
    columns = [
        Column("Pushback", "", "count", lines["of"].astype(int).tolist()),
        Column("Class", "", "text", lines["class"].tolist()),
    ]
    title = f"Pushbacks by resource class, at the full price; pushbacks {phases.set_name}"
    return [ReportTable("Pushback classes", title, [*columns, *_tonnages(lines, study)])]


def of_phase_processes(phases: Phases) -> list[ReportTable]:
    """What goes to each process, of each pushback; none where there is one."""
    study = phases.shells.study
    if not study.priced.process_names:
        return []
    sets = {str(k): phases.pushback == k for k in range(1, len(phases) + 1)}
    lines = by_process(study.model, study.priced, study.manifest["metals"], sets)
    columns = [
        Column("Pushback", "", "count", lines["of"].astype(int).tolist()),
        Column("To", "", "text", lines["to"].tolist()),
    ]
    title = f"Pushbacks by process, at the full price; pushbacks {phases.set_name}"
    return [ReportTable("Pushback processes", title, [*columns, *_tonnages(lines, study)])]


def _of_phases(phases: Phases) -> list[ReportTable]:
    """Pushbacks, and each of them bench by bench."""
    study = phases.shells.study
    unit = study.model.units.length
    benches = phases.benches()
    whole = phases.table(benches=benches)
    return [
        ReportTable(
            "Pushbacks",
            f"What each pushback digs, worths at the full price; pushbacks {phases.set_text}",
            [
                Column("Pushback", "", "count", whole["pushback"].tolist()),
                Column("Factor", "", "factor", whole["factor"].tolist()),
                Column("From", unit, "length", whole["top"].tolist()),
                Column("Down to", unit, "length", whole["bottom"].tolist()),
                *_amounts(whole, study),
                Column("Thinnest", unit, "length", whole["width"].tolist()),
            ],
        ),
        ReportTable(
            "Pushback benches",
            f"Each pushback bench by bench, in the order of digging; pushbacks {phases.set_name}",
            [
                Column("Pushback", "", "count", benches["pushback"].tolist()),
                Column("Bench", study.model.units.length, "length", benches["bench"].tolist()),
                *_amounts(benches, study),
                Column("Thinnest", unit, "length", benches["width"].tolist()),
            ],
            True,
        ),
    ]


def _of_slopes(plan: StudyFile, shells: Shells) -> ReportTable:
    """The angles of walls, asked and built, by region and bearing."""
    found = plan.slopes.built(shells.study.model.grid)
    return ReportTable(
        "Slopes",
        "Overall slope of a deep wall by its bearing from the pit's middle; an error above 0 is steeper than asked",
        [
            Column("Region", "", "text", found["region"].astype(str).tolist()),
            Column("Bearing", "degrees", "count", found["bearing"].astype(int).tolist()),
            *(
                Column(name.capitalize(), "degrees", kind, found[name].tolist())
                for name, kind in (("asked", "angle"), ("built", "angle"), ("error", "error"))
            ),
        ],
    )


def _of_digests(plan: StudyFile, shells: Shells) -> ReportTable:
    """sha256 of all that the pits rest on, and of each pit."""
    study = shells.study
    rows = []
    source = study.manifest["source"]
    if source:
        rows.append((f"table {study.table.name if study.table else ''}", source["sha256"]))
    rows.append((plan.path.name, sha256(plan.path)))
    rows += [(f"model/{name}", digest) for name, digest in study.manifest["files"].items()]
    for verdict in shells.verdicts:
        name = share_text(verdict["factor"])
        rows.append((f"blocks of the pit at factor {name}", verdict["bits"]))
        if verdict["certificate"]:
            rows.append((f"certificate of the pit at factor {name}", verdict["certificate"]))
    return ReportTable(
        "Digests",
        "sha256 of what the pits rest on, and of each pit",
        [
            Column("Of", "", "text", [name for name, _ in rows]),
            Column("sha256", "", "text", [digest for _, digest in rows]),
        ],
    )


def proved_of(shells: Shells, years: Schedule | None = None) -> list[str]:
    """What is proved: first of all pits, by what of them has a certificate; last of a plan by years."""
    certified = shells.certified
    stated, found = len(shells) - certified, []
    if certified:
        found.append(
            _CERTIFIED.format(pits="1 pit has" if certified == 1 else f"{certified} pits have")
        )
    if stated:
        pits, them = ("1 pit is", "it") if stated == 1 else (f"{stated} pits are", "them")
        found.append(_STATED.format(pits=pits, them=them))
    judged = []
    if years is not None:
        bound, currency = math.ceil(years.bound), shells.study.currency
        judged.append(_JUDGED.format(currency=currency, bound=bound, gap=years.gap_text))
    return [f"{', '.join(found)}: {_BEST}", *_CHECKED, *judged]


def _edges_of(shells: Shells) -> list[str]:
    """What the model's side and floor leave open, and what may not be dug."""
    found = []
    for count, (what, _) in (
        (shells.touches_edge, edges.SIDE),
        (shells.reaches_floor, edges.FLOOR),
    ):
        there = [i for i in range(len(shells)) if count(i)]
        if there:
            most = f"{max(map(count, there)):,} blocks of the largest"
            found.append(
                f"From factor {share_text(shells.factors[there[0]])} on a pit {what.format(most)}."
            )
    kept = int(np.count_nonzero(shells.study.priced.forbidden))
    if kept:
        found.append(f"{kept:,} blocks may not be dug, by forbid: no pit has one of them.")
    return found
