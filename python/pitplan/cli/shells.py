"""`pitplan shells`: the proved pits of a series of prices, and their tables."""
from __future__ import annotations

from pathlib import Path
from typing import TYPE_CHECKING, Optional

import typer

from ..base.errors import PlanError
from ..base.next_command import command
from ..base.units_shown import counted, grade_places, printed_scale, share_text
from .console import (
    STUDY,
    app,
    described,
    open_study,
    print_columns,
    results,
    say,
    warn,
    warn_of_room,
)
from .progress import pits_shown
from .tables import print_kinds, tell_strange, warn_of_nothing

if TYPE_CHECKING:
    import pandas as pd

    from ..study.shells import Shells


@app.command()
def shells(
    folder: Path = STUDY,
    workers: Optional[int] = typer.Option(
        None, min=1, help="Pits at a time. Default: as many as processors and free memory allow."
    ),
    certificates: bool = typer.Option(
        False,
        "--certificates",
        help=(
            "Find each pit by itself, with a certificate that pit check accepts: slower. Later ones"
            " are added to pits that are there."
        ),
    ),
) -> None:
    """Find the proved pit at each factor, and the tables. Goes on where it was stopped."""
    from ..base.amounts import THOUSAND
    from ..study.strange_inputs import of_rates
    from ..study.workers import workers_for

    plan, study = described(folder), open_study(folder)
    count = workers_for(study, workers)
    warn_of_room(workers, count)
    with pits_shown(plan.factors, count) as listener:
        found = study.shells(plan.factors, count, listener, certificates)
    table = found.table(**plan.rates)
    write_tables(found, table, plan.keys.decimal)
    _print_table(found, table)
    at = found.factors.index(THOUSAND) if THOUSAND in found.factors else len(found) - 1
    print_kinds(
        found.study,
        {"": found.holds(at)},
        f"the pit at factor {share_text(found.factors[at])}",
    )
    warn_of_nothing(found)
    tell_strange(list(of_rates(study.model, study.priced, plan.rates)))
    warn_of_edges(found)


def write_tables(shells: Shells, table: pd.DataFrame, decimal: str | None = None) -> None:
    """Pit by pit, bench by bench, and the planner's own table with a column more; `decimal` is its
    mark of a decimal, where study.toml says it."""
    from ..table.spreadsheets import write_table
    from ..views.export import table_back

    folder = results(shells.study)
    write_table(table, folder / "pit_by_pit.csv")
    write_table(shells.benches(), folder / "benches.csv")
    name = shells.study.table.name if shells.study.table else "blocks.csv"
    try:
        rows = table_back.write(shells, folder / name, decimal)
        say(
            f"{folder / name}: the table with a column more, pit_shell, that {rows:,} of its rows"
            " have"
        )
    except PlanError as error:
        write_table(shells.of_blocks(), folder / "blocks.csv")
        warn(f"{error}\n{folder / 'blocks.csv'} has the shell of each block by its id instead")


def _print_table(shells: Shells, table: pd.DataFrame) -> None:
    """The pit-by-pit table on the screen; all of its columns are in the file."""
    currency, metals = shells.study.currency, shells.study.manifest["metals"]
    rock = printed_scale(table[["ore_t", "waste_t"]], shells.study.model.units.weight)
    money = printed_scale(table[["worth_at_base", "npv_best", "npv_worst"]], currency)
    names = (
        "factor",
        "blocks",
        f"ore {rock.unit}",
        f"waste {rock.unit}",
        "strip",
        *(f"{name} {unit['grade_unit']}" for name, unit in metals.items()),
        "worth",
        "best case",
        "worst case",
        "years",
    )
    places = {name: grade_places(table[f"grade_{name}"], 3, 3) for name in metals}
    lines = []
    for row in table.to_dict("records"):
        grades = [
            "" if (value := row[f"grade_{name}"]) != value else f"{value:.{places[name]}f}"
            for name in metals
        ]
        strip = "" if row["strip"] != row["strip"] else f"{row['strip']:.2f}"
        lines.append(
            (
                f"{row['factor']:.3f}",
                f"{row['blocks']:,}",
                rock.text(row["ore_t"]),
                rock.text(row["waste_t"]),
                strip,
                *grades,
                money.text(row["worth_at_base"]),
                money.text(row["npv_best"]),
                money.text(row["npv_worst"]),
                f"{row['years']:.1f}",
            )
        )
    print_columns(f"pit by pit, worths in {money.unit} at the full price", names, lines)
    say(
        f"{shells.study.folder / 'out'}: pit_by_pit.csv, benches.csv. Each pit is proved; the"
        " discounted cases are two simple orders, no schedule"
    )
    if shells.certified == len(shells):
        say("each pit has a certificate, which pit check has accepted")
    else:
        say(
            "each pit is as pit shells states it, which is proved to state none but the best;"
            f" certificates: {command('shells', shells.study.named)} --certificates"
        )


def warn_of_edges(shells: Shells) -> None:
    """Says of the smallest pit that touches the model's side, and of the smallest that reaches its
    floor, where that is."""
    from ..study.edges import FLOOR, SIDE

    for count, (what, hint) in ((shells.touches_edge, SIDE), (shells.reaches_floor, FLOOR)):
        first = next(
            ((factor, n) for i, factor in enumerate(shells.factors) if (n := count(i))), None
        )
        if first:
            last = count(len(shells.factors) - 1)
            blocks = f"{counted(first[1], 'block')} there" + (
                f", {last:,} at factor {share_text(shells.factors[-1])}"
                if first[0] != shells.factors[-1]
                else ""
            )
            warn(
                f"from factor {share_text(first[0])} on a pit {what.format(blocks)}\n  try: {hint}"
            )
