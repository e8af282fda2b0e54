"""`pitplan phases`: pushbacks, as pits of some factors or widened for machines."""
from __future__ import annotations

from pathlib import Path
from typing import TYPE_CHECKING, Any, List, Optional

import typer

from ..base.errors import PlanError
from ..base.units_shown import (
    Scale,
    counted,
    grade_places,
    length_text,
    lengths,
    printed_scale,
    share_text,
)
from .tables import print_kinds
from .console import and_study, app, err, print_columns, results, say, study_and, warn

if TYPE_CHECKING:
    import pandas as pd

    from ..plans.phases import Phases

_WORST = 3  # thin benches of a pushback that are named
_PAIR = and_study(
    "FACTORS", "the factors of the pits that end the pushbacks, ascending, as 0.5,0.75,1.0."
)
_WIDEN = (
    "Make each pushback this wide, in the unit of the coordinates, by blocks of the"
    " next pit that it takes in, or that it leaves for it."
)


@app.command()
def phases(
    pair: List[str] = _PAIR,
    mining_width: Optional[float] = typer.Option(
        None,
        "--mining-width",
        min=0.0,
        help=(
            "The least width that machines need, in the unit of the coordinates: where a"
            " pushback is thinner is told by bench."
        ),
    ),
    widen: Optional[float] = typer.Option(
        None,
        "--widen",
        min=0.0,
        help=_WIDEN,
    ),
) -> None:
    """Cut the mine into pushbacks: rock, ore, grade, metal, strip ratio and worth of each, bench by bench."""
    from ..plans.last_pushbacks import keep
    from ..plans.phases import Phases
    from ..plans.widening import Widening
    from ..table.spreadsheets import write_table
    from .chosen_pits import pits_at, shares_of

    folder, factors = study_and("phases", pair)
    if widen is not None and mining_width is not None:
        raise PlanError(
            "--widen and --mining-width are one width", try_this=f"--widen {widen:g} alone"
        )
    if widen is not None and not widen > 0:
        raise PlanError(f"--widen is {widen:g}, and has to be above 0", try_this="--widen 40")
    width = mining_width if widen is None else widen
    found = Phases(pits_at(folder, shares_of(factors)), width)
    if widen is not None:
        with err.status("pushbacks are widened"):
            mines = Widening(found.shells, widen).mines
        found = Phases(found.shells, widen, mines)
    benches = found.benches()
    table = found.table(benches=benches)
    target = results(found.shells.study)
    for name, frame in (
        ("phases.csv", table),
        ("phase_benches.csv", benches),
        ("phase_blocks.csv", found.of_blocks()[found.pushback > 0]),
        ("phase_reserves.csv", found.reserves()),
    ):
        write_table(frame, target / name)
    keep(found, target)
    _show(found, table)
    print_kinds(
        found.shells.study,
        {f"pushback {k}": found.pushback == k for k in range(1, len(found) + 1)},
        "pushbacks",
    )
    if found.mines is not None:
        _tell_widened(found)
    _tell_narrow(found, benches, target / "phase_benches.csv")
    _tell_files(found, target)


def _tell_files(phases: Phases, target: Path) -> None:
    """The files, and what is proved of the mine after each pushback."""
    say(
        f"{target}: phases.csv, phase_benches.csv, phase_reserves.csv, phase_blocks.csv."
        f" After each pushback {phases.after}; in which order benches are dug is the scheduler's"
    )


def _show(phases: Phases, table: pd.DataFrame) -> None:
    """The pushbacks on the screen, and all of them together."""
    manifest = phases.shells.study.manifest
    metals, units = manifest["metals"], phases.shells.study.model.units
    places = {name: grade_places(table[f"grade_{name}"], 3, 3) for name in metals}
    total = _total_of(table, metals)
    rock = printed_scale([total["ore_t"], total["waste_t"]], units.weight)
    money = printed_scale([*table["worth"], total["worth"]], manifest["currency"])
    names = (
        "pushback",
        "factor",
        f"from {units.length}",
        f"to {units.length}",
        f"ore {rock.unit}",
        f"waste {rock.unit}",
        "strip",
        *(f"{name} {unit['grade_unit']}" for name, unit in metals.items()),
        *(f"{name} {unit['price_unit']}" for name, unit in metals.items()),
        "worth",
        f"thinnest {units.length}",
        "at bench",
    )
    tops = lengths([*table["top"], table["top"].max()])
    bottoms = lengths([*table["bottom"], table["bottom"].min()])
    lines = [
        [
            str(row["pushback"]),
            f"{row['factor']:g}",
            top,
            bottom,
            *_amounts(row, metals, places, (rock, money)),
            width,
            bench,
        ]
        for row, top, bottom, width, bench in zip(
            table.to_dict("records"),
            tops,
            bottoms,
            *(lengths(table[name]) for name in ("width", "width_bench")),
        )
    ]
    lines.append(
        [
            "all",
            "",
            tops[-1],
            bottoms[-1],
            *_amounts(total, metals, places, (rock, money)),
            "",
            "",
        ]
    )
    print_columns(
        f"pushbacks, worths in {money.unit} at the full price",
        names,
        lines,
        has_total=True,
    )


def _total_of(table: pd.DataFrame, metals: dict[str, Any]) -> dict[str, float]:
    """What all pushbacks have together."""
    ore, waste = float(table.ore_t.sum()), float(table.waste_t.sum())
    total = {
        "ore_t": ore,
        "waste_t": waste,
        "strip": waste / ore if ore else float("nan"),
        "worth": float(table.worth.sum()),
    }
    for name in metals:
        total |= {
            f"grade_{name}": float((table[f"grade_{name}"].fillna(0) * table.ore_t).sum()) / ore
            if ore
            else float("nan"),
            f"metal_{name}": float(table[f"metal_{name}"].sum()),
        }
    return total


def _amounts(
    row: dict[str, Any],
    metals: dict[str, Any],
    places: dict[str, int],
    scales: tuple[Scale, Scale],
) -> list[str]:
    """The cells of a row from ore to worth; `places` are the decimals of grades, `scales` those of
    rock and of money."""
    rock, money = scales

    def text(value: float, places: int) -> str:
        return "" if value != value else f"{value:,.{places}f}"

    return [
        rock.text(row["ore_t"]),
        rock.text(row["waste_t"]),
        text(row["strip"], 2),
        *(text(row[f"grade_{name}"], places[name]) for name in metals),
        *(text(row[f"metal_{name}"], 0) for name in metals),
        money.text(row["worth"]),
    ]


def _tell_widened(phases: Phases) -> None:
    """What each widened pushback took in and left, and what `pit value` says of the mine after it,
    beside the two proved pits."""
    from ..base.amounts import THOUSAND
    from ..plans.compare_words import money
    from ..plans.widening import judged
    from ..study.shells import Shells
    from .chosen_pits import with_certificates

    shells, study = phases.shells, phases.shells.study
    units = study.model.units
    factor = THOUSAND if study.verdict(THOUSAND) else shells.factors[-1]
    with_certificates(Shells(study, [factor]))
    mines = list(phases.mines or [])[:-1]
    said = judged(study, mines, factor)
    tonnes, at = study.model.blocks["tonnes"].to_numpy(float), share_text(factor)
    rock = printed_scale([tonnes[shells.holds(len(shells) - 1)].sum()], units.weight)
    pits = [
        money(study.priced.worth_of(shells.holds(i), factor), study.currency)
        for i in range(len(shells))
    ]
    for i, (mine, each) in enumerate(zip(mines, said)):
        more, less = mine & ~shells.holds(i), shells.holds(i) & ~mine
        say(
            f"pushback {i + 1} widened to {phases.mining_width:g} {units.length}:"
            f" {counted(int(more.sum()), 'block')} of the next pit taken in"
            f" ({rock.said(tonnes[more].sum())}), "
            f"{counted(int(less.sum()), 'block')} left for it ({rock.said(tonnes[less].sum())})\n"
            f"  pit value says {each.said}, worth {money(each.worth, study.currency)} at"
            f" factor {at}; the pits beside it are worth {pits[i]} "
            f"(factor {share_text(shells.factors[i])}) and {pits[i + 1]} (factor {share_text(shells.factors[i + 1])})"
        )


def _tell_narrow(phases: Phases, benches: pd.DataFrame, file: Path) -> None:
    """Names the worst benches of each pushback that are thinner than the mining width, and the file
    that has all."""
    if phases.mining_width is None:
        return
    thin, units = benches[benches.narrow_blocks > 0], phases.shells.study.model.units
    if not len(thin):
        say(
            f"every pushback is at least {phases.mining_width:g} {units.length} wide on every bench"
        )
    rock = printed_scale([benches.rock_t.sum()], units.weight)
    for (pushback, factor), part in thin.groupby(["pushback", "factor"]):
        narrow = (
            f"pushback {pushback} (factor {factor:g})"
            f" {'is' if phases.mines is None else 'stays'} thinner than"
            f" {phases.mining_width:g} {units.length} on {len(part)} "
            f"{'bench' if len(part) == 1 else 'benches'},"
            f" {counted(int(part.narrow_blocks.sum()), 'block')},"
            f" {rock.said(part.narrow_t.sum())}:"
        )
        worst = part.sort_values(
            ["width", "narrow_blocks"], ascending=[True, False], kind="stable"
        ).head(_WORST)
        named = ", ".join(
            (
                f"{length_text(row.bench)} ({length_text(row.width)} {units.length},"
                f" {counted(int(row.narrow_blocks), 'block')})"
            )
            for row in worst.itertuples()
        )
        warn(
            f"{narrow}\n  {named}"
            + ("" if len(part) <= _WORST else f" are the worst; {file} has all")
        )
