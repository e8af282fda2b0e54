"""`pitplan compare`: a designed pit beside the best one."""
from __future__ import annotations

import re
from pathlib import Path
from typing import TYPE_CHECKING, Any, List, Optional

import typer
from ..base.errors import PlanError
from ..base.units_shown import length_text, printed_scale, share_text
from .tables import print_kinds
from .console import STUDY, app, described, err, open_study, results, say

if TYPE_CHECKING:
    from ..plans.compare import Comparison
    from ..study.study import Study


@app.command()
def compare(
    folder: Path = STUDY,
    ids: Optional[Path] = typer.Option(
        None, "--ids", help="A table or a text with the ids of the design's blocks."
    ),
    column: Optional[str] = typer.Option(
        None,
        "--column",
        help="The column of the study's table that says which rows the design takes.",
    ),
    value: Optional[str] = typer.Option(
        None,
        "--value",
        help="With --column: the cell of the rows that it takes. Default: any number above 0, or yes.",
    ),
    surface: Optional[Path] = typer.Option(
        None, "--surface", help="A DXF with faces, or a CSV of points x, y, z: the blocks above it."
    ),
    layer: List[str] = typer.Option(
        [], "--layer", help="With --surface: a layer of the DXF. Default: all."
    ),
    factor: float = typer.Option(
        1.0, "--factor", help="The pit to compare with, by its factor of the price."
    ),
    bench: List[float] = typer.Option(
        [],
        "--bench",
        help="Draw the plan of the bench at this elevation. Default: where the two differ most.",
    ),
) -> None:
    """Put a designed pit beside the proved best one: does it keep the slopes, what is it worth, how
    far from the bound. Status 1 where it breaks the slopes, or digs what may not be dug."""
    from .chosen_pits import DesignOptions, beside, design_of

    if sum(given is not None for given in (ids, column, surface)) != 1:
        raise PlanError("a design is given by one of --ids FILE, --column NAME and --surface FILE")
    study = open_study(folder)
    options = DesignOptions(ids=ids, surface=surface, layers=layer, column=column, value=value)
    found = beside(study, design_of(study, options, described(folder).keys.encoding), factor)
    with err.long_step("tables and plans are written"):
        target = _write_comparison(study, found, bench)
    _tell(study, found)
    say(
        f"{target}: summary.json, benches.csv, reserves.csv"
        + ("" if found.is_closed else ", pairs.csv, walls.csv, repair.csv")
        + ", plans"
    )
    is_forbidden = bool((found.design.held & study.priced.forbidden).any())
    if is_forbidden:
        say("the design digs what may not be dug, so the status is 1")
    if is_forbidden or not found.is_closed:
        raise typer.Exit(1)


def _write_comparison(study: Study, comparison: Comparison, elevations: list[float]) -> Path:
    """Writes all that was found into a folder of its own."""
    from ..base.files import write_json
    from ..plans.compare import by_way
    from ..table.spreadsheets import write_table
    from ..views.compare_plan import plan, widest_bench
    from ..views.pictures import save

    target = results(study) / ("compare-" + re.sub(r"[^\w.-]+", "_", comparison.design.name))
    target.mkdir(exist_ok=True)
    tables: dict[str, Any] = {
        "benches.csv": comparison.benches,
        "reserves.csv": by_way(
            study, comparison.design.held, comparison.optimum, comparison.factor
        ),
    }
    if comparison.repair:
        b = study.model.blocks[comparison.repair.held & ~comparison.design.held]
        tables |= {
            "pairs.csv": comparison.pairs,
            "walls.csv": comparison.walls,
            "repair.csv": b[["id", "rock", "tonnes"]],
        }
    for stale in ("pairs.csv", "walls.csv", "repair.csv"):
        (target / stale).unlink(missing_ok=True)
    for name, frame in tables.items():
        write_table(frame, target / name)
    write_json(target / "summary.json", summary(study, comparison))
    for elevation in elevations or ([widest_bench(comparison)] if len(comparison.benches) else []):
        save(
            plan(study.model, comparison, elevation),
            target / f"plan-{length_text(elevation, '')}.png",
        )
    return target


def summary(study: Study, comparison: Comparison) -> dict[str, Any]:
    """What an auditor asks of the comparison."""
    from ..base.amounts import THOUSAND

    verdict = study.verdict(comparison.factor)
    tonnes, shut = (
        study.model.blocks.tonnes.to_numpy(float),
        comparison.design.held & study.priced.forbidden,
    )
    facts: dict[str, Any] = {
        "design": comparison.design.name,
        "notes": comparison.design.notes,
        "factor": comparison.factor / THOUSAND,
        "pit_value_said": comparison.said,
        "is_closed": comparison.is_closed,
        "blocks": int(comparison.design.held.sum()),
        "tonnes": float(tonnes[comparison.design.held].sum()),
        "worth": comparison.worth,
        "bound": comparison.bound,
        "gap": comparison.gap,
        "best_blocks": int(comparison.optimum.sum()),
        "best_tonnes": float(tonnes[comparison.optimum].sum()),
        "left_tonnes": float(comparison.benches.left_t.sum()),
        "over_tonnes": float(comparison.benches.over_t.sum()),
        "forbidden_blocks": int(shut.sum()),
        "forbidden_tonnes": float(tonnes[shut].sum()),
        "certificate": verdict["certificate"] if verdict else None,
        "model": study.key,
        "pit": study.manifest["pit"],
    }
    if comparison.repair:
        facts["repair"] = {
            "blocks": comparison.repair.blocks,
            "tonnes": comparison.repair.tonnes,
            "worth": comparison.repair.worth,
            "gap": comparison.repair.gap,
        }
        facts["broken_pairs"] = len(comparison.pairs)
    return facts


def _tell(study: Study, comparison: Comparison) -> None:
    """The comparison on the screen."""
    from ..plans.compare_words import forbidden_lines, money, verdict_lines

    currency, held, units = study.currency, comparison.design.held, study.model.units
    tonnes = study.model.blocks.tonnes.to_numpy(float)
    design, best = tonnes[held].sum(), tonnes[comparison.optimum].sum()
    rock = printed_scale([design, best], units.weight)
    lines = [
        (
            f"{comparison.design.name}: {int(held.sum()):,} blocks, {rock.said(design)}, worth"
            f" {money(comparison.worth, currency)} at factor {share_text(comparison.factor)}"
        ),
        *(f"  {note}" for note in comparison.design.notes),
        *forbidden_lines(study, held),
        (
            f"best pit: {int(comparison.optimum.sum()):,} blocks, {rock.said(best)}, worth"
            f" {money(comparison.bound, currency)}: no pit that keeps the slopes is worth more"
        ),
        *verdict_lines(comparison, currency, units),
    ]
    b = comparison.benches
    lines.append(
        (
            f"left by the design {rock.said(b.left_t.sum())} ({rock.said(b.left_ore_t.sum())}"
            f" of ore), beyond the best pit {rock.said(b.over_t.sum())}"
            f" ({rock.said(b.over_ore_t.sum())} of ore)"
        )
    )
    for line in lines:
        say(line)
    print_kinds(
        study,
        {comparison.design.name: held, "best pit": comparison.optimum},
        "",
        comparison.factor,
    )
