"""`pitplan export`: pits and pushbacks as files for other programs."""
from __future__ import annotations

from pathlib import Path
from typing import TYPE_CHECKING, Any, Callable, Optional

import typer
from ..base.errors import PlanError
from ..base.near_words import meant
from ..base.units_shown import length_text
from ..views.export.kinds import KINDS, MINELIB
from .console import STUDY, app, err, open_study, results, say, shells_of

if TYPE_CHECKING:
    from ..study.shells import Shells

_TO: Any = typer.Option(
    "dxf,vtu,csv",
    "--to",
    help=(
        "Any of dxf, vtu, csv, gpkg, minelib, with commas. minelib is the model alone, for"
        " programs that read .prec and .upit."
    ),
)
_PUSHBACKS = (
    "Export pushbacks in place of pits: the factors of the pits that end them,"
    " ascending, as 0.5,0.75,1.0; widened where `phases` widened these last."
)


@app.command()
def export(
    folder: Path = STUDY,
    to: str = _TO,
    factors: Optional[str] = typer.Option(
        None,
        "--factors",
        help="The pits to export, as 0.5,0.75,1.0. Default: all of study.toml.",
    ),
    phases: Optional[str] = typer.Option(
        None,
        "--phases",
        show_default=False,
        help=_PUSHBACKS,
    ),
    is_schedule: bool = typer.Option(
        False,
        "--schedule",
        help="Export the mine at the end of each year in place of pits, as `schedule` found it last.",
    ),
    columns: Optional[str] = typer.Option(
        None, "--columns", help="Columns of the table for vtu and csv, with commas."
    ),
    is_whole: bool = typer.Option(
        False,
        "--whole",
        help="All blocks of the model in vtu and csv. Default: those of the largest pit alone.",
    ),
    cuts_corners: bool = typer.Option(
        False,
        "--cut-corners",
        help="Draw staircases in dxf as straight lines; areas are then about right only.",
    ),
    crs: Optional[str] = typer.Option(
        None, "--crs", help="The coordinate system for gpkg, as EPSG:32719."
    ),
) -> None:
    """Write the pits for CAD (dxf), ParaView (vtu), GIS (gpkg) and any other program (csv), in true
    coordinates; or the model for other optimisers (minelib)."""
    kinds = _pit_kinds_of(to, folder)
    if not kinds:
        return
    if phases:
        shells = _mines_at(folder, phases, factors or is_schedule, kinds)
    else:
        shells = _year_ends(folder, factors) if is_schedule else _chosen_of(folder, factors)
    names = [name.strip() for name in columns.split(",") if name.strip()] if columns else None
    target = results(shells.study)
    writers: dict[str, Callable[[Path], str]] = {
        "dxf": lambda path: _to_dxf(shells, path, cuts_corners),
        "vtu": lambda path: _to_vtu(shells, path, names, is_whole),
        "csv": lambda path: _to_csv(shells, path, names, is_whole),
        "gpkg": lambda path: _to_gpkg(shells, path, crs),
    }
    for kind in kinds:
        path = target / f"{shells.called}s.{kind}"
        with err.status(f"writing {kind}"):
            text = writers[kind](path)
        say(f"{path}: {text}, {path.stat().st_size / 1e6:.1f} MB")
    if not phases and not is_schedule:
        _tell_pushbacks(target, shells.study.model.units.length)


def _chosen_of(folder: Path, factors: str | None) -> Shells:
    """The pits at some factors, a list with commas; else all of study.toml."""
    from .chosen_pits import pits_at, shares_of

    return pits_at(folder, shares_of(factors)) if factors else shells_of(folder)[0]


def _year_ends(folder: Path, factors: str | None) -> Shells:
    """The mine at the end of each year in the place of pits.

    Raises
    ------
    PlanError
        Where pits are asked for too.
    """
    from ..schedule.year_ends import YearEnds
    from .chosen_pits import last_schedule

    if factors:
        raise PlanError("--schedule exports years, and --factors pits", try_this="one at a time")
    return YearEnds(last_schedule(folder))


def _mines_at(folder: Path, phases: str, others: str | bool, kinds: list[str]) -> Shells:
    """The mine after each pushback in the place of pits.

    Raises
    ------
    PlanError
        Where pits or years are asked for too, or a kind of file that has what is proved of pits.
    """
    from ..plans.phases import Mines
    from .chosen_pits import pushbacks_at

    if others:
        raise PlanError(
            "--phases exports pushbacks, --factors pits and --schedule years",
            try_this="one of them at a time",
        )
    if "gpkg" in kinds:
        raise PlanError(
            "gpkg has the proved worth of each pit, and pushbacks have none of their own",
            try_this="--to dxf,vtu,csv; phases.csv has what each pushback is worth",
        )
    return Mines(pushbacks_at(folder, phases))


def _tell_pushbacks(folder: Path, unit: str) -> None:
    """Says where the pushbacks are that were cut last: what is exported are pits."""
    from ..plans.last_pushbacks import kept_in

    kept = kept_in(folder)
    if kept:
        how = (
            "as cut" if kept["widen"] is None else f"widened to {length_text(kept['widen'])} {unit}"
        )
        say(f"these are pits by factor; pushbacks, {how}, are in {folder / 'phase_blocks.csv'}")


def _pit_kinds_of(text: str, folder: Path) -> list[str]:
    """The kinds of files of pits that are asked for, once the model itself is written where that is
    asked for too. Raises PlanError as `_kinds_of` and `_to_minelib`."""
    kinds = _kinds_of(text)
    if MINELIB in kinds:
        _to_minelib(folder)
    return [kind for kind in kinds if kind != MINELIB]


def _kinds_of(text: str) -> list[str]:
    """The kinds of files that are asked for.

    Raises PlanError where one isn't known.
    """
    found = list(dict.fromkeys(word.strip().lower().removeprefix(".") for word in text.split(",")))
    for kind in found:
        if kind not in KINDS:
            raise PlanError(f"--to: {kind!r} is no file that is written here{meant(kind, KINDS)}")
    return found


def _to_minelib(folder: Path) -> None:
    """Writes the three files of the model, and says what they have."""
    from ..views.export import minelib as export_minelib

    study = open_study(folder)
    target = results(study)
    with err.status("writing minelib"):
        pairs = export_minelib.write(study, target)
    count = study.manifest["blocks"]
    what = (
        f"{count:,} blocks",
        f"{pairs:,} pairs of a block and a predecessor",
        "what each block is worth at the full price",
    )
    for name, text in zip(export_minelib.NAMES, what):
        path = target / name
        say(f"{path}: {text}, {path.stat().st_size / 1e6:.1f} MB")


def _to_dxf(shells: Shells, path: Path, cuts_corners: bool) -> str:
    """Writes DXF, and says what it has."""
    from ..views.export import dxf as export_dxf

    return (
        f"{export_dxf.write(shells, path, cuts_corners=cuts_corners):,} closed polylines, toe and"
        f" crest of each bench in layers {shells.called.upper()}_<{shells.by}>_TOE and _CREST"
    )


def _to_vtu(shells: Shells, path: Path, columns: list[str] | None, is_whole: bool) -> str:
    """Writes VTU, and says what it has."""
    from ..views.export import vtu as export_vtu

    words = export_vtu.write(shells, path, columns, is_whole)
    largest = "largest pit" if shells.by == "factor" else "schedule"
    what = "blocks of the model" if is_whole else f"blocks of the {largest}"
    return f"the {what} as hexahedra" + (
        f"; {path.name}.words.csv says what the numbers of"
        f" {', '.join(words['column'].unique())} stand for"
        if len(words)
        else ""
    )


def _to_csv(shells: Shells, path: Path, columns: list[str] | None, is_whole: bool) -> str:
    """Writes CSV, and says what it has."""
    from ..views.export import csv as export_csv

    return (
        f"{export_csv.write(shells, path, columns, is_whole):,} blocks with place, {shells.called},"
        " worth and where they go"
    )


def _to_gpkg(shells: Shells, path: Path, crs: str | None) -> str:
    """Writes a GeoPackage, and says what it has."""
    from ..views.export import gpkg as export_gpkg

    count = export_gpkg.write(shells, path, crs=crs)
    return f"{count:,} polygons in layers benches and rims" + (
        "" if crs else ", without a coordinate system (--crs EPSG:..)"
    )
