"""`pitplan report`: a study as PDF or as a workbook."""
from __future__ import annotations

from pathlib import Path
from typing import TYPE_CHECKING, Optional

import typer

from ..base.errors import PlanError
from .console import STUDY, app, described, err, results, say, shells_of

if TYPE_CHECKING:
    from ..views.report import Report


@app.command()
def report(
    folder: Path = STUDY,
    pdf: bool = typer.Option(False, "--pdf", help="As PDF, to read and to print."),
    xlsx: bool = typer.Option(
        False,
        "--xlsx",
        help="As a workbook, with a sheet for each table and its numbers as numbers.",
    ),
    phases: Optional[str] = typer.Option(
        None,
        "--phases",
        show_default=False,
        help="Tell of pushbacks too: the factors of the pits that end them, ascending, as 0.5,0.75,1.0.",
    ),
    title: Optional[str] = typer.Option(
        None, show_default=False, help="Of the cover. Default: the study's name."
    ),
) -> None:
    """Write a report: what was asked for, tables, pictures, the plan by years where there is one,
    slopes with their errors, what is proved and what isn't, digests. As PDF and as a workbook,
    unless one of them is asked for."""
    from ..views.report import gathered
    from .chosen_pits import pushbacks_at, schedule_if_found

    plan = described(folder)
    shells, _ = shells_of(folder)
    cut = pushbacks_at(folder, phases) if phases else None
    with err.long_step("the report is gathered"):
        found = gathered(shells, plan, cut, title, schedule_if_found(plan, shells))
    target = results(shells.study)
    for name, is_wanted in (("pdf", pdf), ("xlsx", xlsx)):
        if is_wanted or not (pdf or xlsx):
            with err.long_step(f"report.{name} is written"):
                path = _written(name, found, target / f"report.{name}")
            say(f"{path}: {path.stat().st_size / 1e6:.1f} MB")


def _written(kind: str, report: Report, path: Path) -> Path:
    """Writes a report as pdf or xlsx.

    Raises
    ------
    PlanError
        Where the library that it needs isn't there.
    """
    try:
        if kind == "pdf":
            from ..views.report import pdf

            return pdf.write(report, path)
        from ..views.report import xlsx

        return xlsx.write(report, path)
    except ImportError as error:
        name = {"pdf": "python3-reportlab", "xlsx": "python3-openpyxl"}[kind]
        raise PlanError(
            f"a report as {kind} needs a package that isn't here: {error}",
            try_this=f"sudo apt-get install --no-install-recommends {name}",
        ) from None
