"""`pitplan slopes`: how steep the walls are that the offsets make."""
from __future__ import annotations

from pathlib import Path
from typing import TYPE_CHECKING, Any

import typer
from ..base.files import whole_file
from ..study import older_outputs
from .console import STUDY, app, described, err, print_columns, say, warn
from .tables import print_patterns

if TYPE_CHECKING:
    import pandas as pd

_EVERY: Any = typer.Option(
    45, "--every", min=15, max=90, help="Degrees of bearing between two lines of the table."
)


@app.command()
def slopes(folder: Path = STUDY, every: int = _EVERY) -> None:
    """Show the angles that are asked for and those that are built, by bearing and region, and draw
    them."""
    from ..base.units import Units
    from ..table.spreadsheets import write_table
    from ..views.slope_rose import rose

    plan = described(folder)
    grid = plan.grid()
    with err.status("looking for offsets"):
        table = plan.slopes.built(grid)
    print_patterns(plan.slopes, grid, Units(**plan.keys.units).length)
    _print_angles(table, every)
    folder = plan.path.parent / "out"
    folder.mkdir(exist_ok=True)
    older_outputs.watch(folder, older_outputs.key_of_walls(plan.slopes, grid), warn)
    write_table(table.round(3), folder / "slopes.csv")
    with whole_file(folder / "slopes.png") as part:
        rose(plan.slopes, grid).savefig(part, dpi=110, bbox_inches="tight")
    say(f"{folder / 'slopes.png'}, {folder / 'slopes.csv'}")


def _print_angles(table: pd.DataFrame, every: int) -> None:
    """The table of asked and built angles."""
    from ..slopes.slopes import walls_of

    print_columns("degrees of the wall at a bearing", *walls_of(table, every))
