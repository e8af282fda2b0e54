"""`pitplan desk`: the commands and study.toml as a page in a browser."""
from __future__ import annotations

from pathlib import Path
from typing import List

import typer

from ..base.errors import PlanError
from .console import app

_NEEDS = (
    "sudo apt-get install pitplan-desk, or: sudo apt-get install --no-install-recommends"
    " python3-starlette python3-uvicorn"
)


@app.command()
def desk(
    folder: Path = typer.Argument(
        Path("."),
        help="A folder with tables, and a folder for each study.",
        show_default="this folder",
    ),
    port: int = typer.Option(8750, "--port", min=1, max=65535, help="Where it listens."),
    host: str = typer.Option(
        "127.0.0.1",
        "--host",
        help="The address that it listens at. Only this machine reaches the default.",
    ),
    name: List[str] = typer.Option(
        [],
        "--name",
        metavar="ADDRESS",
        help="A further address by which browsers call it, as https://desk.mine.example behind a proxy.",
    ),
    upload_limit: int = typer.Option(
        2_000_000_000, "--upload-limit", min=1, help="Bytes of a table that is dropped, at most."
    ),
) -> None:
    """Serve the same commands and the same study.toml as a page in the browser, over a folder of tables and studies."""
    try:
        from ..desk.serve import serve
    except ModuleNotFoundError as error:
        raise PlanError(
            f"pitplan desk needs the Python package {error.name}", try_this=_NEEDS
        ) from None
    serve(folder, host, port, name, upload_limit)
