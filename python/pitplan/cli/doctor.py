"""`pitplan doctor`: whether all that pitplan needs is there and works."""
from __future__ import annotations

import typer
from rich.markup import escape

from .console import app, out

_COLOURS = {"ok": "green", "look": "yellow", "MISSING": "red", "WRONG": "red"}


@app.command()
def doctor() -> None:
    """Look whether all that pitplan needs is here, and take a small mine through it."""
    from ..audit.doctor import findings

    bad = 0
    for found in findings():
        out.print(f"[{_COLOURS[found.kind]}]{found.kind:8}[/]" + escape(found.what), soft_wrap=True)
        if found.try_this:
            out.print(f"  try: {escape(found.try_this)}", soft_wrap=True)
        bad += found.is_bad
    out.print("all is well" if not bad else f"missing or wrong: {bad}")
    if bad:
        raise typer.Exit(1)
