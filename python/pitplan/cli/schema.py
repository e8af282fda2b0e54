"""`pitplan schema`: the JSON Schema of study.toml, for editors."""
from __future__ import annotations

import json

from .console import app


@app.command()
def schema() -> None:
    """Print a JSON Schema of study.toml, by which an editor completes its keys and marks what is
    wrong."""
    from ..study.study_reference import schema

    print(json.dumps(schema(), indent=1, ensure_ascii=False))
