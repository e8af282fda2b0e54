"""What is written of the keys of study.toml for people and for editors: the tables of
docs/STUDY.md, and a JSON Schema.

    python3 -m pitplan.study.study_reference docs/STUDY.md

puts the tables into the document anew, in place of those that stand between its marks.
"""
from __future__ import annotations

import re
import sys
from pathlib import Path
from typing import Any

from ..base.errors import toml_spelled
from ..table.study_keys import KEYS, LISTS, METALS, NEEDED, PROCESSES, SECTIONS, Key
from ..table.value_kinds import KINDS

_BEGIN, _END = "<!-- keys: made by study_reference.py -->\n", "<!-- end of keys -->\n"
_HEAD = "| Key | What it says | What it may be | Default |\n|---|---|---|---|\n"
_DIALECT = "https://json-schema.org/draft/2020-12/schema"


def tables() -> str:
    """The tables of the reference: one for each section, for a metal and for a process."""
    titles = {section: f"## [{section}]" for section in SECTIONS} | {
        METALS: "## A metal of [economics]",
        PROCESSES: "## A process of [economics]",
    }
    return "\n".join(
        f"{title}\n\n{_HEAD}" + "".join(row(key) for key in KEYS if key.section == section)
        for section, title in titles.items()
    )


def row(key: Key) -> str:
    """A row of a table."""
    unit = f"; {key.unit.replace('{currency}', 'currency')}" if key.unit else ""
    default = (
        "needed"
        if key.is_needed
        else f"needed, or `{key.unless}`"
        if key.unless
        else f"`{toml_spelled(key.default)}`"
        if key.default is not None
        else ""
    )
    return f"| `{key.name}` | {key.help} | {_in_cell(key.must)}{_in_cell(unit)} | {default} |\n".replace(
        "|  |", "| |"
    )


def _in_cell(text: str) -> str:
    return text.replace("|", "\\|")


def with_tables(document: str) -> str:
    """A document with the tables anew between its marks."""
    before, _, rest = document.partition(_BEGIN)
    return before + _BEGIN + "\n" + tables() + "\n" + _END + rest.partition(_END)[2]


def schema() -> dict[str, Any]:
    """A JSON Schema of study.toml, for editors that complete and check a TOML file by one."""
    sections = {section: _table_of(section) for section in SECTIONS}
    return {
        "$schema": _DIALECT,
        "title": "study.toml of pitplan",
        "type": "object",
        "properties": sections,
        "required": list(NEEDED),
        "additionalProperties": False,
    }


def _table_of(section: str) -> dict[str, Any]:
    """The schema of a section, of a metal or of a process."""
    keys = [key for key in KEYS if key.section == section]
    either = [
        {"oneOf": [{"required": [key.name]}, {"required": [key.unless]}]}
        for key in keys
        if key.unless
    ]
    return {
        "type": "object",
        "properties": {key.name: _value_of(key) for key in keys},
        "required": [key.name for key in keys if key.is_needed],
        "additionalProperties": False,
    } | ({"allOf": either} if either else {})


def _value_of(key: Key) -> dict[str, Any]:
    """The schema of a value."""
    found: dict[str, Any] = {**KINDS[key.kind].schema, "description": re.sub(r"`", "", key.help)}
    if key.default is not None:
        found["default"] = key.default
    if key.kind == "choice":
        found["enum"] = list(key.choices)
    if key.kind == "columns":
        found["properties"], found["additionalProperties"] = {
            name: {"type": "string"} for name in key.choices
        }, False
    if key.name in LISTS:
        found["items"] = _table_of(key.name)
    bounds = {
        "exclusiveMinimum" if key.above else "minimum": key.least,
        "exclusiveMaximum" if key.below else "maximum": key.most,
    }
    limits = {name: value for name, value in bounds.items() if abs(value) != float("inf")}
    if found.get("type") == "array" and limits:
        found["items"] = {**found["items"], **limits}
    return found if found.get("type") == "array" else {**found, **limits}


if __name__ == "__main__":
    _path = Path(sys.argv[1])
    _path.write_text(with_tables(_path.read_text()))
