"""The study.toml that `pitplan init` writes, made from the description of the keys, with a comment
at each."""
from __future__ import annotations

from collections.abc import Mapping
from string import Template

from ..base.errors import toml_spelled
from ..table.study_keys import KEYS, METALS, SECTIONS, Key
from ..table.value_kinds import KINDS

_HEAD = (
    "# What pitplan works on. Every price, cost and angle is an example: put your own in its"
    " place.\n"
)
_COLUMN = 32  # where comments begin
_BESIDE = "\x1f"  # between a value and its comment, until names are put in: no text of TOML has it


def template() -> Template:
    """The text, in which ``$name`` stands for what `first_look.written` finds in a table."""
    return Template(
        _HEAD
        + "".join(
            f"\n[{section}]\n" + "".join(map(_lines_of, _keys_written(section)))
            for section in SECTIONS
            if _keys_written(section)
        )
    )


def _keys_written(section: str) -> list[Key]:
    """The keys of a section that `init` writes."""
    return [key for key in KEYS if key.section == section and key.is_written]


def _lines_of(key: Key) -> str:
    """The lines of a key: a comment above it, and its value with one beside it. What has no default
    is left as a comment."""
    above = "".join(f"# {line}\n" for line in key.before.splitlines())
    value = key.example or _kept(
        toml_spelled(key.default) if key.default is not None else KINDS[key.kind].example
    )
    is_off = key.is_off or not key.example and key.default is None
    after = "$encoding" if key.path == ("model", "table") else ""
    note = (key.note or _kept(key.help.replace("`", ""))).strip()
    return (
        above
        + f"{'# ' if is_off else ''}{key.name} = {value}"
        + (_BESIDE + note if note else "")
        + after
        + "\n"
    )


def aligned(text: str) -> str:
    """A text with each comment that stands beside a value in one column."""
    return "\n".join(
        (
            f"{line.partition(_BESIDE)[0]:<{_COLUMN}} # {line.partition(_BESIDE)[2]}"
            if _BESIDE in line
            else line
        )
        for line in text.split("\n")
    )


def _kept(text: str) -> str:
    """A text that holds no name of what is found."""
    return text.replace("$", "$$")


def metal(values: Mapping[str, object]) -> str:
    """The line of a metal: what is known of it, and examples of the other keys."""

    def value(key: Key) -> str:
        if key.name in values:
            return toml_spelled(values[key.name])
        if key.example or key.default is None:
            return key.example or KINDS[key.kind].example
        return toml_spelled(key.default)

    parts = [
        f"{key.name} = {value(key)}"
        for key in KEYS
        if key.section == METALS and (key.is_written or key.name in values)
    ]
    return f"    {{ {', '.join(parts)} }},"
