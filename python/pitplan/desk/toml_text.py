"""Changes of a study.toml that leave all else in it as it is: comments, order, spelling, ends of lines."""
from __future__ import annotations

import re
import tomllib
from collections.abc import Sequence
from contextlib import suppress
from typing import Any

import tomlkit
from tomlkit.items import AoT

from ..base.errors import toml_spelled
from ..base.study_lines import step_of, value_at

_Path = list[Any]  # as ["economics", "metals", "copper", "price"]; a list's item by its place, too
_NOTHING = None  # what stands where a key isn't there
_HEADER = re.compile(r"\s*\[[^\],]*\]\]?\s*(#|$)")


class Conflict(Exception):
    """What is to be changed, at `path`, isn't any more what whoever changes it has seen."""

    def __init__(self, path: _Path) -> None:
        super().__init__(_in_words(path))
        self.path = path


def changed(text: str, changes: Sequence[dict[str, Any]]) -> str:
    """The text with some keys set, or taken out. Each change has ``path``, ``value`` (None takes it
    out), and ``was``: what stood there. Raises Conflict where something else stands there now,
    ValueError where the text is no TOML, a path leads nowhere, or something else comes of it."""
    first = tomllib.loads(text)
    for change in changes:
        if len(change["path"]) < 2:
            raise ValueError("a section and a key are wanted")
        if "was" in change and at(first, list(change["path"])) != change["was"]:
            raise Conflict(list(change["path"]))
    for change in changes:
        path, value = list(change["path"]), change["value"]
        wanted = tomllib.loads(text)
        _put(wanted, path, value)
        try:
            new = _in_text(text, path, value)
        except Exception as error:  # tomlkit raises what it likes of what it can't write
            raise ValueError(f"{type(error).__name__}: {error}") from None
        if tomllib.loads(new) != wanted:
            raise ValueError(f"{_in_words(path)} can't be written there: change it in the text")
        text = new
    return text


def _in_words(path: _Path) -> str:
    """A path in words."""
    return f"[{path[0]}] " + ".".join(map(str, path[1:]))


def at(tree: Any, path: _Path) -> Any:
    """What stands at a path; None where nothing does."""
    with suppress(LookupError, TypeError, StopIteration):
        return value_at(tree, tuple(path))
    return _NOTHING


def _put(tree: Any, path: _Path, value: Any) -> None:
    """Sets a value in nested tables and lists; None takes it out. Raises ValueError where the path leads nowhere."""
    try:
        for step in path[:-1]:
            step = step_of(tree, step)
            tree = tree.setdefault(step, {}) if isinstance(tree, dict) else tree[step]
        last: Any = step_of(tree, path[-1])
        if value is _NOTHING:
            if isinstance(tree, list):
                del tree[last]
            else:
                tree.pop(last, None)
        elif isinstance(tree, list) and last == len(tree):
            # [[name]] takes tables with lines of their own
            tree.append(tomlkit.item(value.unwrap()) if isinstance(tree, AoT) else value)
        else:
            tree[last] = value
    except (LookupError, TypeError, AttributeError, StopIteration) as error:
        raise ValueError(f"there is no {_in_words(path)}: {error}") from None


def _in_text(text: str, path: _Path, value: Any) -> str:
    """The text with one value set. A key that `init` left as a comment comes to stand in that line."""
    document = tomlkit.parse(text)
    section, key, *rest = path
    if not isinstance(section, str) or not isinstance(key, str):
        raise ValueError("a section and a key are wanted")
    if value is _NOTHING and not rest:
        off = _without(text, section, key)
        if off is not None:
            return off
    if value is _NOTHING or key in document.get(section, {}):
        _put(document, path, _NOTHING if value is _NOTHING else tomlkit.value(_written(value)))
        return tomlkit.dumps(document)
    whole: Any = {} if rest else value
    if rest:  # a table that isn't there yet
        _put(whole, rest, value)
    return _with_new_key(text, section, key, _written(whole))


def _without(text: str, section: str, key: str) -> str | None:
    """The text with a key's line as a comment, in which it stands again once it has a value; None
    where it has no line of its own."""
    wanted, lines = tomllib.loads(text), text.splitlines(keepends=True)
    _put(wanted, [section, key], _NOTHING)
    for i, line in enumerate(lines):
        if line.startswith(f"{key} = "):
            new = "".join([*lines[:i], f"# {line}", *lines[i + 1 :]])
            with suppress(ValueError):
                if tomllib.loads(new) == wanted:
                    return new
    return None


def _written(value: Any) -> str:
    """A value as `init` writes it: each table of a list, as the metals are, in a line of its own."""
    if isinstance(value, list) and value and all(isinstance(each, dict) for each in value):
        return "[\n" + "".join(f"    {toml_spelled(each)},\n" for each in value) + "]"
    return toml_spelled(value)


def _with_new_key(text: str, section: str, key: str, value: str) -> str:
    """A key more in a section: in place of its line of comment, or after the section's last line;
    in a section of its own at the end where there is none."""
    end = "\r\n" if "\r\n" in text else "\n"
    if section not in tomllib.loads(text):
        text = f"{text.rstrip()}{end}{end}[{section}]{end}".lstrip()
    lines, value = text.splitlines(keepends=True), value.replace("\n", end)
    head = re.compile(rf"\s*\[\s*{re.escape(section)}\s*\]")
    start = next((i for i, line in enumerate(lines) if head.match(line)), None)
    if start is None:
        raise ValueError(f"the file has no line [{section}]")
    after = range(start + 1, len(lines))
    stop = next((i for i in after if _HEADER.match(lines[i])), len(lines))
    for i in range(start + 1, stop):
        off = re.match(rf"#\s*{re.escape(key)} = .*?(\s\s+#.*)?$", lines[i].rstrip("\r\n"))
        if off:
            lines[i] = f"{key} = {value}{off[1] or ''}{end}"
            return "".join(lines)
    last = max(i for i in range(start, stop) if lines[i].strip())
    if not lines[last].endswith("\n"):
        lines[last] += end
    lines.insert(last + 1, f"{key} = {value}{end}")
    return "".join(lines)
