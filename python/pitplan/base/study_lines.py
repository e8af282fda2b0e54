"""Where a key stands in the text of study.toml."""
from __future__ import annotations

import re
from collections.abc import Mapping, Sequence
from typing import Any

from .errors import KeyPath

_MARK = "\u241e"  # what no study.toml has
# what a document raises of a path that leads nowhere
_NOT_THERE = (
    LookupError,
    TypeError,
    ValueError,
    AttributeError,
    StopIteration,
    NotImplementedError,
)
_TABLE = re.compile(r"\s*\[+\s*(\w+)\s*(?:\.\s*(\w+)\s*)?\]")
_BEGINS = re.compile(r"(\w+)\s*=")
# what stands before a comment: no mark within quotes begins one
_BARE = re.compile(r"""(?:[^"'#]|"(?:\\.|[^"\\])*"|'[^']*')*""")


def lines_of(text: str) -> list[dict[str, str]]:
    """Each line of a text: the section and the key that it belongs to, what it says, and its comment.

    >>> lines_of('[slopes]\\nangles = 45  # degrees')[1]
    {'section': 'slopes', 'key': 'angles', 'said': 'angles = 45  ', 'comment': '# degrees'}
    """
    section, each, found = "", "", []
    for line in text.splitlines():
        if header := _TABLE.match(line):
            section, each = header[1], header[2] or ""  # as [[economics.processes]]
        begins, bare = _BEGINS.match(line), _BARE.match(line)
        key, end = each or (begins[1] if begins else ""), bare.end() if bare else 0
        parts = {"section": section, "key": key, "said": line[:end], "comment": line[end:]}
        found.append(parts)
    return found


def line_of(text: str, path: KeyPath) -> tuple[int, str] | None:
    """The line of a key: its number, from 1, and what stands there. Of a key that isn't there, the
    line of the table that it would stand in; None where that isn't there either.

    tomlkit keeps no positions, but it writes a document again line by line: the first line that
    changes with the value is the one.

    >>> line_of('[model]\\nsize = [20, 20,\\n  x]', ("model", "size"))  # no TOML
    (2, 'size = [20, 20,')
    >>> text = '[economics]\\nmetals = [\\n  { name = "gold", price = 1 },\\n]'
    >>> line_of(text, ("economics", "metals", "gold", "price"))
    (3, '  { name = "gold", price = 1 },')
    """
    import tomlkit
    from tomlkit.exceptions import TOMLKitError

    lines = text.splitlines()
    try:
        tomlkit.parse(text)
    except (TOMLKitError, ValueError, RecursionError):
        return _line_by_words(lines, path)
    for end in range(len(path), 0, -1):
        try:
            document = tomlkit.parse(text)
            at = _header_line(lines, path[:end], document) or _marked_line(
                lines, path[:end], document
            )
        except (*_NOT_THERE, TOMLKitError):
            continue
        if at is not None:
            return at, lines[at - 1].rstrip()
    return None


def _line_by_words(lines: Sequence[str], path: KeyPath) -> tuple[int, str] | None:
    """The same where the text is no TOML: the line after the section's header that begins with the
    key, or in which a metal has its name."""
    start = next((i for i, line in enumerate(lines) if _is_header(line, path[:1])), None)
    if start is None:
        return None
    end = next(
        (i for i in range(start + 1, len(lines)) if re.match(r"\s*\[\w", lines[i])), len(lines)
    )
    marks = [rf"\s*[\"']?{re.escape(str(step))}[\"']?\s*[=:]" for step in path[1:2]]
    marks += [rf".*[\"']{re.escape(str(step))}[\"']" for step in path[2:3]]
    for mark in reversed(marks):
        for i in range(start + 1, end):
            if re.match(mark, lines[i]):
                return i + 1, lines[i].rstrip()
    return start + 1, lines[start].rstrip()


def _is_header(line: str, path: KeyPath, is_listed: bool = False) -> bool:
    """Whether a line is the header [name] of a table, or [[name]] of one of a list."""
    names = r"\s*\.\s*".join(rf"[\"']?{re.escape(str(step))}[\"']?" for step in path)
    bracket = r"\[" * (1 + is_listed)
    return re.match(rf"\s*{bracket}\s*{names}\s*\]", line) is not None


def _header_line(lines: Sequence[str], path: KeyPath, document: Any) -> int | None:
    """The number of the line [name] of a table that has one, or [[name]] of one of a list, or of
    the first of such a list."""
    value, above = value_at(document, path), value_at(document, path[:-1])
    if isinstance(above, list):
        path, at, is_listed = path[:-1], int(step_of(above, path[-1])), True
    else:
        at, is_listed = 0, isinstance(value, list)
    if not isinstance(value, (Mapping, list)):
        return None
    found = [i for i, line in enumerate(lines, 1) if _is_header(line, path, is_listed)]
    return found[at] if at < len(found) else None


def _marked_line(lines: Sequence[str], path: KeyPath, document: Any) -> int | None:
    """The number of the first line that changes where a mark is put in place of the value."""
    from tomlkit import dumps

    before = dumps(document).splitlines()  # blanks may be others than in the text
    table = value_at(document, path[:-1])
    step = step_of(table, path[-1])
    table[step]
    table[step] = _MARK
    return (
        next(
            (
                i
                for i, (was, now) in enumerate(zip(before, dumps(document).splitlines()), 1)
                if was != now
            ),
            None,
        )
        if len(before) == len(lines)
        else None
    )


def value_at(document: Any, path: KeyPath) -> Any:
    """The value of a key. Raises KeyError or IndexError where it isn't there."""
    for step in path:
        document = document[step_of(document, step)]
    return document


def step_of(table: Any, step: str | int) -> str | int:
    """How a table or a list calls a part: of a list of tables by its place, where a name is
    given."""
    if isinstance(table, Mapping) or isinstance(step, int):
        return step
    return next(
        i for i, each in enumerate(table) if isinstance(each, Mapping) and each.get("name") == step
    )
