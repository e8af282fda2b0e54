"""A study.toml that is no TOML: each statement that is wrong with its line and what seems to be
meant, and what the others say."""
from __future__ import annotations

import re
import tomllib
from collections import Counter
from collections.abc import Callable, Iterator, Sequence
from dataclasses import dataclass, field
from pathlib import Path
from typing import Any, Union

from ..base.errors import KeyPath, PlanError
from ..base.typed_numbers import typed_number

_MOST_LINES = 2000  # of a file that is looked through
# lines of one statement; letters of a line for which something else is looked for
_LONGEST, _WIDEST = (
    60,
    500,
)
_SAY = "numbers with a point as 2.4, words in quotes, every bracket closed"
# what the parser says of a key that stands above already: the same in words, and what to try
_TWICE = {
    "Cannot mutate immutable namespace": (
        "its braces stand above, and have all of its keys",
        "this key within those braces",
    ),
    "Cannot overwrite a value": ("this stands above already", "take one of the two out"),
}
_HEADER = re.compile(r"\s*\[\s*([\w-]+)\s*\]\s*(#.*)?")
_LISTED = re.compile(r"\s*\[\[\s*([\w-]+)\s*\.\s*([\w-]+)\s*\]\]\s*(#.*)?")  # of one of a list
_BEGINS = re.compile(r"\s*([\w-]+)\s*[=: ]")  # a statement
_QUOTES = str.maketrans({"“": '"', "”": '"', "„": '"', "‘": "'", "’": "'"})
_NUMBER = r"[+-]?\d+(?:\.\d+)?(?:[eE][+-]?\d+)?"
_Change = Union[str, Callable[["re.Match[str]"], str]]
# What people write, and what TOML has in its place.
_CHANGES: tuple[tuple[str, _Change], ...] = (
    (r"\b(True|TRUE|yes|Yes)\b", "true"),
    (r"\b(False|FALSE|no|No)\b", "false"),
    (r";", ","),
    (r"=\s*([A-Za-z_][\w./-]*(?: [\w./-]+)*)\s*(?=[,}\]]|$)", r'= "\1"'),
    (rf"({_NUMBER})\s*%", lambda found: f"{float(found[1]) / 100:.12g}"),
    (
        rf"({_NUMBER})\s*(Mt|kt)(?:pa|/(?:y|yr|year|a|jahr|año))?\b",
        lambda found: _in_tonnes(*found.groups()),
    ),
    (rf"({_NUMBER})\s*[^\W\d_°]+[^\s,\]}}]*|({_NUMBER})\s*°", lambda found: found[1] or found[2]),
    (
        r"(?<![\d.\w])(\d{1,3})((?:,\d{3})+)(?!\d|,\d)",
        lambda found: found[1] + found[2].replace(",", ""),
    ),
    (
        r"(?<![\d.\w])(\d{1,3})((?:\.\d{3}){2,})(?!\d|\.\d)",
        lambda found: found[1] + found[2].replace(".", ""),
    ),
    (r"(?<![\d.\w])(\d+),(\d+)(?!\d|,\d)", r"\1.\2"),
    (r"(?<![\d.])\.(\d)", r"0.\1"),
    (r"(\d)\.(?!\d)", r"\1.0"),
    (r"(?<![\d.])0+(?=\d)", ""),
    (r'"([^"]*\\[^"]*)"', r"'\1'"),
    (r"([{,]\s*)([\w-]+(?: [\w-]+)+)\s*(?==)", r'\1"\2" '),
    (r"^(\s*[\w-]+)\s*:\s*", r"\1 = "),
    (r"^(\s*[\w-]+)\s+(?==?[^=\s])", r"\1 = "),
    (r"\s*$", '"'),
    (r"\s*$", " ]"),
    (r"\s*$", " }"),
)


def _in_tonnes(number: str, unit: str) -> str:
    """Megatonnes or kilotonnes as a number of tonnes."""
    return f"{float(number) * {'Mt': 1e6, 'kt': 1e3}[unit]:.12g}"


_COMMA = re.compile(
    r"([\w-]+)\s*=\s*([+-]?\d+(?:,\d+)+(?:\.\d+)?)(?=\s*(?:$|[}\]#]|,\s*[}A-Za-z_]))"
)
_SPELLED = tuple((re.compile(pattern), change) for pattern, change in _CHANGES)
_SAME = re.compile("$^"), ""  # changes nothing


@dataclass
class Document:
    """What a file says but for its wrong statements.

    Attributes
    ----------
    values : dict or None
        None where no more can be told than the errors.
    errors : list of PlanError
    """

    values: dict[str, Any] | None = None
    errors: list[PlanError] = field(default_factory=list)


def read(text: str, path: Path) -> Document:
    """Reads a file; of one that is no TOML each statement by itself."""
    try:
        return Document(tomllib.loads(text))
    except RecursionError:
        return Document(errors=[PlanError("isn't TOML: it is nested too deep", table=path)])
    except ValueError as error:  # also a number of more digits than Python reads
        lines = text.splitlines()
        found = _by_statements(lines, path) if len(lines) <= _MOST_LINES else Document()
        if not found.errors:
            found.errors = [_refusal(lines, path, str(error))]
        return found


def _by_statements(lines: list[str], path: Path) -> Document:
    """The file without its wrong statements, and an error for each of these."""
    found, section, sections, seen = Document(), "", set[str](), dict[KeyPath, int]()
    kept, listed = list(lines), Counter[KeyPath]()
    within: KeyPath = ()
    for start, end in _statements(lines):
        header, part = _HEADER.fullmatch(lines[start]), _LISTED.fullmatch(lines[start])
        if part:
            each = (part[1], part[2])
            section, within = part[1], (*each, listed[each])
            listed[each] += 1
            continue
        if header:
            section, within = header[1], (header[1],)
            if section in sections:
                what = f"line {start + 1}: the section [{section}] stands here again"
                found.errors.append(
                    PlanError(
                        what,
                        table=path.name,
                        key=(section,),
                        try_this="its keys below the first, under one header",
                    )
                )
                return found
            sections.add(section)
            continue
        name = _BEGINS.match(lines[start])
        key = (*within, name[1]) if name and section else ()
        error = _wrong_statement(lines, start, end, path)
        if not error and key and key in seen:
            what = f"line {start + 1}: {key[-1]} stands here again, after line {seen[key] + 1}"
            error = PlanError(what, table=path.name, try_this="take one of the two out")
        if error:
            if not key:
                return Document(errors=[*found.errors, error])
            error.key = key
            found.errors.append(error)
            kept[start:end] = [""] * (end - start)
        if key:
            seen.setdefault(key, start)
    try:
        found.values = tomllib.loads("\n".join(kept))
    except (ValueError, RecursionError):
        pass
    return found


def _statements(lines: Sequence[str]) -> Iterator[tuple[int, int]]:
    """The first line of each statement, and the line after its last. One that isn't whole ends
    before the next that begins at a margin."""
    at = 0
    while at < len(lines):
        if not lines[at].strip() or lines[at].lstrip().startswith("#"):
            at += 1
            continue
        end = at + 1
        while end < len(lines) and end - at < _LONGEST and not _is_whole(lines[at:end]):
            if any(begins.match(lines[end]) for begins in (_HEADER, _LISTED, _BEGINS)):
                break
            end += 1
        if not _is_whole(lines[at:end]) and _is_one_line(lines[at]):
            end = at + 1
        yield at, end
        at = end


def _is_whole(lines: Sequence[str]) -> bool:
    """Whether lines are TOML by themselves."""
    try:
        tomllib.loads("\n".join(lines))
    except (ValueError, RecursionError):
        return False
    return True


def _is_one_line(line: str) -> bool:
    """Whether no bracket is left open at the end of a line."""
    bare = _without_comment(line)
    return bare.count("[") <= bare.count("]") and bare.count("{") <= bare.count("}")


def _without_comment(line: str) -> str:
    """A line without a comment that has no quotes after it; the end of a long one is left out."""
    bare = line[:_WIDEST].rstrip()
    while "#" in bare:
        before, _, comment = bare.rpartition("#")
        if set(comment) & set("\"'"):
            break
        bare = before.rstrip()
    return bare


def _wrong_statement(lines: Sequence[str], start: int, end: int, path: Path) -> PlanError | None:
    """The error of a statement; None where it is TOML."""
    try:
        tomllib.loads("\n".join(lines[start:end]))
        return None
    except (ValueError, RecursionError) as error:
        return _refusal(lines[:end], path, str(error), start, is_one=True)


def _refusal(
    lines: Sequence[str], path: Path, reason: str, start: int = 0, is_one: bool = False
) -> PlanError:
    """The error of the lines from `start` on, be they one statement or not, for the reason that the
    parser gives; its lines count from `start`."""
    at = re.search(r" \(at line (\d+), column (\d+)\)| \(at end of document\)", reason)
    place = start + int(at[1]) - 1 if at and at[1] else len(lines) - 1
    place = min(place, len(lines) - 1)
    said = reason[: at.start()] if at else reason
    line = lines[place].strip() if lines else ""
    better = _meant(lines[start:], place - start) if is_one else None
    for begins, (words, what_to_try) in _TWICE.items():
        if said.startswith(begins):
            said, better = words, what_to_try
    said = _comma_in(line) or f"{said[:1].lower() + said[1:]}: {_without_comment(line)}"
    return PlanError(
        f"line {place + 1} isn't TOML: {said}",
        table=path.name,
        try_this=better or _SAY,
    )


def _comma_in(line: str) -> str | None:
    """What is said of the first number with a comma that a key of a line has; None where none has
    one.

    >>> _comma_in('{ name = "zinc", price = 2,750, recovery = 0.9 },')
    'price = 2,750: a number has no comma between thousands, and a point before decimals: 2750 or 2.75'
    """
    found = _COMMA.search(_without_comment(line))
    typed = typed_number(found[2]) if found else None
    if not found or not typed:
        return None
    meant = [f"{it:.12g}" for it in (typed.value, typed.other) if it is not None]
    said = "a number has no comma between thousands, and a point before decimals"
    return f"{found[1]} = {found[2]}: {said}: {' or '.join(meant)}"


def _meant(statement: Sequence[str], at: int) -> str | None:
    """The wrong line of a statement as TOML has it; None where none of `_SPELLED` makes it that,
    nor two of them."""
    if len(statement[at]) > _WIDEST:
        return None
    line = _without_comment(statement[at].translate(_QUOTES))
    for one in (_SAME, *_SPELLED):
        for two in (_SAME, *_SPELLED):
            better = two[0].sub(two[1], one[0].sub(one[1], line))
            if _is_whole([*statement[:at], better, *statement[at + 1 :]]):
                return better.strip()
    return None
