"""What went wrong, in the planner's terms: which table, row and column, which key of study.toml,
what stands there, and what to try."""
from __future__ import annotations

import json
from collections.abc import Iterable, Iterator, Sequence
from contextlib import contextmanager
from dataclasses import dataclass
from typing import Any, Union

STOPPED = "stopped; what is done is kept, and the same command goes on from there"
# of study.toml: ("economics", "metals", "copper", "price"); a metal is named, or numbered where it
# has no name of its own
KeyPath = tuple[Union[str, int], ...]
MOST_CELLS = 20  # wrong cells of a column that are told at a time
MOST_PLACES = 500  # in a model that an error lists


@dataclass(frozen=True)
class Remedy:
    """A change of study.toml that puts an error right, as data and, by `str`, in words.

    Attributes
    ----------
    key : KeyPath
        The section and the key that are set.
    value : Any
        What a TOML file has there; None takes the key out. For a list that may have other words
        already, what is added to it (`adds`).
    when : str
        The condition under which it is right, as "if that stands for ..": what a person has to
        judge. "" where there is none.
    adds : bool
    has : tuple of str
        Of a list that is added to: the words that it has already, which the text keeps.
    other : Any
        What is right where `when` doesn't hold, if that is known: else None.
    also : tuple of Remedy
        Further keys of the same section that `value` needs, and `other` doesn't.
    """

    key: KeyPath
    value: Any
    when: str = ""
    adds: bool = False
    has: tuple[str, ...] = ()
    other: Any = None
    also: tuple[Remedy, ...] = ()

    def as_data(self) -> dict[str, Any]:
        """It as JSON has it."""
        fields = {"value": self.value, "when": self.when, "adds": self.adds, "other": self.other}
        return {"key": list(self.key), **fields, "also": [each.as_data() for each in self.also]}

    def __str__(self) -> str:
        if self.value is None:
            return f"take {self.key[-1]} out of [{self.key[0]}]"
        value = list(dict.fromkeys([*self.has, *self.value])) if self.adds else self.value
        return f"{self.key[-1]} = {toml_spelled(value)} in [{self.key[0]}]" + (
            f", {self.when}" if self.when else ""
        )


@dataclass(frozen=True)
class Cell:
    """A further wrong cell of an error's column: its row below the header line, from 0, and what
    stands there."""

    row: int
    text: str


class PlanError(Exception):
    """An error that a planner can act on.

    Parameters
    ----------
    what : str
        What is wrong, and what stands there.
    table, column : optional
        The file or the section of ``study.toml``, and the column or key.
    row : int, optional
        The row below the header line, counted from 0. It is told as a spreadsheet counts it: the
        header line is row 1.
    try_this : str or Remedy, optional
        What to change. A `Remedy` can be put right by a program, too.
    key : KeyPath, optional
        The key of ``study.toml`` that is concerned; see also `about`.

    Attributes
    ----------
    cells : tuple of Cell
        The next wrong cells of the same column.
    places : tuple of str
        Where the same is wrong in the model, by the table's coordinates: the
        first `MOST_PLACES`.
    swap : tuple of two str or None
        A word in that key's value, and what seems to be meant in its place.
    more : tuple of str
        Further lines for a terminal, as the names that were looked for.
    said : str
        The error in one line, without what to try.
    remedy : Remedy or None
    """

    def __init__(
        self,
        what: str,
        *,
        table: object = None,
        row: int | None = None,
        column: object = None,
        try_this: str | Remedy | None = None,
        key: KeyPath = (),
    ) -> None:
        self.what, self.table, self.row, self.column, self.key = what, table, row, column, key
        self.swap: tuple[str, str] | None = None
        self.cells: tuple[Cell, ...] = ()
        self.places: tuple[str, ...] = ()
        self.more: tuple[str, ...] = ()
        self.remedy = try_this if isinstance(try_this, Remedy) else None
        self.try_this = None if try_this is None else str(try_this)
        super().__init__(what)

    @property
    def said(self) -> str:
        """What is wrong and where, in a line."""
        place = ", ".join(
            part
            for part in (
                str(self.table) if self.table else "",
                f"row {self.row + 2}" if self.row is not None else "",
                f"column {self.column}" if self.column else "",
            )
            if part
        )
        return in_a_line((place + ": " if place else "") + self.what)

    def __str__(self) -> str:
        return self.said + (f"\n  try: {in_a_line(self.try_this)}" if self.try_this else "")

    def with_cells(self, cells: Iterable[Cell]) -> PlanError:
        """The same error, with further wrong cells of its column."""
        self.cells = tuple(cells)
        return self

    def with_places(self, places: Iterable[str]) -> PlanError:
        """The same error, with the places of the model that it is of."""
        self.places = tuple(places)
        return self

    def with_more(self, lines: Iterable[str]) -> PlanError:
        """The same error, with further lines for a terminal."""
        self.more = tuple(lines)
        return self

    def with_remedy(self, remedy: Remedy | None) -> PlanError:
        """The same error, with a change that `try_this` tells in words of its own."""
        self.remedy = remedy
        return self

    def with_swap(self, swap: tuple[str, str] | None) -> PlanError:
        """The same error, with a word of its key's value and what seems to be meant."""
        self.swap = swap
        return self

    def each(self) -> list[PlanError]:
        """The errors that this one tells: itself, unless it is `Several`."""
        return [self]

    def as_data(self) -> dict[str, Any]:
        """All of it as JSON has it. Rows count as a spreadsheet counts them."""
        return {
            "said": self.said,
            "what": self.what,
            "table": None if self.table is None else str(self.table),
            "row": None if self.row is None else self.row + 2,
            "column": None if self.column is None else str(self.column),
            "key": list(self.key),
            "try": self.try_this,
            "remedy": self.remedy and self.remedy.as_data(),
            "cells": [{"row": cell.row + 2, "text": cell.text} for cell in self.cells],
            "places": list(self.places),
            "more": list(self.more),
        }


class NotAccepted(PlanError):
    """`pit` gave no certificate, or `pit check` did not accept it."""


class Disagreement(PlanError):
    """A check of this package's own contradicts what `pit` said, so nothing of the run is kept or
    shown."""


class MachineError(PlanError):
    """Memory, a disk or a process failed, and no file is to blame."""


class Killed(MachineError):
    """A `pit` that somebody ended, as the system does where memory is short."""


NO, WRONG, MACHINE, ENDED = 1, 3, 4, 130


def exit_status(error: BaseException) -> int:
    """The exit status of a command that ends by an error: 1 no, 3 a file is wrong, 4 the machine,
    130 stopped."""
    if isinstance(error, SystemExit):
        return error.code if isinstance(error.code, int) else int(error.code is not None)
    if isinstance(getattr(error, "exit_code", None), int):  # of click's own
        return int(error.exit_code)  # type: ignore[attr-defined]
    if isinstance(error, (NotAccepted, Disagreement)):
        return NO
    if isinstance(error, (MachineError, OSError, MemoryError)):
        return MACHINE
    return (
        WRONG
        if isinstance(error, PlanError)
        else ENDED
        if isinstance(error, KeyboardInterrupt)
        else NO
    )


class Several(PlanError):
    """Errors that don't hang on each other, told at a time."""

    def __init__(self, errors: Sequence[PlanError]) -> None:
        self.errors = list(errors)
        first = self.errors[0]
        super().__init__(
            first.what,
            table=first.table,
            row=first.row,
            column=first.column,
            try_this=first.remedy or first.try_this,
            key=first.key,
        )
        self.cells, self.places, self.more = first.cells, first.places, first.more

    def __str__(self) -> str:
        return "\n".join(map(str, self.errors))

    def each(self) -> list[PlanError]:
        return self.errors

    def __reduce__(self) -> tuple[Any, ...]:
        return Several, (self.errors,)


class Gathered:
    """Gathers the errors of parts that don't hang on each other, and tells all of them.

    >>> found = Gathered()
    >>> for size in (0, -1):
    ...     with found.part():
    ...         raise PlanError(f"size is {size}")
    >>> len(found.errors)
    2
    """

    def __init__(self, table: object = None) -> None:
        self.table = table  # of errors that name none
        self.errors: list[PlanError] = []

    def add(self, errors: Iterable[PlanError]) -> None:
        """Keeps errors that weren't raised. One that is there already is kept once: a cell may be
        wrong for two keys."""
        for error in errors:
            error.table = error.table or self.table
            if str(error) not in map(str, self.errors):
                self.errors.append(error)

    @contextmanager
    def part(self, *key: str | int) -> Iterator[None]:
        """Keeps what is raised within, of `key` unless it says another, instead of raising it."""
        try:
            with about(*key):
                yield
        except PlanError as error:
            self.add(error.each())

    def tell(self) -> None:
        """Raises what was gathered: one error as it is, more as `Several`; nothing where there is
        none."""
        if self.errors:
            raise self.errors[0] if len(self.errors) == 1 else Several(self.errors)


@contextmanager
def in_table(table: object) -> Iterator[None]:
    """Errors raised within that name a row and no table are of this table."""
    try:
        yield
    except PlanError as error:
        for each in {*error.each(), error}:
            each.table = each.table or (table if each.row is not None else None)
        raise


@contextmanager
def about(*key: str | int) -> Iterator[None]:
    """Errors raised within concern a key of study.toml, unless they say of another."""
    try:
        yield
    except PlanError as error:
        for each in error.each():
            each.key = each.key or key
        error.key = error.key or key
        raise


def in_a_line(text: str) -> str:
    """A text of a stranger's words in one line, without bytes that a terminal would obey.

    >>> in_a_line("a" + chr(10) + "b" + chr(27))
    'a\\\\nb\\\\x1b'
    """
    return "".join(c if c.isprintable() else c.encode("unicode_escape").decode() for c in text)


def toml_spelled(value: Any) -> str:
    """A value as study.toml spells it, in one line.

    >>> toml_spelled({"tonnes": 10400, "rock": "waste"}), toml_spelled(["-99", ""]), toml_spelled(True)
    ('{ tonnes = 10400, rock = "waste" }', '["-99", ""]', 'true')
    """
    if isinstance(value, bool):
        return "true" if value else "false"
    if isinstance(value, str):
        return json.dumps(value, ensure_ascii=False).replace("\x7f", "\\u007f")
    if isinstance(value, dict):
        return (
            "{ "
            + ", ".join(
                f"{name if name.isidentifier() and name.isascii() else toml_spelled(name)} ="
                f" {toml_spelled(part)}"
                for name, part in value.items()
            )
            + " }"
            if value
            else "{}"
        )
    if isinstance(value, (list, tuple)):
        return "[" + ", ".join(map(toml_spelled, value)) + "]"
    return (
        f"{value:g}"
        if isinstance(value, float) and float(f"{value:g}") == value and "e" not in f"{value:g}"
        else repr(value)
    )
