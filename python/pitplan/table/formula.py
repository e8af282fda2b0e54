"""Formulas over columns, as "2.1 + 0.03 * (1420 - ZC) / 15" or "where(ROCK == 'OXI', 7.5, 9.5)".

`DataFrame.eval` isn't used: a study.toml travels, and "@os.system('..')" in place of a formula runs
as a command there (pandas 1.5.3). A formula here is numbers, words, columns, the operators and the
functions below, and nothing else.
"""
from __future__ import annotations

import ast
import operator
import re
import unicodedata
from collections.abc import Callable, Mapping, Sequence
from typing import Any

import numpy as np
import pandas as pd

from ..base.arrays import Array
from ..base.errors import PlanError
from ..base.near_words import meant, near_to
from ..base.usual_metals import METALS
from .column_names import AIR
from .csv_text import number_column
from .marks import is_of_numbers

_Operator = Callable[..., Any]
_BINARY: dict[type[ast.operator], _Operator] = {
    ast.Add: operator.add,
    ast.Sub: operator.sub,
    ast.Mult: operator.mul,
    ast.Div: operator.truediv,
    ast.Pow: operator.pow,
}
_UNARY: dict[type[ast.unaryop], _Operator] = {
    ast.USub: operator.neg,
    ast.UAdd: operator.pos,
    ast.Not: np.logical_not,
}
_ORDER: dict[type[ast.cmpop], _Operator] = {
    ast.Gt: operator.gt,
    ast.GtE: operator.ge,
    ast.Lt: operator.lt,
    ast.LtE: operator.le,
    ast.Eq: operator.eq,
    ast.NotEq: operator.ne,
}
# the same where a difference of so little is none
_NEARLY: dict[type[ast.cmpop], _Operator] = {
    ast.Gt: lambda a, b, off: a - b > off,
    ast.GtE: lambda a, b, off: a - b >= -off,
    ast.Lt: lambda a, b, off: a - b < -off,
    ast.LtE: lambda a, b, off: a - b <= off,
    ast.Eq: lambda a, b, off: np.abs(a - b) <= off,
    ast.NotEq: lambda a, b, off: np.abs(a - b) > off,
}
_FUNCTIONS: dict[str, tuple[int, _Operator]] = {
    "where": (3, lambda condition, this, that: np.where(condition, *_alike(this, that))),
    "min": (2, np.minimum),
    "max": (2, np.maximum),
    "abs": (1, np.abs),
    "sqrt": (1, np.sqrt),
}
_PARTS = f"numbers as 2.5, 'words', columns, + - * / ** > >= < <= == != and or not, {', '.join(_FUNCTIONS)}"
_LONGEST = 2000


def worked_out(text: str, table: pd.DataFrame, what: str) -> Array:
    """What a formula gives for each row.

    Parameters
    ----------
    text : str
        The formula. A column whose name is no plain word is written ``column('AU g/t')``.
    table : DataFrame
        Its columns are the names that the formula may use. Numbers count as floats.
    what : str
        Where the formula stands, for errors: "mining".

    Returns
    -------
    float or bool array of shape (len(table),)

    Raises
    ------
    PlanError
        Where it is no such formula, names no column, counts with words, compares with a word that
        no cell has, or gives a row no finite number.
    """
    each, reading = _given(text, table, what)
    if each.dtype == bool:
        return each
    if each.dtype.kind not in "iuf":
        raise PlanError(
            f"{reading.stated} gives words and no number",
            try_this="a comparison with one of its words, as ROCK == 'OXI'",
        )
    if not np.isfinite(each).all():
        raise PlanError(
            f"{reading.stated} gives no number here",
            row=reading.row_of(int(np.argmax(~np.isfinite(each)))),
        )
    return each.astype(float)


def words_out(
    text: str, table: pd.DataFrame, what: str, off: Mapping[str, float] | None = None
) -> Array:
    """The word that a formula gives for each row, as a cell of a column: a number is one too. `off`
    has the names that are compared with room for rounding, and how much that is.

    Raises
    ------
    PlanError
        As `worked_out`, and where it says yes or no.
    """
    each, reading = _given(text, table, what, off)
    if each.dtype == bool:
        raise PlanError(
            f"{reading.stated} says yes or no, and no word",
            try_this=f"where({text.strip()}, 'DEEP', 'SHALLOW')",
        )
    return stripped(each)


def is_formula(text: str) -> bool:
    """Whether a text can be read as a formula that is more than a name."""
    try:
        return not isinstance(ast.parse(text.strip(), mode="eval").body, ast.Name)
    except (SyntaxError, RecursionError, MemoryError, ValueError):
        return False


def _given(
    text: str, table: pd.DataFrame, what: str, off: Mapping[str, float] | None = None
) -> tuple[Array, _Reading]:
    """What a formula gives for each row, be it numbers, words or yes and no, and the reading that
    gave it."""
    stated = f"{what} = {text!r}"
    reading = _Reading(table, stated, off)
    try:
        tree = ast.parse(text.strip(), mode="eval") if len(text) <= _LONGEST else None
        if tree is None:
            raise PlanError(f"{what}: a formula of more than {_LONGEST:,} letters")
        with np.errstate(all="ignore"):
            found = reading.value(tree.body)
    except (SyntaxError, RecursionError, MemoryError, ValueError):
        raise PlanError(
            f"{stated} is no formula{_single_sign(text)}",
            try_this=_with_spelled_columns(text, table) or _PARTS,
        ) from None
    except (TypeError, OverflowError):
        reading.tell_words()
        raise PlanError(f"{stated} counts with words") from None
    each: Array = np.broadcast_to(np.asarray(found), (len(table),)).copy()
    return each, reading


def names_in(text: str, is_compared: bool = False) -> set[str]:
    """The columns that a formula names; with `is_compared` those alone that stand in a comparison.
    None where the text is no formula, which `worked_out` tells."""
    try:
        tree = ast.parse(text.strip(), mode="eval")
    except (SyntaxError, RecursionError, MemoryError, ValueError):
        return set()
    parts: list[ast.AST] = [
        node for node in ast.walk(tree) if not is_compared or isinstance(node, ast.Compare)
    ]
    nodes = [node for part in parts for node in ast.walk(part)]
    plain = {node.id for node in nodes if isinstance(node, ast.Name)}
    return plain | {
        str(node.args[0].value)
        for node in nodes
        if isinstance(node, ast.Call)
        and ast.unparse(node.func) == "column"
        and node.args
        and isinstance(node.args[0], ast.Constant)
    }


def _near_by_a_letter(name: str, names: Sequence[str]) -> str | None:
    """The column that is meant by a name of two letters: the one that has its letters the other way
    round, or else the only one that begins as it does. The symbol of a metal is meant as it is: AG
    is no slip of AU.

    >>> _near_by_a_letter("ZD", ["XC", "YC", "ZC"]), _near_by_a_letter("CX", ["XC", "YC"])
    ('ZC', 'XC')
    >>> _near_by_a_letter("AG", ["AU", "CU"]), _near_by_a_letter("ZD", ["ZC", "ZA"])
    (None, None)
    """
    if len(name) != 2 or name.lower() in METALS:
        return None
    if name[::-1] in names:
        return name[::-1]
    near = [each for each in names if len(each) == 2 and each[0] == name[0]]
    return near[0] if len(near) == 1 else None


def _spelled_column(name: str) -> str:
    """A column as a formula names it.

    >>> _spelled_column("ZC"), _spelled_column("AU g/t")
    ('ZC', "column('AU g/t')")
    """
    return name if name.isidentifier() else f"column({name!r})"


def _with_spelled_columns(text: str, table: pd.DataFrame) -> str | None:
    """A text whose columns are spelled as in a formula, where that makes it one: "1 + AU g/t" is
    "1 + column('AU g/t')"."""
    names = sorted((str(n) for n in table.columns if not str(n).isidentifier()), key=len)
    plain = "|".join(re.escape(name) for name in reversed(names) if len(name) > 1)
    spelled = re.sub(plain, lambda found: _spelled_column(found[0]), text) if plain else text
    return spelled if spelled != text and is_formula(spelled) else None


def _single_sign(text: str) -> str:
    """What to add where = stands in place of ==."""
    return "; is '==' meant?" if re.search(r"(?<![=<>!])=(?!=)", text) else ""


class _Reading:
    """One reading of a formula over a table."""

    def __init__(
        self, table: pd.DataFrame, stated: str, off: Mapping[str, float] | None = None
    ) -> None:
        self.table, self.stated, self.used, self.off = table, stated, list[str](), off or {}

    def value(self, node: ast.expr) -> Any:
        """What a part of the formula is worth: an array, or one value for all rows. Raises
        PlanError where it is no part that a formula may have."""
        if (
            isinstance(node, ast.Constant)
            and isinstance(node.value, (int, float, str))
            and not isinstance(node.value, bool)
        ):
            # whole numbers count as floats: 9**9**9**9 would never end otherwise
            return node.value if isinstance(node.value, str) else np.float64(node.value)
        if isinstance(node, ast.Name):
            return self.column(node.id)
        if isinstance(node, ast.BinOp) and type(node.op) in _BINARY:
            return _BINARY[type(node.op)](
                _counted(self.value(node.left)), _counted(self.value(node.right))
            )
        if isinstance(node, ast.UnaryOp) and type(node.op) in _UNARY:
            inner = self.value(node.operand)
            return _UNARY[type(node.op)](inner if isinstance(node.op, ast.Not) else _counted(inner))
        if isinstance(node, ast.Compare) and all(type(op) in _ORDER for op in node.ops):
            parts = (node.left, *node.comparators)
            sides = [self.value(part) for part in parts]
            return np.logical_and.reduce(
                [
                    self.compared(node.ops[i], sides[i : i + 2], parts[i : i + 2])
                    for i in range(len(node.ops))
                ]
            )
        if isinstance(node, ast.BoolOp):
            sides = np.broadcast_arrays(*[self.value(side) for side in node.values])
            return (
                np.logical_and.reduce(sides)
                if isinstance(node.op, ast.And)
                else np.logical_or.reduce(sides)
            )
        if isinstance(node, ast.Call) and isinstance(node.func, ast.Name) and not node.keywords:
            return self.call(node.func.id, node.args, node)
        raise PlanError(
            f"{self.stated}: {ast.unparse(node)!r} isn't part of a formula", try_this=_PARTS
        )

    def call(self, name: str, arguments: list[ast.expr], node: ast.expr) -> Any:
        """What one of `_FUNCTIONS` gives, or the column of a name that is no plain word. Raises
        PlanError where it calls anything else."""
        if (
            name == "column"
            and len(arguments) == 1
            and isinstance(arguments[0], ast.Constant)
            and isinstance(arguments[0].value, str)
        ):
            return self.column(arguments[0].value)
        if name in _FUNCTIONS and len(arguments) == _FUNCTIONS[name][0]:
            return _FUNCTIONS[name][1](*map(self.value, arguments))
        raise PlanError(
            f"{self.stated}: {ast.unparse(node)!r} isn't part of a formula", try_this=_PARTS
        )

    def column(self, name: str) -> Any:
        """A column of the table; whole numbers count as floats, so that nothing wraps round. Python
        reads some letters of a plain word as others that look alike, as the sign of micro as a
        Greek mu. Raises PlanError where the table has no such column."""
        if name not in self.table.columns:
            name = next(
                (
                    str(column)
                    for column in self.table.columns
                    if unicodedata.normalize("NFKC", str(column)) == name
                ),
                name,
            )
        if name not in self.table.columns:
            names = [str(column) for column in self.table.columns]
            near = near_to(name, names) or _near_by_a_letter(name, names)
            raise PlanError(
                f"{self.stated}: there is no column {name!r}"
                + (f"; is {near!r} meant?" if near else meant(name, names)),
                try_this=_spelled_column(near) if near else None,
            ).with_swap((name, _spelled_column(near)) if near else None)
        found = self.table[name].to_numpy()
        self.used.append(name)
        return found.astype(float) if found.dtype.kind in "iu" else found

    def compared(self, op: ast.cmpop, sides: Sequence[Any], parts: Sequence[ast.expr]) -> Any:
        """One comparison. Words are compared without the blanks around them.

        Raises
        ------
        PlanError
            Where it would hold for no block, or for each, whatever the table has: a word that no
            cell has, a word beside numbers, a cell without a number.
        """
        a, b = sides
        is_same = isinstance(op, (ast.Eq, ast.NotEq))
        if (
            is_same
            and isinstance(a, np.ndarray)
            and isinstance(b, np.ndarray)
            and _has_words(a)
            and _has_words(b)
        ):
            return _ORDER[type(op)](stripped(a), stripped(b))
        if is_same and _has_words(a) != _has_words(b):
            self.tell_words()
            raise PlanError(
                (
                    f"{self.stated}: {ast.unparse(parts[0])} and {ast.unparse(parts[1])} are a word"
                    " and a number, which are never the same"
                ),
                try_this=(
                    "a word in quotes beside a column of words, a number without quotes beside one"
                    " of numbers"
                ),
            )
        for side, other, part in ((a, b, parts[0]), (b, a, parts[1])):
            if is_same and isinstance(other, str) and not isinstance(side, str):
                return _ORDER[type(op)](
                    self.words_of(side, other, ast.unparse(part)), other.strip()
                )
            if isinstance(side, np.ndarray) and side.dtype.kind == "f" and np.isnan(side).any():
                raise PlanError(
                    f"{self.stated}: there is no number to compare here",
                    row=self.row_of(int(np.argmax(np.isnan(side)))),
                    column=ast.unparse(part),
                    try_this=(
                        '"" in the list absent of [model], if an empty cell stands for "not'
                        ' estimated" and counts as 0'
                    ),
                )
        off = max((self.off.get(ast.unparse(part), 0.0) for part in parts), default=0.0)
        return _NEARLY[type(op)](a, b, off) if off else _ORDER[type(op)](a, b)

    def words_of(self, cells: Any, word: str, part: str) -> Array:
        """The words of a column without the blanks around them; `word` has to be one of them.
        Raises PlanError where no block has a word that the formula compares it with."""
        found = stripped(cells)
        there = set(pd.unique(found))
        if word.strip() not in there | {"", AIR}:
            words = sorted(there - {""})
            near = near_to(word.strip(), words)
            raise PlanError(
                f"{self.stated}: no block has {part} = {word!r}{meant(word.strip(), words)}",
                try_this=repr(near) if near else None,
            ).with_swap((word.strip(), near) if near else None)
        return found

    def tell_words(self) -> None:
        """Tells the cell that makes words of a column of numbers, of the columns that were read so
        far."""
        for name in self.used:
            cells = self.table[name]
            if cells.dtype.kind not in "iufb" and is_of_numbers(cells):
                number_column(
                    pd.Series(
                        cells.to_numpy(),
                        index=self.table["row"] if "row" in self.table else None,
                        name=name,
                    ),
                    None,
                )

    def row_of(self, block: int) -> int | None:
        """The row of a block, as `PlanError` takes it; None of a block that was added, which has
        none."""
        row = int(self.table["row"].iloc[block]) if "row" in self.table else block
        return row if row >= 0 else None


def _counted(value: Any) -> Any:
    """A part of a formula as what is counted with: yes is 1 and no is 0. numpy's own yes plus yes
    is 1."""
    return (
        value.astype(float)
        if isinstance(value, (np.ndarray, np.bool_)) and value.dtype == bool
        else value
    )


def _alike(this: Any, that: Any) -> tuple[Any, Any]:
    """Two parts of a formula, both as words where one of them is words: NumPy would make 1.0 of a
    code 1."""
    if _has_words(this) == _has_words(that):
        return this, that
    first, second = (
        part if _has_words(part) else stripped(np.atleast_1d(part)) for part in (this, that)
    )
    return first, second


def _has_words(side: Any) -> bool:
    """Whether a part of a formula is a word, or a column of words."""
    return isinstance(side, str) or isinstance(side, np.ndarray) and side.dtype.kind not in "iufb"


def stripped(cells: Any) -> Array:
    """The words of a column without the blanks around them; an empty cell is a word of no
    letter."""
    code, kinds = pd.factorize(cells)
    # the last is that of an empty cell, whose code is -1
    words = np.array([*(text_of(kind) for kind in kinds), ""], object)
    found: Array = words[code]
    return found


def text_of(value: Any) -> str:
    """What stands in a cell, without the blanks around it; a column of whole numbers with empty
    cells is read as 1.0, 2.0."""
    return (
        str(int(value)) if isinstance(value, float) and value.is_integer() else str(value).strip()
    )
