"""Words of the planner's own, as a spreadsheet may open them."""
from __future__ import annotations

import os
import re
from typing import Any

import numpy as np
import pandas as pd

from ..base.arrays import Floats
from ..base.files import whole_file
from .csv_text import PLAIN

FORMULA = re.compile(r"[=+\-@\t\r]")
_DIGITS = 15  # that each float tells apart
_LEAST, _MOST = 1e-8, 1e15  # between which numbers are rounded to so many
_MARKED = re.compile(r"'[=+\-@\t\r]")


def harmless(words: Any) -> pd.Series:
    """Words of the planner's own as a spreadsheet may open them: one that begins with ``=``, ``+``,
    ``-`` or ``@`` gets an apostrophe before it, unless it is a number, since spreadsheets would run
    it as a formula. A carriage return becomes a blank: it isn't quoted as a line feed is, and
    spreadsheets begin a row there.

    >>> harmless(["B1", "=1+1", "-5", "S" + chr(13) + "=2"]).tolist()
    ['B1', "'=1+1", '-5', 'S =2']
    """
    found = pd.Series(words, dtype=object)
    risky = {
        word: other
        for word in found.unique()
        if isinstance(word, str)
        and (FORMULA.match(word) or "\r" in word)
        and (other := _harmless_word(word)) != word
    }
    return found.map(lambda word: risky.get(word, word)) if risky else found


def _harmless_word(word: str) -> str:
    """A word as `harmless` writes it."""
    is_formula = FORMULA.match(word) and not PLAIN.fullmatch(word)
    return ("'" if is_formula else "") + word.replace("\r", " ")


def as_written(word: str) -> str:
    """A word as it was before `harmless`."""
    return word[1:] if _MARKED.match(word) else word


def safe(frame: pd.DataFrame) -> pd.DataFrame:
    """A table whose words are `harmless`; its numbers stay."""
    out = frame.copy(deep=False)
    for name in frame.columns:
        if frame[name].dtype.kind not in "iufb":
            out[name] = harmless(frame[name]).to_numpy()
    out.columns = pd.Index(harmless([str(name) for name in frame.columns]))
    return out


def write_table(frame: Any, target: str | os.PathLike[str]) -> None:
    """Writes a pandas table as CSV, as `whole_file` writes, its words as `harmless` has them: all
    CSV is written here."""
    out = safe(frame)
    for name in out.columns[[each.kind == "f" for each in out.dtypes]]:
        out[name] = _rounded(out[name].to_numpy(float))
    with whole_file(target) as part:
        out.to_csv(part, index=False)


def _rounded(values: Floats) -> Floats:
    """The nearest numbers of 15 digits, which is what a float holds of any number: what adding up
    has left after them is nothing. Whole numbers stay, and so do those next to 0.

    >>> _rounded(np.array([26.8 * 300, 0.1 + 0.2, 12345678901234567.0])).tolist()
    [8040.0, 0.3, 1.2345678901234568e+16]
    """
    size = np.abs(values)
    at = (size >= _LEAST) & (size < _MOST) & (values != np.trunc(values))
    found = values.copy()
    scale = 10.0 ** (_DIGITS - 1 - np.floor(np.log10(size[at])))  # exact, since at most 10^22
    found[at] = np.round(values[at] * scale) / scale
    return found
