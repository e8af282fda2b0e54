"""The nearest known word to one that isn't known."""
from __future__ import annotations

import difflib
from collections.abc import Iterable, Sequence


def meant(word: str, known: Iterable[str]) -> str:
    """What to add to "there is no such name": the nearest known one, or all that there are.

    >>> meant("dilutoin", ["dilution", "mining"])
    "; is 'dilution' meant?"
    """
    names = [str(name) for name in known]
    near = near_to(word, names)
    if near is not None:
        return f"; is {near!r} meant?"
    return f"; there are {', '.join(names[:40])}" if names else "; there are none"


def swap_of(word: str, names: Iterable[str]) -> tuple[str, str] | None:
    """A word, and the name that looks most like it; None where none does."""
    near = near_to(word, [str(name) for name in names])
    return None if near is None else (word, near)


def near_to(word: str, names: Sequence[str]) -> str | None:
    """The name that looks most like a word, also in other letters of case; None where none does.

    >>> near_to("Xcenter", ["Block_ID", "YCENTRE", "xCentre"])
    'xCentre'
    """
    near = difflib.get_close_matches(word, names, 1, 0.6)
    if not near:
        folded = {name.lower(): name for name in names}
        close = difflib.get_close_matches(word.lower(), list(folded), 1, 0.6)
        near = [folded[name] for name in close]
    if not near:
        near = [name for name in names if len(word) > 1 and word.lower() in name.lower()]
    return near[0] if near else None
