"""An error as the terminal shows it: what is wrong, the line of study.toml that it concerns,
further wrong cells, and what to try."""
from __future__ import annotations

import re
from pathlib import Path
from typing import Any

from .errors import PlanError, in_a_line

_WIDEST = 160  # letters of a line of study.toml that are shown
_MOST_PLACES = 5  # of the model that are told


def lines_of(error: PlanError, study_toml: Path | None = None) -> list[str]:
    """One error in lines, the first without a mark before it.

    Parameters
    ----------
    study_toml : Path, optional
        The file that the error's key is of.
    """
    place = _place_of(error, study_toml)
    found = [
        error.said,
        *(
            [f"  {study_toml.name}:{place[0]}: {_shortened(place[1].strip())}"]
            if study_toml and place
            else []
        ),
    ]
    if error.cells:
        found.append(
            "  also "
            + ", ".join(f"row {cell.row + 2}: {in_a_line(cell.text)!r}" for cell in error.cells)
        )
    if error.places[1:]:
        found.append(f"  the first are {', '.join(error.places[:_MOST_PLACES])}")
    found += [f"  {in_a_line(line)}" for line in error.more]
    return found + ([f"  try: {in_a_line(error.try_this)}"] if error.try_this else [])


def errors_as_data(error: PlanError, study_toml: Path | None = None) -> list[dict[str, Any]]:
    """Each error as JSON has it, with its line of study.toml or None."""
    places = [(each, _place_of(each, study_toml)) for each in error.each()]
    return [{**each.as_data(), "line": place[0] if place else None} for each, place in places]


def _place_of(error: PlanError, study_toml: Path | None) -> tuple[int, str] | None:
    """The line of study.toml that an error concerns, and its number; None where it concerns none,
    or the file can't be read."""
    if not error.key or study_toml is None:
        return None
    from .study_lines import line_of

    try:
        text = study_toml.read_text("utf-8-sig")
        own = re.match(r"line (\d+) isn't TOML", error.what)
        if own and len(text.splitlines()) >= int(own[1]):  # its key may begin on one before
            return int(own[1]), text.splitlines()[int(own[1]) - 1]
        place = line_of(text, error.key)
        is_of_table = error.row is not None and place is not None and place[1].startswith("[")
        return None if is_of_table else place  # of a cell the header of [model] says nothing
    except (OSError, UnicodeDecodeError, ImportError):
        return None


def _shortened(text: str) -> str:
    """A line without its end where it is long."""
    text = in_a_line(text)
    return text if len(text) <= _WIDEST else text[: _WIDEST - 2] + ".."
