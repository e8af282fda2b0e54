"""Tables of tonnes, lines of slopes, and what looks wrong, as several commands print them."""
from __future__ import annotations

from collections.abc import Mapping, Sequence
from typing import TYPE_CHECKING

from ..base.units_shown import share_text
from .console import print_columns, say, warn

if TYPE_CHECKING:
    import pandas as pd

    from ..base.arrays import Bools
    from ..base.strange import Strange
    from ..model.grid import Grid
    from ..model.model import Model
    from ..slopes.slopes import Slopes
    from ..study.shells import Shells
    from ..study.study import Study

_MOST_LISTED = 8  # values of a column that are listed


def print_tonnage(lines: pd.DataFrame) -> None:
    """The grade-tonnage line of each rock."""
    from ..model.grade_tonnage import TITLE

    _print_lines(TITLE, lines, 1)


def print_kinds(
    study: Study, sets: Mapping[str, Bools], what: str, base: int | None = None
) -> None:
    """What of each set of blocks goes to each process, where there are several, and what it has of
    each resource class, where the table has classes; a set alone needs no name, and empty ones have
    no table."""
    from ..base.amounts import THOUSAND
    from ..model.grade_tonnage import by_class, by_process

    if not any(held.any() for held in sets.values()):
        return
    given, factor = (study.model, study.priced, study.manifest["metals"]), base or THOUSAND
    found = []
    if study.priced.process_names:
        found.append(("by process", by_process(*given, sets, factor)))
    if study.classes is not None:
        found.append(("by resource class", by_class(*given, study.classes, sets, factor)))
    for kind, lines in found:
        title, shown = f"{what} {kind}".strip(), lines if any(sets) else lines.drop(columns="of")
        _print_lines(title, shown, 2 if any(sets) else 1)


def print_rock_of_classes(
    study: Study, table: pd.DataFrame, words: Mapping[str, Sequence[str]], title: str
) -> None:
    """The rock of each resource class by the rows of a table with the columns of `Classes.rock_of`,
    where there are classes; `words` are the first columns."""
    from ..base.shown_cells import cells_of

    if study.classes is None:
        return
    names, mega = study.classes.names, f"M{study.model.units.weight}"
    rock = [cells_of((table[f"class_{name}_rock_t"] / 1e6).tolist()) for name in names]
    heads = [*words, *(f"{name} {mega}" for name in names)]
    print_columns(title, heads, list(zip(*words.values(), *rock)), word_columns=len(words))


def _print_lines(title: str, lines: pd.DataFrame, word_columns: int) -> None:
    """A table of which the first columns are words, and the others tonnes, grades and metals."""
    from ..base.shown_cells import texts_of

    print_columns(title, *texts_of(lines, word_columns), word_columns=word_columns)


def tell_strange(strange: Sequence[Strange]) -> None:
    """What looks wrong."""
    for what in strange:
        warn(str(what))


def warn_of_nothing(shells: Shells) -> None:
    """Says where no pit has a block."""
    if not shells.holds(len(shells) - 1).any():
        warn(
            f"no pit has a block, up to factor {share_text(shells.factors[-1])}: no ore pays for"
            " itself and for what lies above it\n  try: prices, costs and units in [economics], as"
            " pitplan check shows them"
        )


def print_regions(slopes: Slopes, model: Model) -> None:
    """How many blocks of rock each region has, and which values of the column have the slopes of
    all others."""
    from ..slopes.slopes import DEFAULT

    if not slopes.regions:
        return
    of_formula = "" if slopes.by in model.blocks.columns else ", as the formula has them"
    counts = slopes.rock_by_region(model)
    say(
        f"  blocks of rock by region{of_formula}: "
        + ", ".join(f"{name} {count:,}" for name, count in counts.items())
    )
    others = slopes.rock_of_default(model)
    if others:
        shown = [f"{name or 'nothing'} {count:,}" for name, count in others.items()]
        more = f" and {len(shown) - _MOST_LISTED:,} more" if len(shown) > _MOST_LISTED else ""
        say(f"  {DEFAULT} are those whose {slopes.by} is {', '.join(shown[:_MOST_LISTED])}{more}")


def print_patterns(slopes: Slopes, grid: Grid, unit: str) -> None:
    """A line for each region, lengths in a unit, and where the angles can't be held a warning that
    says what can."""
    from ..study.strange_inputs import of_walls

    lines, loose = of_walls(slopes, grid, unit)
    for line in lines:
        say(line)
    for what in loose:
        warn(what, "  ")
