"""Whether a study is right, without building it: each error of study.toml and of the table that can
be found in seconds, at a time."""
from __future__ import annotations

import re
from collections.abc import Callable, Iterator, Mapping, Sequence
from contextlib import contextmanager, suppress
from dataclasses import dataclass, field, replace
from pathlib import Path
from typing import TYPE_CHECKING, Any, Optional

from ..base.amounts import Priced
from ..base.errors import Gathered, PlanError, Remedy, about
from ..base.strange import Strange
from ..base.study_lines import value_at
from ..base.within import refuse_outside
from ..model.model import Model, TableKeys, read_with, rows_alone
from ..model.subblocks import coded
from ..model.grade_tonnage import by_rock
from .first_look import look_at
from .strange_inputs import looks
from .study_file import Parts, parts_of_file, path_of, table_found

if TYPE_CHECKING:
    import pandas as pd

_OF_THE_FILE = ("table", "encoding", "decimal", "skip")  # keys without which no cell can be read


_Reader = Callable[[Parts], Optional[Model]]


@dataclass
class Checked:
    """What was found.

    Attributes
    ----------
    parts : Parts or None
        What study.toml says; None where it is no TOML.
    errors : list of PlanError
        Each, in the order of the file's sections.
    looks : list of Strange
        What looks wrong and isn't refused.
    model : Model or None
        None where the table can't be read.
    priced : Priced or None
        None where a price, a cost, a rock or a grade is wrong.
    """

    parts: Parts | None = None
    errors: list[PlanError] = field(default_factory=list)
    looks: list[Strange] = field(default_factory=list)
    model: Model | None = None
    priced: Priced | None = None

    @property
    def tonnage(self) -> pd.DataFrame | None:
        """What lies in the ground at the prices as they stand, by rock; None where that can't be
        told."""
        if self.model is None or self.priced is None or not (self.parts and self.parts.economics):
            return None
        metals = self.parts.economics.metals
        units = {m.name: {"grade_unit": m.grade_unit, "price_unit": m.price_unit} for m in metals}
        return by_rock(self.model, self.priced, units)


def check(study: Path, read: _Reader | None = None) -> Checked:
    """Reads a study as `build` does, and goes on where something is wrong as far as that doesn't
    matter.

    Parameters
    ----------
    study : Path
        The folder of the study, or its study.toml.
    read : function, optional
        Reads the model in place of `model_of`, as one that keeps what it has read does.
    """
    found, path = Gathered(path_of(study).name), path_of(study)
    with found.part():
        refuse_outside(path)
        parts = parts_of_file(study)
    if found.errors:
        return Checked(errors=found.errors)
    found.add(parts.errors.errors)
    done = Checked(parts)
    with found.part("model"):
        with _grid_found(parts):
            done.model = (read or model_of)(parts)
    if done.model is not None:
        found.add(_wrong_in_table(done, parts, done.model))
    else:
        found.add(_wrong_in_rows(parts, found.errors))
    done.errors = found.errors
    _with_remedies(parts.document, found.errors)
    if done.model is not None and done.priced is not None and not found.errors:
        done.looks = looks(done.model, done.priced, parts.whole())
    return done


def _with_remedies(document: Mapping[str, Any], errors: Sequence[PlanError]) -> None:
    """Gives each error of a word in a value, of which another one is meant, the value with that
    one."""
    for error in errors:
        if error.swap and not error.remedy:
            with suppress(LookupError, TypeError, StopIteration):
                now = value_at(document, error.key)
                better = _swapped(now, *error.swap)
                error.remedy = Remedy(error.key, better) if error.key and better != now else None


def _swapped(value: Any, wrong: str, right: str) -> Any:
    """A value with one word in place of another: of a formula, a list, or a table's names.

    >>> _swapped("2 + ZD / 10", "ZD", "ZC"), _swapped(["OXl", "SUL"], "OXl", "OXI")
    ('2 + ZC / 10', ['OXI', 'SUL'])
    """
    if isinstance(value, str):
        return re.sub(rf"(?<!\w){re.escape(wrong)}(?!\w)", lambda _: right, value)
    if isinstance(value, list):
        return [_swapped(each, wrong, right) for each in value]
    if isinstance(value, Mapping):
        return {
            right if name == wrong else name: _swapped(each, wrong, right)
            for name, each in value.items()
        }
    return value


@contextmanager
def _grid_found(parts: Parts) -> Iterator[None]:
    """An error of the grid says by which rotation or size the table can be read, where `first_look`
    finds one."""
    try:
        yield
    except PlanError as error:
        keys, table = parts.keys, parts.table
        if error.key == ("model", "size") and keys and table:
            better = _grid_by_table(table, keys)
            if better:
                error.remedy = better[0] if len(better) == 1 else None
                error.try_this = " and ".join(map(str, better))
                error.key = better[0].key if len(better) == 1 else error.key
        raise


def _grid_by_table(table: Path, keys: TableKeys) -> list[Remedy]:
    """The rotation, the size, or both, by which a table can be read that can't by those of
    study.toml; none where there are none."""
    with suppress(PlanError):
        look = look_at(table, keys.columns, keys.encoding)
        rotation: dict[str, Any] = {"rotation": look.rotation}
        size: dict[str, Any] = (
            {"size": list(look.size)} if look.size and not look.has_sub_blocks else {}
        )
        for change in (rotation, size, {**rotation, **size}):
            with suppress(PlanError):
                read_with(table, replace(keys, **change))
                return [Remedy(("model", name), value) for name, value in change.items()]
    return []


def _wrong_in_table(done: Checked, parts: Parts, model: Model) -> list[PlanError]:
    """What is wrong with prices, costs, rocks, formulas and regions over a model. Where all of
    [economics] is right, `done` gets what each block brings and costs."""
    found = Gathered()
    with found.part("economics"):
        if parts.economics:
            done.priced = parts.economics.priced(model)
            for factor in (parts.factors or [])[-1:]:
                with about("economics", "rounding"):
                    done.priced.check_room(factor)
        elif parts.partly.economics:
            parts.partly.economics.read_of(coded(model, parts.partly.economics.codes()))
    with found.part("slopes"):
        slopes = parts.slopes or parts.partly.slopes
        if slopes:
            slopes.region_of(model)
    return parts.partly.to_tell(found.errors)


def _wrong_in_rows(parts: Parts, errors: Sequence[PlanError]) -> list[PlanError]:
    """The same of the rows of a table whose places, sizes or weights are wrong, as far as it
    doesn't hang on them."""
    keys, covers = parts.keys or parts.partly.keys, parts.partly.covers
    if keys is None or parts.table is None or any(covers(("model", key)) for key in _OF_THE_FILE):
        return []
    try:
        model, doubtful = rows_alone(parts.table, keys)
    except PlanError as error:
        error.key = error.key or ("model", "table")
        return [] if parts.keys else [error]  # else it is told already
    found = Gathered()
    with found.part("economics"):
        economics = parts.economics or parts.partly.economics
        if economics:
            economics.read_of(model)
    with found.part("slopes"):
        slopes = parts.slopes or parts.partly.slopes
        if slopes and not slopes.hangs_on_places(map(str, model.blocks.columns)):
            slopes.region_of(model)
    # a row is no block, or its cells no grades
    whole = keys.regularise or covers(("model", "absent"))
    names_rocks = not any(error.key[:2] == ("model", "columns") for error in errors)
    return [
        error
        for error in parts.partly.to_tell(found.errors)
        if (error.row is None or not whole and error.row not in doubtful)
        and ("rock" in model.columns or names_rocks or error.key[-1:] == ("grade",))
    ]


def model_of(parts: Parts) -> Model | None:
    """The model that the table holds; None where [model] says nothing of it that can be used."""
    if parts.table is None or parts.keys is None:
        return None
    with about("model", "table"):
        refuse_outside(parts.table)
    with table_found(parts.path, parts.table):
        return read_with(parts.table, parts.keys)
