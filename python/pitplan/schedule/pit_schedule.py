"""What `pit schedule` says of a schedule, by the model's own files, and beside its bound: what is shown
has to be what it says."""
from __future__ import annotations

import gzip
import shutil
import tempfile
from collections.abc import Iterator
from contextlib import contextmanager
from dataclasses import replace
from decimal import Decimal
from pathlib import Path
from typing import TYPE_CHECKING

import numpy as np

from ..base import kept_json
from ..base.arrays import Indices, Ints
from ..base.errors import Disagreement, NotAccepted
from ..base.files import mark, whole_file
from ..base.units_shown import counted
from ..pit.program import Periodic
from ..pit.schedule_answer import Scheduled
from ..study.building import write_numbers
from .block_texts import is_by_blocks
from .kept_search import Bound
from .periods_text import columns_of, periods_text
from .production import Production, model_uses
from .destinations import Timetable
from .terms import MILLION
from .unit_texts import UnitTexts
from .units import waits_of

if TYPE_CHECKING:
    from ..study.study import Study


TEXTS = ("uses.blocks", "periods.toml", "schedule.txt")


def write_texts(
    folder: Path,
    study: Study,
    production: Production,
    of_blocks: Indices,
    goes: Ints,
    multipliers: Ints | None = None,
) -> Periodic:
    """Writes what `pit schedule` reads beside the files of the model.

    Parameters
    ----------
    folder : Path
    production : Production
    of_blocks : int array of shape (blocks of the model,)
        The period of each block, -1 where it isn't dug.
    goes : int array of that shape
        Which way a block goes, from 1, and 0 to waste: told where a schedule chooses that.
    multipliers : int array of shape (resources, periods), optional
        The prices of a bound.
    """
    b, waits = study.model.blocks, _block_waits(study, production)
    is_chosen = production.terms.is_by_year
    own = block_uses(study, production.blocks, is_chosen)
    uses = np.zeros((len(own), production.size), np.int64)
    uses[:, production.blocks] = own
    columns = len(own) + len(waits)
    none = [np.zeros(production.size, np.int64)] if is_chosen and len(own) > 2 else []
    rows = [np.arange(len(b)), b.ix, b.iy, b.iz, *uses, *waits, *none]
    found = Periodic(study.files, folder / TEXTS[0], folder / TEXTS[1], folder / "pit.cert")
    with whole_file(found.uses) as part:
        write_numbers(part, {f"{at}": np.asarray(each) for at, each in enumerate(rows)})
    with whole_file(found.periods) as part:
        of_waits = range(len(own), columns)
        resources = columns_of(production, columns)
        part.write_text(periods_text(production, resources, of_waits, multipliers))
    with whole_file(folder / TEXTS[2]) as part:
        dug = np.flatnonzero(of_blocks >= 0)
        told = {"b": dug, "t": of_blocks[dug]}
        way = {"w": np.where(goes > 0, goes - 1, len(own) - 1)[dug]} if is_chosen else {}
        write_numbers(part, told | way)
    return found


def block_uses(study: Study, blocks: Ints, is_by_year: bool) -> Ints:
    """What `model_uses` says of some blocks."""
    found: Ints = model_uses(study, is_by_year)[:, blocks]
    return found


def _block_waits(study: Study, production: Production) -> list[Ints]:
    """The block of the model for which each waits by the sink rate, its own number where for none: a
    column, and none without a sink rate."""
    if production.terms.sink is None:
        return []
    found = np.arange(production.size)
    found[production.blocks] = waits_of(study, production.terms.sink, production.blocks)
    return [found]


def judged(
    study: Study,
    production: Production,
    plan: Timetable,
    folder: Path,
    bound: tuple[Bound, Path] | None = None,
) -> Scheduled:
    """What `pit schedule` says of a schedule of units: of its blocks by the study's own model, and
    beside a bound of which the certificate is given.

    Raises
    ------
    Disagreement
        Where it isn't feasible, is worth another amount than what was added up here, or has another
        bound.
    Damaged
        Where `pit` refuses the certificate, as one of other multipliers.
    """
    of_blocks, goes = production.of_blocks(plan), production.ways_chosen(plan)
    with _refused_with(bound), tempfile.TemporaryDirectory(
        prefix=f".judged.{mark()}", dir=folder
    ) as work:
        place, best = Path(work), Path(work) / "bound.cert"
        multipliers = np.array(bound[0].multipliers, np.int64) if bound else None
        mine = write_texts(place, study, production, of_blocks, goes, multipliers)
        is_whole = bound is not None and is_by_blocks(production)
        if bound:
            with gzip.open(bound[1]) as packed, open(best, "wb") as file:
                shutil.copyfileobj(packed, file)
        if is_whole:
            study.program.best_of(mine)
        said = study.program.schedule(mine, place / TEXTS[2], best if is_whole else None)
        _refuse_other(said, int((of_blocks >= 0).sum()), production.worth(plan), bound, is_whole)
        if bound and not is_whole:
            units = UnitTexts(production)
            assert multipliers is not None
            mine, rows = units.mine(study.program, place, multipliers), units.schedule_rows(plan)
            write_numbers(place / "units.txt", rows)
            of_units = study.program.schedule(mine, place / "units.txt", best)
            _refuse_other(of_units, len(rows["b"]), production.worth(plan), bound, True)
            said = replace(said, bound=of_units.bound, gap=of_units.gap)
    return said


@contextmanager
def _refused_with(bound: tuple[Bound, Path] | None) -> Iterator[None]:
    """Tells what `pit` refuses beside a bound by the folder in which that is kept."""
    try:
        yield
    except NotAccepted as error:
        if bound is None:
            raise
        raise _no_bound(bound[1], error.what) from None


def _no_bound(certificate: Path, said: str) -> kept_json.Damaged:
    """The error of a bound that isn't what `pit` says of its certificate."""
    kept = certificate.parent
    return kept_json.Damaged(
        f"what is kept in {kept} isn't a bound any more: {said}",
        try_this=f"rm -r {kept}: the next search finds a bound anew",
    )


def _refuse_other(
    answer: Scheduled, count: int, worth: int, bound: tuple[Bound, Path] | None, has_bound: bool
) -> None:
    """Refuses what `pit schedule` says where it isn't what was counted here.

    Parameters
    ----------
    answer : Scheduled
    count : int
        Blocks that are dug.
    worth : int
        What they bring, in millionths.
    bound : Bound and its certificate, or None
    has_bound : bool
        Whether it was asked about the bound.
    """
    npv = Decimal(worth) / MILLION
    is_so = answer.is_feasible and answer.count == count and Decimal(answer.npv) == npv
    if is_so and bound and has_bound and (answer.bound != bound[0].said or not answer.gap):
        raise _no_bound(bound[1], f"pit schedule says {answer.bound}, and not {bound[0].said}")
    if not is_so:
        raise Disagreement(
            f"pit schedule says {counted(answer.count, 'block')}, {answer.npv},"
            f" {counted(answer.broken, 'broken pair')}, {counted(answer.early, 'early pair')} and"
            f" {counted(len(answer.over), 'overused period')}; this package counts {count:,} and"
            f" {npv:f}",
            try_this="keep the folder, and tell the maintainers",
        )
