"""A designed pit beside the proved best one: does it keep the slopes, where not, what is it worth,
how far from the bound.

Whether the design is closed, what it is worth and how far that is from the best pit are `pit
value`'s own words: it reads the model's files, the design's blocks and the certificate of the best
pit, which it checks as `pit check` does. The pairs that a design breaks, and the sum of its worth
over the planner's own table, are looked up here too, and have to be the same.
"""
from __future__ import annotations

import gzip
import hashlib
import tempfile
from dataclasses import dataclass
from decimal import Decimal
from pathlib import Path
from typing import TYPE_CHECKING, Any

import numpy as np
import pandas as pd

from ..base.amounts import THOUSAND, spelled
from ..base.arrays import Bools
from ..base.errors import Disagreement
from ..base.next_command import command
from ..base.units_shown import printed_scale
from ..pit.value_answer import Valued
from ..study.reserves import reserves
from ..study.predecessors import Resting
from . import walls
from .design import Design

if TYPE_CHECKING:
    from ..study.study import Study

_CHUNK_SIZE = 1 << 22  # bytes of a certificate that are read at a time


@dataclass(frozen=True)
class _Repair:
    """The least closed set that has a design: what else has to be dug to keep the slopes.

    Attributes
    ----------
    held : bool array of shape (blocks,)
    blocks, tonnes : int, float
        What it has more than the design.
    worth, gap : str
        Of the whole set, without what may not be dug, and how far that is below the bound.
    """

    held: Bools
    blocks: int
    tonnes: float
    worth: str
    gap: str


@dataclass(frozen=True)
class Comparison:
    """A design beside the best pit.

    Attributes
    ----------
    design : Design
        Its blocks, with those that it couldn't name and rests on.
    factor : int
        Of the price, in thousandths.
    said : str
        `pit value`'s own words of the design: ``CLOSED``, or ``OPEN`` and how many pairs it breaks.
    is_closed : bool
        Whether it keeps the slopes.
    worth, bound : str
        What the design and the best pit are worth at the factor: exact, in units of currency.
        Blocks that may not be dug are left out of the design's worth: they have a price that keeps
        them from every pit.
    gap : str or None
        How far the design is below the bound, at least 0 where it digs only what may be dug. None
        where it breaks the slopes: it may be worth more than any pit then, and `repair` has the
        distance.
    repair : _Repair or None
        Where it breaks the slopes.
    optimum : bool array of shape (blocks,)
        The best pit.
    pairs : DataFrame
        The pairs that it breaks: ``id``, ``needs`` (ids of a block that it digs and of a
        predecessor that it leaves), ``bench`` and ``needs_bench`` (elevations of their centres),
        ``x``, ``y`` (of the block), ``tonnes`` (of the predecessor).
    walls : DataFrame
        As `walls.worst`.
    benches : DataFrame
        As `by_bench`.
    """

    design: Design
    factor: int
    said: str
    is_closed: bool
    worth: str
    bound: str
    gap: str | None
    repair: _Repair | None
    optimum: Bools
    pairs: pd.DataFrame
    walls: pd.DataFrame
    benches: pd.DataFrame

    def share(self, amount: str) -> float:
        """An amount as a share of the bound; not a number where the bound is 0."""
        bound = Decimal(self.bound)
        return float(Decimal(amount) / bound) if bound else float("nan")


def compare(study: Study, design: Design, factor: int = THOUSAND) -> Comparison:
    """Compares a design with the best pit at a factor (in thousandths), which has been run.

    Raises
    ------
    PlanError
        Where the best pit hasn't been run.
    NotAccepted
        Where `pit value` refuses the certificate of the best pit.
    Disagreement
        Where `pit` and this package's own look-ups contradict each other, or a closed design is
        worth more than the bound.
    """
    resting, optimum = Resting(study), study.mask(factor)
    design = _completed(study, resting, design)
    certificate = Certificate(study, factor)
    said, broken = certificate.judge(design.held), resting.broken(design.held)
    agree(
        said,
        design.held,
        broken,
        study.priced.worth_of(design.held, factor),
        study.priced.worth_of(optimum, factor),
    )
    repair = None if said.is_closed else _repaired(certificate, resting, design.held)
    worth, gap = _of_diggable(study, design.held, said, factor)
    return Comparison(
        design,
        factor,
        said.said,
        said.is_closed,
        worth,
        said.bound,
        gap if said.is_closed else None,
        repair,
        optimum,
        _pairs_of(study, broken),
        walls.worst(study.model, resting, design.held, broken),
        by_bench(study, design.held, optimum, factor),
    )


def _completed(study: Study, resting: Resting, design: Design) -> Design:
    """A design with the blocks that it rests on and couldn't name: those that no row of the table
    is for, and those that weigh nothing, as air."""
    tonnes = study.model.blocks.tonnes.to_numpy(float)
    whole = resting.mended(design.held, design.unnamed | (tonnes == 0))
    more = whole & ~design.held
    if not more.any():
        return design
    rock = printed_scale([tonnes[whole].sum()], study.model.units.weight)
    note = (
        f"{int(more.sum()):,} blocks that the design rests on and can't name were added: air, or"
        f" rock that the table has no row for ({rock.said(tonnes[more].sum())})"
    )
    return Design(design.name, whole, design.unnamed, [*design.notes, note])


class Certificate:
    """The certificate of the best pit at a factor, beside which `pit value` judges other sets of
    blocks; made where none is there yet.

    Raises
    ------
    PlanError
        Where that pit hasn't been run.
    """

    def __init__(self, study: Study, factor: int) -> None:
        self.study, self.factor = study, factor
        study.verify()
        study.mask(factor)
        study.run(factor)  # its certificate, where none is there yet

    def judge(self, held: Bools) -> Valued:
        """What `pit value` says of a set of blocks.

        Raises
        ------
        Disagreement
            Where the certificate that is kept isn't the one that was accepted.
        """
        with tempfile.TemporaryDirectory(prefix="pitplan-") as work:
            design, certificate = Path(work) / "design.txt", Path(work) / "best.cert"
            design.write_bytes(b"".join(b"%d\n" % b for b in np.flatnonzero(held).tolist()))
            self.unpack(certificate)
            return self.study.program.value(self.study.files, design, certificate)

    def unpack(self, to: Path) -> None:
        """Writes the certificate as it was accepted. Raises Disagreement where what is kept is
        another one."""
        verdict, kept = (
            self.study.verdict(self.factor),
            self.study.place(self.factor) / "best.cert.gz",
        )
        digest = hashlib.sha256()
        with gzip.open(kept, "rb") as old, open(to, "wb") as new:
            while data := old.read(_CHUNK_SIZE):
                digest.update(data)
                new.write(data)
        if verdict is None or digest.hexdigest() != verdict["certificate"]:
            raise Disagreement(
                f"{kept} isn't the certificate that was accepted",
                try_this=(
                    f"take {self.study.place(self.factor)} away, then:"
                    f" {command('shells', self.study.named)}"
                ),
            )


def agree(
    valued: Valued, held: Bools, broken: tuple[Any, Any, Any], worth: str, bound: str
) -> None:
    """Compares what `pit` says of a set of blocks with what this package looked up and added up.

    Raises
    ------
    Disagreement
        Where the two contradict each other, or a closed set is worth more than the bound.
    """
    blocks, predecessors, _ = broken
    first = tuple(
        zip(blocks[: len(valued.needs)].tolist(), predecessors[: len(valued.needs)].tolist())
    )
    if valued.open != len(blocks) or valued.needs != first:
        raise Disagreement(
            (
                f"pit value says {valued.said} of the design, and by the slopes that were built"
                f" {len(blocks):,} pairs are broken"
            ),
            try_this="tell the maintainers",
        )
    if (valued.count, valued.worth, valued.bound) != (
        int(np.count_nonzero(held)),
        worth,
        bound,
    ) or Decimal(valued.gap) != Decimal(bound) - Decimal(worth):
        raise Disagreement(
            (
                f"pit value says {valued.count:,} blocks worth {valued.worth}, {valued.gap} below"
                f" {valued.bound}, and the table adds up to {np.count_nonzero(held):,} worth {worth},"
                f" beside {bound}"
            ),
            try_this="tell the maintainers",
        )
    if valued.is_closed and Decimal(valued.gap) < 0:
        raise Disagreement(
            f"a closed set is worth {worth}, and pit proves that none is worth more than {bound}",
            try_this="tell the maintainers",
        )


def _of_diggable(study: Study, held: Bools, valued: Valued, factor: int) -> tuple[str, str]:
    """What a set is worth without the blocks in it that may not be dug, and how far that is below
    the bound: `pit value` counts these at the price that keeps them from every pit, so that its
    amounts say nothing of the set."""
    if not (held & study.priced.forbidden).any():
        return valued.worth, valued.gap
    worth = study.priced.worth_of(held & ~study.priced.forbidden, factor)
    return worth, spelled(Decimal(valued.bound) - Decimal(worth))


def _repaired(certificate: Certificate, resting: Resting, held: Bools) -> _Repair:
    """The least closed set that has a design, and `pit`'s word that it is closed."""
    study, factor = certificate.study, certificate.factor
    whole = resting.mended(held)
    said = certificate.judge(whole)
    agree(
        said,
        whole,
        resting.broken(whole),
        study.priced.worth_of(whole, factor),
        study.priced.worth_of(study.mask(factor), factor),
    )
    if not said.is_closed:
        raise Disagreement(
            "the mended design isn't closed, by pit value", try_this="tell the maintainers"
        )
    more = whole & ~held
    return _Repair(
        whole,
        int(more.sum()),
        float(study.model.blocks.tonnes.to_numpy(float)[more].sum()),
        *_of_diggable(study, whole, said, factor),
    )


def _pairs_of(study: Study, broken: tuple[Any, Any, Any]) -> pd.DataFrame:
    """The pairs that a design breaks, in the planner's terms."""
    blocks, predecessors, _ = broken
    x, y, z = study.model.xyz()
    ids = study.model.blocks["id"].to_numpy()
    return pd.DataFrame(
        {
            "id": ids[blocks],
            "needs": ids[predecessors],
            "bench": z[blocks],
            "needs_bench": z[predecessors],
            "x": x[blocks],
            "y": y[blocks],
            "tonnes": study.model.blocks.tonnes.to_numpy(float)[predecessors],
        }
    )


def by_way(study: Study, held: Bools, optimum: Bools, factor: int) -> pd.DataFrame:
    """What the design and the best pit have in common and each alone, by bench, rock, resource
    class and way; see `reserves.reserves`."""
    words = np.array([0, "best pit alone", "design alone", "both"], object)
    return reserves(study, {"in": words[optimum + 2 * held]}, factor)


def by_bench(study: Study, held: Bools, optimum: Bools, factor: int) -> pd.DataFrame:
    """A row for each bench that the design or the best pit has blocks on, from the top.

    Returns
    -------
    DataFrame
        ``bench`` (elevation of the blocks' centres), ``design_t`` and ``best_t`` (tonnes of each),
        ``left_t`` (in the best pit and not in the design), ``over_t`` (in the design and not in the
        best pit), ``left_ore_t`` and ``over_ore_t`` (of these what would be treated),
        ``left_worth`` and ``over_worth`` (without blocks that may not be dug); and where there are
        several processes ``left_process_<name>_ore_t`` and ``over_process_<name>_ore_t``.
    """
    grid, priced = study.model.grid, study.priced
    level, tonnes = study.model.blocks.iz.to_numpy(), study.model.blocks.tonnes.to_numpy(float)
    ore, worth = priced.ore_of(tonnes, factor), np.where(
        priced.forbidden, 0.0, priced.worth(factor)
    )

    def summed(mask: Bools, values: Any) -> Any:
        return np.bincount(level[mask], values[mask], grid.shape[2])[::-1]

    left, over = optimum & ~held, held & ~optimum
    found = pd.DataFrame(
        {
            "bench": grid.world(0, 0, np.arange(grid.shape[2]))[2][::-1],
            "design_t": summed(held, tonnes),
            "best_t": summed(optimum, tonnes),
            "left_t": summed(left, tonnes),
            "over_t": summed(over, tonnes),
            "left_ore_t": summed(left, ore),
            "over_ore_t": summed(over, ore),
            "left_worth": summed(left, worth),
            "over_worth": summed(over, worth),
            **{
                f"{what}_process_{name}_ore_t": summed(mask & goes[name], ore)
                for goes in [priced.goes(factor)]
                for name in priced.process_names
                for what, mask in (("left", left), ("over", over))
            },
        }
    )
    there = np.bincount(level[held | optimum], minlength=grid.shape[2])[::-1] > 0
    return found[there].reset_index(drop=True)
