"""What is said of a design beside the best pit, line by line."""
from __future__ import annotations

from collections.abc import Hashable, Mapping
from typing import TYPE_CHECKING, Any

from ..base.arrays import Bools
from ..base.units import Units
from ..base.units_shown import length_text, printed_scale, separated

if TYPE_CHECKING:
    from ..study.study import Study
    from .compare import Comparison


def verdict_lines(comparison: Comparison, currency: str, units: Units = Units()) -> list[str]:
    """What `pit value` says of the design, whether it keeps the slopes, and how far it is from the
    bound."""
    return [
        f"pit value says of the design: {comparison.said}",
        *(
            _closed_lines(comparison, currency)
            if comparison.is_closed
            else _broken_lines(comparison, currency, units)
        ),
    ]


def _closed_lines(comparison: Comparison, currency: str) -> list[str]:
    """What is said of a design that keeps the slopes."""
    if (comparison.design.held == comparison.optimum).all():
        return ["the design is the best pit"]
    return [
        f"the design keeps the slopes, and is {distance(comparison, str(comparison.gap), currency)}"
    ]


def distance(comparison: Comparison, gap: str, currency: str) -> str:
    """How far a worth is below the bound; above it only a set is that digs what no pit may."""
    if gap.startswith("-"):
        return (
            f"{money(gap[1:], currency)} ({comparison.share(gap[1:]):.2%}) above the proved bound, which"
            " holds for pits that dig none of the blocks left out"
        )
    return f"{money(gap, currency)} ({comparison.share(gap):.2%}) below the proved bound"


def _broken_lines(comparison: Comparison, currency: str, units: Units) -> list[str]:
    """What is said of a design that breaks the slopes. How far it is from the bound is said of the
    mended design alone, since one that breaks slopes may be worth more than any pit."""
    assert comparison.repair
    lines = [
        f"the design breaks the slopes at {len(comparison.pairs):,} pairs of a block and a predecessor"
        f" that it leaves, on {comparison.pairs['bench'].nunique():,} benches"
    ]
    for wall in comparison.walls.head(3).to_dict("records"):
        way = (
            "straight above"
            if wall["bearing"] != wall["bearing"]
            else f"towards {wall['bearing']:05.1f}"
        )
        lines.append(
            f"  wall {way}: {wall['steepest']:.1f} degrees at worst{_may_stand(wall)}, {length_text(wall['height'])}"
            f" {units.length} up over {wall['away']:,.1f} {units.length}, from"
            f" {'block ' + wall['id'] if wall['id'] else 'an added block'} at ({wall['x']:,.1f},"
            f" {wall['y']:,.1f}), bench {length_text(wall['bench'])}; {wall['pairs']:,} pairs"
        )
    more = len(comparison.walls) - 3
    lines += (
        [f"  {more} more {'bearings' if more > 1 else 'bearing'} in walls.csv of pitplan compare"]
        if more > 0
        else []
    )
    rock = printed_scale([comparison.benches.design_t.sum()], units.weight)
    lines.append(
        f"to keep them it has to dig {comparison.repair.blocks:,} blocks more"
        f" ({rock.said(comparison.repair.tonnes)}); then it is worth"
        f" {money(comparison.repair.worth, currency)}, "
        + distance(comparison, comparison.repair.gap, currency)
    )
    return lines


def _may_stand(wall: Mapping[Hashable, Any]) -> str:
    """What may stand where a wall breaks the slopes: of a low wall it may be less than of a deep one,
    and its angle alone doesn't say that it is too steep."""
    steepest, built = wall["steepest"], wall["built"]
    if built != built:
        return ""
    is_less = round(steepest, 1) <= round(built, 1)
    return f" where {f'less than {steepest:.1f}' if is_less else f'{built:.1f}'} may stand"


def forbidden_lines(study: Study, held: Bools) -> list[str]:
    """What is said of a design that digs what may not be dug: its worth leaves these blocks out."""
    shut = held & study.priced.forbidden
    if not shut.any():
        return []
    count, first = (
        int(shut.sum()),
        str(study.model.blocks["id"].to_numpy()[shut][0]) or "an added block",
    )
    tonnes = study.model.blocks.tonnes.to_numpy(float)
    rock = printed_scale([tonnes[held].sum()], study.model.units.weight)
    return [
        f"look: the design digs {count:,} {'blocks' if count > 1 else 'block'} that forbid keeps"
        f" from being dug, as {first}: {rock.said(tonnes[shut].sum())}, which are left out of its"
        " worth and of its distance from the bound"
    ]


def money(amount: str, currency: str) -> str:
    """An exact amount with its thousands parted."""
    return f"{currency} {separated(amount)}"
