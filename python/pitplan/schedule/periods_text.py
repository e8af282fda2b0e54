"""What periods weigh and have, as `pit` reads it."""
from __future__ import annotations

from collections.abc import Sequence

from ..base.arrays import Ints
from .production import Production

_Column = int | list[int]  # of a resource: one, or one for each way


def periods_text(
    production: Production,
    columns: Sequence[_Column],
    waits: Sequence[int] = (),
    multipliers: Ints | None = None,
    lag: int | None = None,
) -> str:
    """The text of a production's periods, with the prices of what they have where there are some.

    Parameters
    ----------
    production : Production
    columns : sequence of int or list of int
        Where the uses of each resource stand.
    waits : sequence of int
        Where it stands what a block waits for.
    multipliers : int array of shape (resources, periods), optional
    lag : int, optional
        For how many periods. Default: a year.
    """
    found = (
        f"weights = {production.weights.tolist()}\nresources = {list(columns)}\n"
        f"capacities = {production.capacities.tolist()}\n"
    )
    if multipliers is not None:
        found += f"multipliers = {multipliers.tolist()}\n"
    if waits:
        lag = production.terms.per_year if lag is None else lag
        found += f"waits = {list(waits)}\nlag = {lag}\n"
    return found


def columns_of(production: Production, none: int, first: int = 0) -> list[_Column]:
    """Where the uses of each resource stand in a file of blocks, of which the first column is given.
    Where a schedule chooses the way of a block, it is a column for each way: the resource's own for
    its process, and one of zeros for each other. Else a block uses its feed whichever way it goes.

    Parameters
    ----------
    production : Production
    none : int
        The column of zeros.
    first : int
        That of the first resource.
    """
    resources = range(first, first + len(production.uses))
    if not production.terms.is_by_year:
        return list(resources)
    return [first, *([r if r == way else none for way in resources[1:]] for r in resources[1:])]
