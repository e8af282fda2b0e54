"""The schedule of a mine so small that HiGHS can look through all of them: the program of the
relaxation, in which no unit may be dug in parts. Nothing here needs to be trusted: `pit schedule`
judges what is shown, and the bound doesn't come from here."""
from __future__ import annotations

from typing import NamedTuple

import numpy as np
from scipy.sparse import diags

from .highs import milp
from .partition import GRAINS, Clusters, Program, There
from .production import Production
from .destinations import Timetable

_MOST_SHARES = 600  # of units, and of ways that blocks may be sent, by periods
_MOST_NODES = 4000  # of the tree, so that its size and not the time ends it


def is_small(production: Production) -> bool:
    """Whether a mine is so small."""
    rows = production.units + len(production.millable.block)
    return rows * production.periods <= _MOST_SHARES


class _Best(NamedTuple):
    """The best schedule that was found, or None; and whether none is better."""

    plan: Timetable | None
    is_all: bool


def by_whole_units(production: Production, seconds: float) -> _Best:
    """The best schedule that HiGHS finds of a small mine, None where it finds none that is feasible;
    and whether it has looked through all.

    Parameters
    ----------
    production : Production
    seconds : float
        That it may take.
    """
    cluster = _one_for_each(production)
    program = Program.of(production, cluster)
    scale, rooms = np.ones(len(program.limits)), production.capacities
    usual = rooms.max(axis=1, keepdims=True)  # of a resource, where a period has none of it
    scale[: rooms.size] = GRAINS / np.maximum(np.where(rooms > 0, rooms, usual), 1).ravel()
    found = milp(
        program.gains,
        diags(scale) @ program.table,
        scale * program.limits,
        time_limit=max(seconds, 0.0),
        node_limit=_MOST_NODES,
        mip_rel_gap=0.0,
    )
    if found.shares is None:
        return _Best(None, False)
    is_so = np.append(found.shares[: cluster.size] > 0.5, False)  # the last one for none
    dug, up_to = is_so[cluster.dug], is_so[cluster.sent]
    up_to[:, 1:] &= ~dug[production.millable.unit, :-1]
    sent, later = up_to.copy(), np.flatnonzero(~production.millable.is_first)
    sent[later] &= ~up_to[later - 1]
    plan = Timetable(production.periods - dug.sum(axis=1), sent.any(axis=1))
    return _Best(None, False) if production.wrong(plan) else _Best(plan, found.status == 0)


def _one_for_each(production: Production) -> Clusters:
    """A cluster for each share."""
    units, home = np.arange(production.units), production.millable.unit
    rows = len(units) + len(home)
    keys = np.arange(rows * production.periods).reshape(rows, -1)
    there = np.arange(production.periods) >= production.earliest[np.append(units, home)][:, None]
    of_dug, of_sent = slice(len(units)), slice(len(units), None)
    return Clusters.renamed(keys[of_dug], keys[of_sent], There(there[of_dug], there[of_sent]))
