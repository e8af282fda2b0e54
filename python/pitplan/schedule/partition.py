"""The best multipliers, by Bienstock and Zuckerberg's partition (2010) of the relaxation in which
blocks may be dug in parts.

The nodes of the mine of units and periods are put into clusters of one share each; a small linear program over
clusters gives shares and multipliers, the richest pit at these multipliers splits each cluster, and
so on until none is split. Clusters begin as the shells of the series by period, which comes near at
once. Where a block may be sent, "sent one of its first ways in this period, or dug before" has a share
too, for each number of ways: between that of being dug by the end of the period before and that of its
own, each no more than the next. Nothing here needs to be trusted: whichever the multipliers are, `pit`
judges the bound.
"""
from __future__ import annotations

from dataclasses import dataclass
from typing import NamedTuple

import numpy as np
from scipy.sparse import coo_matrix, csr_matrix, diags, hstack, vstack

from ..base.arrays import Array, Bools, Floats, Ints
from ..base.errors import MachineError
from .highs import linprog
from .compiling import compiled
from .pairs import Pairs
from .destinations import Millable
from .production import Production

_MILLION = 1e6
GRAINS = 1e9  # grains of a million tonnes
_ENDED = 1  # what SciPy says where a limit was reached
_FEW = 400  # clusters up to which the simplex method is quicker
MANY_CLUSTERS = 4000  # clusters from which on those of one share are put together again


class There(NamedTuple):
    """Where a unit may be dug by the end of a period, and a block be sent by then.

    Attributes
    ----------
    dug : bool array of shape (units, periods)
    sent : bool array of shape (rows of `Millable`, periods)
    """

    dug: Bools
    sent: Bools


class Edges(NamedTuple):
    """Pairs of shares, each the number of one that is no more than another, and of that one."""

    low: Ints
    high: Ints


class Clusters(NamedTuple):
    """The cluster of each share, from 0 on; -1 where the sink rate doesn't leave the unit yet.

    Attributes
    ----------
    dug : int array of shape (units, periods)
        Of being dug by the end of a period.
    sent : int array of shape (rows of `Millable`, periods)
        Of being sent by that way or one before it in a period, or dug before.
    """

    dug: Ints
    sent: Ints

    @property
    def size(self) -> int:
        """How many there are."""
        return 1 + max(int(self.dug.max()), int(self.sent.max(initial=-1)))

    @classmethod
    def renamed(cls, dug: Ints, sent: Ints, there: There) -> Clusters:
        """Keys as numbers from 0 on; -1 where none is."""
        rows = (np.full(dug.shape, -1, np.int64), np.full(sent.shape, -1, np.int64))
        keys = np.append(dug[there.dug], sent[there.sent])
        numbers = np.unique(keys, return_inverse=True)[1]
        of_dug, of_sent = np.split(numbers, [int(there.dug.sum())])
        rows[0][there.dug], rows[1][there.sent] = of_dug, of_sent
        return cls(*rows)

    @property
    def there(self) -> There:
        """Where there is a cluster."""
        return There(self.dug >= 0, self.sent >= 0)


@dataclass(frozen=True)
class Relaxed:
    """The relaxation over a partition.

    Attributes
    ----------
    worth : float
        Its optimum in units of currency: no more than that of the relaxation itself.
    shares : float array of shape (clusters,)
    multipliers : int array of shape (resources, periods)
        In billionths of a unit of currency for a thousandth of a tonne, none below 0.
    """

    worth: float
    shares: Floats
    multipliers: Ints


def begun(production: Production) -> Clusters:
    """The clusters to begin with: by shell, period, and the first period that the sink rate
    leaves; and of what is sent by the resource."""
    period, kinds = np.arange(production.periods)[None, :], len(production.uses)

    def keys(units: Ints, resource: Ints) -> Ints:
        first, shell = production.earliest[units][:, None], production.shell[units][:, None]
        found: Ints = (shell * len(period[0]) + period) * (len(period[0]) + 1) + first
        return found * kinds + resource[:, None]

    there = period >= production.earliest[:, None]
    units, home = np.arange(production.units), production.millable.unit
    dug, sent = keys(units, np.zeros_like(units)), keys(home, production.millable.resource)
    return Clusters.renamed(dug, sent, There(there, there[home]))


def split(cluster: Clusters, production: Production, dug: Bools, multipliers: Ints) -> Clusters:
    """Each cluster parted by what a pit of units and periods has, and by where its blocks go at the
    multipliers that it is the richest at."""
    millable = production.millable
    before = _before_of(dug, millable.unit, False)
    is_so_far = millable.so_far(millable.best(production.weights, multipliers)) > 0
    sent = before | (dug[millable.unit] & is_so_far)
    return Clusters.renamed(cluster.dug * 2 + dug, cluster.sent * 2 + sent, cluster.there)


def _before_of(rows: Array, units: Ints, nothing: int) -> Array:
    """What rows of shape (units, periods) have for some units in the period before each."""
    found = np.full((len(units), rows.shape[1]), nothing, rows.dtype)
    found[:, 1:] = rows[units, :-1]
    return found


def merged(cluster: Clusters, relaxed: Relaxed) -> Clusters:
    """Clusters of one share as one."""
    alike = np.unique(np.round(relaxed.shares, 9), return_inverse=True)[1]
    return Clusters(*(np.where(rows >= 0, alike[np.maximum(rows, 0)], -1) for rows in cluster))


def shares_of(cluster: Clusters, relaxed: Relaxed) -> Floats:
    """How much of each unit is dug by the end of each period, of shape (units, periods)."""
    return np.where(cluster.dug >= 0, relaxed.shares[np.maximum(cluster.dug, 0)], 0.0)


class Program(NamedTuple):
    """The relaxation over a partition as a linear program: of shares from 0 to 1, the first ones of
    clusters, which gives most where no row of a table exceeds its limit.

    Attributes
    ----------
    gains : float array
        In millions of units of currency.
    table : sparse array
        First a row for each resource and period.
    limits : float array
    """

    gains: Floats
    table: csr_matrix
    limits: Floats

    @classmethod
    def of(cls, production: Production, cluster: Clusters) -> Program:
        """That of some clusters."""
        count, periods, millable = cluster.size, production.periods, production.millable
        worths = _by_period(cluster, millable, production.values, millable.gains) / _MILLION
        rows = [
            _by_period(cluster, millable, uses, millable.feeds_of(row)) / GRAINS
            for row, uses in enumerate(production.uses)
        ]
        order = differences(_cluster_pairs(production, cluster, count), count)
        gains = worths.T @ (production.weights / _MILLION)
        limits = production.capacities / GRAINS
        table = vstack([*rows, order])
        if production.terms.fixed_cost:  # a period open in part has that part of its capacities
            costs = production.weights * (production.terms.fixed_cost / _MILLION**2)
            gains = np.append(gains, -costs)
            none = csr_matrix((order.shape[0], periods))
            open_parts = vstack([*(-diags(each) for each in limits), none])
            table, limits = hstack([table, open_parts]), np.zeros(limits.shape)
        return cls(gains, table.tocsr(), np.append(limits.ravel(), np.zeros(order.shape[0])))


def relax(
    production: Production, cluster: Clusters, seconds: float | None = None
) -> Relaxed | None:
    """Solves the relaxation over a partition by HiGHS; None where that takes longer than a limit.

    Raises
    ------
    MachineError
        Where it ends without an answer.
    """
    program = Program.of(production, cluster)
    found = linprog(
        program.gains,
        program.table,
        program.limits,
        "highs-ds" if cluster.size < _FEW else "highs-ipm",
        **({} if seconds is None else {"time_limit": max(seconds, 0.0)}),
    )
    if found.status == _ENDED:
        return None
    if found.status != 0 or found.shares is None:
        raise MachineError(f"HiGHS gives no relaxation of the schedule: {found.message}")
    shape = production.capacities.shape
    prices = np.maximum(found.prices[: shape[0] * shape[1]], 0).reshape(shape)
    return Relaxed(
        float(program.gains @ found.shares) * _MILLION,
        found.shares[: cluster.size],
        np.rint(prices * _MILLION).astype(np.int64),
    )


def _by_period(
    cluster: Clusters, millable: Millable, of_units: Array, of_sent: Array
) -> csr_matrix:
    """What each period has of an amount, by the shares of clusters: of what is dug by its end, less
    what was dug by the end of the one before, and likewise of what is sent in it. Of a block each way
    has the share up to it less that of the way before it.

    Parameters
    ----------
    cluster : Clusters
    millable : Millable
    of_units, of_sent : arrays
        The amount of each unit that is dug, and of each row of `millable` that is sent.
    """
    steps, firsts = millable.steps(of_sent), np.flatnonzero(millable.is_first)
    home = millable.unit[firsts]

    def row(keys: Ints, amounts: Array) -> Floats:
        there = keys >= 0
        found: Floats = np.bincount(keys[there], amounts[there], cluster.size).astype(float)
        return found

    rows = []
    for t in range(cluster.dug.shape[1]):
        rows.append(row(cluster.dug[:, t], of_units) + row(cluster.sent[:, t], steps))
        if t:
            before = cluster.dug[:, t - 1]
            rows[t] -= row(before, of_units) + row(before[home], of_sent[firsts])
    return csr_matrix(np.array(rows))


def differences(edges: Edges, count: int) -> csr_matrix:
    """A row for each pair of shares: the first less the second."""
    low, high = edges
    rows, ones = np.arange(len(low)), np.ones(len(low))
    return coo_matrix(
        (np.append(ones, -ones), (np.append(rows, rows), np.append(low, high))), (len(low), count)
    ).tocsr()


def _cluster_pairs(production: Production, cluster: Clusters, count: int) -> Edges:
    """The pairs of clusters of which some of their blocks have one."""
    marks, millable = np.zeros((count, count), np.uint8), production.millable
    _mark_pairs(production.above, cluster.dug, 0, marks)
    _mark_pairs(production.sinking, cluster.dug, production.terms.per_year, marks)
    _mark_periods(cluster.dug, marks)

    def mark(low: Ints, high: Ints) -> None:
        there = (low >= 0) & (high >= 0)
        marks[low[there], high[there]] = 1

    last, first = np.flatnonzero(millable.is_last), np.flatnonzero(millable.is_first)
    later = np.flatnonzero(~millable.is_first)
    mark(cluster.sent[last], cluster.dug[millable.unit[last]])
    mark(cluster.sent[later - 1], cluster.sent[later])
    mark(_before_of(cluster.dug, millable.unit[first], -1), cluster.sent[first])
    np.fill_diagonal(marks, 0)
    return Edges(*np.nonzero(marks))


@compiled
def _mark_pairs(pairs: Pairs, cluster: Ints, lag: int, marks: Array) -> None:
    """Marks the pairs of clusters that pairs of units give, the other one `lag` periods before."""
    for unit in range(len(pairs.first) - 1):
        for i in range(pairs.first[unit], pairs.first[unit + 1]):
            other = pairs.other[i]
            for t in range(lag, cluster.shape[1]):
                if cluster[unit, t] >= 0:
                    marks[cluster[unit, t], cluster[other, t - lag]] = 1


@compiled
def _mark_periods(cluster: Ints, marks: Array) -> None:
    """Marks the pairs of clusters that each unit gives by two periods that follow each other."""
    for unit in range(cluster.shape[0]):
        for t in range(1, cluster.shape[1]):
            if cluster[unit, t - 1] >= 0:
                marks[cluster[unit, t - 1], cluster[unit, t]] = 1
