"""The relaxation over clusters, beside SciPy's own solution of the relaxation written out in full."""
import numpy as np
import pytest
from scipy.optimize import linprog

from pitplan.schedule import partition
from pitplan.schedule.partition import Clusters, Edges, There
from six_blocks import BLOCKS, PERIODS, best_of_all, made_up, whole_relaxation


def written_out(made, pairs):
    """What the relaxation is worth in units of currency: a variable for each block and period, by
    whose end it is dug in part."""
    size, weights = BLOCKS * PERIODS, np.array(made.terms.weights) / 1e6
    at = np.arange(size).reshape(BLOCKS, PERIODS)
    gain, rows, limits = np.zeros(size), [], []
    for b in range(BLOCKS):
        gain[at[b]] += made.values[b] * (weights - np.append(weights[1:], 0))
    for t in range(PERIODS):
        for uses, rooms in zip(made.uses, made.terms.capacities):
            row = np.zeros(size)
            row[at[:, t]] += uses
            if t:
                row[at[:, t - 1]] -= uses
            rows.append(row)
            limits.append(rooms[t])
    steps = [(at[b, t], at[a, t]) for b, a in pairs for t in range(PERIODS)]
    steps += [(at[b, t], at[b, t + 1]) for b in range(BLOCKS) for t in range(PERIODS - 1)]
    for low, high in steps:
        row = np.zeros(size)
        row[low], row[high] = 1, -1
        rows.append(row)
        limits.append(0)
    return -linprog(-gain, np.array(rows), limits, bounds=(0, 1)).fun


@pytest.mark.parametrize("seed", range(4))
def test_each_share_by_itself_is_the_relaxation(seed):
    made, pairs, sinking = made_up(seed)
    keys = np.arange(BLOCKS * PERIODS).reshape(BLOCKS, PERIODS)
    none = np.zeros((0, PERIODS), np.int64)
    each = Clusters.renamed(keys, none, There(keys >= 0, none >= 0))
    assert each.size == BLOCKS * PERIODS
    relaxed = partition.relax(made, each)
    assert relaxed.worth == pytest.approx(written_out(made, pairs), rel=1e-4)
    assert relaxed.worth >= best_of_all(made, pairs, sinking) / 1e6 * (1 - 1e-4)


@pytest.mark.parametrize("seed", range(4))
def test_fewer_clusters_are_worth_no_more(seed):
    made, pairs, _ = made_up(seed)
    begun = partition.begun(made)
    relaxed = partition.relax(made, begun)
    assert relaxed.worth <= written_out(made, pairs) * (1 + 1e-4)
    shares = partition.shares_of(begun, relaxed)
    assert (np.diff(shares, axis=1) >= -1e-9).all()
    assert all((shares[b] <= shares[a] + 1e-9).all() for b, a in pairs)


@pytest.mark.parametrize("seed", range(6))
def test_of_several_ways_the_relaxation_is_above_the_best_of_all(seed):
    """And each by itself is the relaxation over parts of blocks and ways, written out by variables of
    its own: how much of a block goes each way in each period."""
    made, pairs, sinking = made_up(seed, chooses=True, leaches=True)
    rows = BLOCKS + len(made.millable.block)
    keys = np.arange(rows * PERIODS).reshape(rows, PERIODS)
    each = Clusters.renamed(
        keys[:BLOCKS], keys[BLOCKS:], There(keys[:BLOCKS] >= 0, keys[BLOCKS:] >= 0)
    )
    relaxed = partition.relax(made, each)
    assert relaxed.worth == pytest.approx(whole_relaxation(made, pairs, sinking) / 1e6, rel=1e-4)
    assert relaxed.worth >= best_of_all(made, pairs, sinking) / 1e6 * (1 - 1e-4)
    begun = partition.relax(made, partition.begun(made))
    assert begun.worth <= relaxed.worth * (1 + 1e-4)


def test_a_cluster_is_parted_by_what_a_pit_has():
    made = made_up(2)[0]
    begun = partition.begun(made)
    dug = np.zeros((BLOCKS, PERIODS), bool)
    dug[0] = True
    found = partition.split(begun, made, dug, np.zeros((2, PERIODS), np.int64))
    for row in range(BLOCKS):
        for other in range(row):
            is_one = (begun.dug[row] == begun.dug[other]) & (dug[row] == dug[other])
            assert ((found.dug[row] == found.dug[other]) == is_one).all()


def test_keys_become_numbers_from_nothing_on():
    there = There(np.array([[True, False], [True, True]]), np.array([[True, True]]))
    found = Clusters.renamed(np.array([[70, 5], [70, 9]]), np.array([[9, 400]]), there)
    assert found.dug.tolist() == [[1, -1], [1, 0]]
    assert found.sent.tolist() == [[0, 2]]
    assert found.size == 3
    assert (found.there.dug == there.dug).all()


def test_a_row_has_the_first_share_less_the_second():
    found = partition.differences(Edges(np.array([0, 2]), np.array([1, 0])), 3)
    assert found.toarray().tolist() == [[1, -1, 0], [-1, 0, 1]]
