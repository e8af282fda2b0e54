"""Which rates are full: by hand, and beside each single move that a schedule of a small mine leaves."""
from dataclasses import replace

import numpy as np
import pytest

from pitplan.schedule.full_rates import full_rates
from pitplan.schedule.pairs import Pairs
from pitplan.schedule.production import Production
from pitplan.schedule.sorting import Sorting
from pitplan.schedule.terms import Terms
from six_blocks import BLOCKS, PERIODS, made_up


def with_early_gates(made, period):
    """Each gate as early as what it rests on."""
    found = period.copy()
    for gate in made.order[made.order >= BLOCKS].tolist():
        above = made.above.other[made.above.first[gate] : made.above.first[gate + 1]]
        found[gate] = found[above].max(initial=0)
    return found


def moves(pairs, sinking, period, at):
    """The blocks that are dug after a period or stay, and that could be dug in it."""
    late = [b for b in range(BLOCKS) if period[b] > at]
    return [
        b
        for b in late
        if all(period[a] <= at for low, a in pairs if low == b)
        and all(period[a] < at for low, a in sinking if low == b)
    ]


def by_hand(made, pairs, sinking, period, goes):
    """What `full_rates` has to say, with Python's whole numbers alone."""
    rows = list(zip(*(each.tolist() for each in made.millable)))
    found = np.zeros((len(made.uses), PERIODS), bool)
    for r, rooms in enumerate(made.terms.capacities):
        for t in range(PERIODS):
            could = moves(pairs, sinking, period, t)
            more = [int(made.uses[r][b]) for b in could]
            more += [
                feed
                for b, _, _, feed, way in rows
                if way == r and (b in could or period[b] == t and goes[b] != way)
            ]
            used = sum(int(made.uses[r][b]) for b in range(BLOCKS) if period[b] == t)
            used += sum(
                row[3] for row in rows if row[4] == r == goes[row[0]] and period[row[0]] == t
            )
            more = [amount for amount in more if amount]
            found[r, t] = bool(more) and rooms[t] - used < min(more)
    return found


@pytest.mark.parametrize(
    "terms",
    [
        {},
        {"sinks": True},
        {"chooses": True},
        {"chooses": True, "leaches": True},
        {"lead": 1, "chooses": True, "leaches": True, "sinks": True},
    ],
    ids=lambda terms: " ".join(terms),
)
def test_a_rate_is_full_where_no_single_move_fits(terms):
    some = np.zeros(2, int)
    for seed in range(12):
        made, pairs, sinking = made_up(seed, **terms)
        plan = Sorting(made).by_shells()
        goes, period = made.ways_chosen(plan), with_early_gates(made, plan.period)
        wanted = by_hand(made, pairs, sinking, period.tolist(), goes.tolist())
        assert (full_rates(made, period, goes) == wanted).all(), seed
        some += [wanted.sum(), (~wanted).sum()]
    assert some.min() > 0


def test_what_nothing_limits_is_never_full_and_neither_is_a_mine_that_is_done():
    made = made_up(1)[0]
    period = np.zeros(made.units, np.int64)
    goes = np.zeros(BLOCKS, np.int64)
    assert not full_rates(made, period, goes).any()
    terms = replace(made.terms, capacities=((), made.terms.capacities[1]))
    stays = np.full(made.units, PERIODS)
    assert not full_rates(replace(made, terms=terms), stays, goes)[0].any()
    tight = replace(made.terms, capacities=((1,) * PERIODS, made.terms.capacities[1]))
    assert full_rates(replace(made, terms=tight), stays, goes)[0].all()


def test_what_waits_for_a_bench_waits_a_year_also_of_half_years():
    """Two blocks of 3 t, one below the other, and a bench a year: the lower one could come from the
    third half year on. In the second nothing could be dug, so that its 2 t aren't full."""
    each, three, zeros = np.arange(2), np.full(2, 3), np.zeros(2, np.int64)
    below = Pairs.of(each[1:], each[:1], 2)
    terms = Terms((10**6,) * 4, ((3, 2, 2, 3), ()), per_year=2, sink=1)
    made = Production(
        terms, each, each, 2, three, np.stack([three, zeros]), 1 - each, zeros, below, below
    )
    found = full_rates(made, np.array([0, 4]), np.zeros(2, np.int64))
    assert found.tolist() == [[False, False, True, False], [False] * 4]
