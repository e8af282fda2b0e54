"""Small mines looked through whole: no schedule is better, by trying each."""
from dataclasses import replace

import pytest

from pitplan.schedule import whole_units
from pitplan.schedule.highs import Answer
from six_blocks import best_of_all, made_up


@pytest.mark.parametrize(
    "terms",
    [{}, {"chooses": True}, {"chooses": True, "leaches": True}],
    ids=lambda terms: " ".join(terms),
)
@pytest.mark.parametrize("seed", range(3))
def test_the_best_of_all_is_found(seed, terms):
    made, pairs, sinking = made_up(seed, sinks=bool(seed % 2), **terms)
    found = whole_units.by_whole_units(made, 60.0)
    assert found.is_all
    assert made.wrong(found.plan) == []
    assert made.npv(found.plan) == best_of_all(made, pairs, sinking)


def test_what_highs_gives_is_no_schedule_where_it_breaks_what_holds(monkeypatch):
    made = made_up(1)[0]
    right = whole_units.milp
    for shares, status in ((lambda found: found.shares * 0 + 1, 0), (lambda found: None, 1)):
        monkeypatch.setattr(
            whole_units,
            "milp",
            lambda *a, **b: Answer(status, "", shares(right(*a, **b)), None),
        )
        assert whole_units.by_whole_units(made, 60.0) == (None, False)


def test_a_mine_is_small_by_shares_and_not_by_blocks():
    """Six units of three periods are 18 shares, and those that may be sent more."""
    made = made_up(1)[0]
    assert whole_units.is_small(made)
    most = whole_units._MOST_SHARES
    for periods in (most // 6, most // 6 + 1):
        terms = replace(made.terms, weights=(1,) * periods, capacities=((1,) * periods,) * 2)
        assert whole_units.is_small(replace(made, terms=terms)) == (periods * 6 <= most)
