"""What periods weigh and have, as `pit` reads it."""
from dataclasses import replace

import numpy as np

from pitplan.schedule.periods_text import columns_of, periods_text
from six_blocks import made_up


def test_periods_say_which_columns_and_how_many_periods():
    made, _, _ = made_up(1, True)
    made = replace(made, terms=replace(made.terms, per_year=4))
    assert "waits" not in periods_text(made, [0, 1])
    assert periods_text(made, [0, 1], [2, 3]).endswith("waits = [2, 3]\nlag = 4\n")
    assert periods_text(made, [0, 1], [2], lag=1).endswith("lag = 1\n")
    assert "multipliers = [[0, 0, 0], [0, 0, 0]]\n" in periods_text(
        made, [0, [1]], multipliers=np.zeros((2, 3), int)
    )


def test_where_ways_are_chosen_each_takes_the_feed_of_its_own_process():
    made, _, _ = made_up(1, True)
    assert columns_of(made, 9) == [0, 1]
    made = replace(made, terms=replace(made.terms, is_by_year=True))
    assert columns_of(made, 9) == [0, [1]]
    two = replace(made, uses=np.vstack([made.uses, made.uses[:1]]))
    assert columns_of(two, 9) == [0, [1, 9], [9, 2]]
