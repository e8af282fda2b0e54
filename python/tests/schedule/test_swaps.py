"""Swaps of units between a period and the next."""
import math

import numpy as np
import pytest

from pitplan.schedule import swaps


def test_what_loses_is_taken_as_often_as_the_rule_says():
    """A loss of the temperature once in e tries, one of twice that once in e squared; 40,000 tries
    err by 1 % at most."""
    is_taken = swaps._is_taken
    for times in (0.5, 1.0, 2.0):
        share = np.mean([is_taken(-times * 7.0, 7.0) for _ in range(40_000)])
        assert share == pytest.approx(math.exp(-times), abs=0.01)
    assert is_taken(1.0, 0.0)
    assert is_taken(1.0, 7.0)
    assert not is_taken(0.0, 0.0)
    assert not is_taken(-1.0, 0.0)
    assert not is_taken(1.0, -1.0)
