"""Amounts are exact: sums beyond 2^53, worths in whole steps, and numbers as text."""
from decimal import Decimal

import numpy as np
import pytest
from hypothesis import given, strategies as st

from pitplan.base.amounts import Priced, Way, exact_sum, rounding_of, spelled
from pitplan.base.errors import PlanError


@given(st.lists(st.integers(-(2**62), 2**62), max_size=50))
def test_sums_are_exact(values):
    assert exact_sum(np.array(values, np.int64)) == sum(values)


@given(
    st.lists(
        st.tuples(
            st.integers(0, 10**9), st.integers(0, 10**9), st.integers(-(10**9), 10**9)
        ),
        min_size=1,
        max_size=20,
    ),
    st.integers(0, 10_000),
    st.sampled_from(["0.01", "1", "1000", "0.000001"]),
)
def test_worths_are_exact(blocks, factor, rounding):
    r, p, m = (np.array(v, np.int64) for v in zip(*blocks))
    unit = Decimal(rounding)
    found = Priced((Way("mill", r, p),), m, unit).worth_of(np.ones(len(blocks), bool), factor)
    assert Decimal(found) == sum(
        (max(Decimal(a) * factor / 1000 - b, 0) - c) * unit for a, b, c in blocks
    )
    assert "E" not in found
    assert ("." not in found) or not found.endswith("0")


def test_spelled():
    assert [spelled(Decimal(v)) for v in ("12.500", "1E+3", "-0.0", "-12", "0.000000001")] == [
        "12.5",
        "1000",
        "0",
        "-12",
        "0.000000001",
    ]
    assert rounding_of(0.1) == Decimal("0.1")


def test_a_worth_that_has_room_at_the_full_price_alone_is_refused_above_it():
    """10^15 times 1,000 thousandths fits 64 bits, and times 10,000 it doesn't."""
    one, here = Priced((Way("mill", np.array([10**15]), np.array([0])),), np.array([0])), [True]
    assert one.worth_of(np.array(here), 1000) == "1000000000000000"
    with pytest.raises(PlanError, match="too large to count with in units of 1"):
        one.worth_of(np.array(here), 10_000)
