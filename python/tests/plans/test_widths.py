"""Widths of pushbacks against a plain search over every circle and square."""
import math

import numpy as np
import pytest
from hypothesis import example, given, strategies as st
from hypothesis.extra.numpy import arrays

from pitplan.plans.widths import rungs, thinnest, widths
from plain_widths import plain


@example(np.array([[0 <= j - i <= 5 for j in range(13)] for i in range(11)]), (20, 20))
@given(
    arrays(
        bool,
        st.tuples(st.integers(1, 8), st.integers(1, 8)),
        elements=st.sampled_from([True, True, True, False]),
    ),
    st.sampled_from([(20, 20), (25, 10), (10, 15)]),
)
def test_widths_are_those_of_a_plain_search(plane, size):
    wide = widths(plane, size)
    assert np.allclose(wide, plain(plane, size))
    assert not plane.any() or thinnest(wide, size) == pytest.approx(wide[plane].min())


def strip(n, length):
    return np.ones((length, n), bool)


@pytest.mark.parametrize("n", [1, 2, 3, 4, 7])
def test_a_strip_is_as_wide_as_its_blocks(n):
    assert (widths(strip(n, 12), (20, 20)) == 20 * n).all()
    bend = np.zeros((14, 14), bool)
    bend[:, :n] = bend[:n, :] = True
    assert thinnest(widths(bend, (20, 20)), (20, 20)) == 20 * n  # and its bend is at least as wide
    ring = np.ones((2 * n + 5, 2 * n + 5), bool)
    ring[n:-n, n:-n] = False
    assert thinnest(widths(ring, (20, 20)), (20, 20)) == 20 * n


def test_a_neck_and_a_slanting_strip():
    neck = np.ones((24, 6), bool)
    neck[10:14, :] = False
    neck[10:14, 2:4] = True
    wide = widths(neck, (10, 10), wanted=30)
    assert thinnest(wide, (10, 10)) == 20
    assert (wide[11:13, 2:4] == 20).all()
    assert (wide[10:14, 2:4] <= 40).all()
    assert (wide[:10] == 60).all()
    assert (neck & (wide < 30)).sum() == 8
    slanting = np.array([[0 <= j - i <= 5 for j in range(30)] for i in range(24)])
    found = widths(slanting, (20, 20))[8:16]  # without its pointed ends
    assert (
        found[slanting[8:16]] == math.floor(5 * 20 / math.sqrt(2) / 10) * 10
    ).all()  # between its inner corners, down to half a block


def test_wide_sets_are_tried_in_larger_steps():
    assert rungs(5) == [1, 2, 3, 4, 5]
    assert rungs(0) == []
    assert rungs(34)[-3:] == [31, 32, 34]
    assert rungs(200)[-1] == 200
    assert len(rungs(200)) < 55
    assert (widths(strip(41, 41), (20, 20)) == 820).all()
    assert widths(np.ones((90, 41), bool), (20, 20)).min() == 820


def test_a_wanted_width_between_half_blocks():
    plane = strip(3, 9)
    assert not (widths(plane, (20, 20), wanted=60.0) < 60).any()
    assert (widths(plane, (20, 20), wanted=60.1) < 60.1).all()
    assert thinnest(widths(strip(5, 9), (20, 20), wanted=93), (20, 20)) == 100
    assert math.isnan(thinnest(widths(np.zeros((3, 3), bool), (20, 20)), (20, 20)))


def test_the_thinnest_width_is_rounded_down():
    """97 m were wanted, and there: not 100, of blocks of 20 m, whose half is 10."""
    assert thinnest(np.array([[0.0, 97.0, 120.0]]), (20, 20)) == 90
