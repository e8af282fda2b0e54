"""What `pit value` says is read, and refused where it contradicts itself."""
import dataclasses
from contextlib import nullcontext

import numpy as np
import pytest

import pitplan as pp
from pitplan.pit.value_answer import Valued
from pitplan.plans import compare

SAID = "DESIGN 2 11\nOPEN 2\nNEEDS 0 2\nNEEDS 1 2\nBEST 3 1 GAP -10\n"


def test_what_pit_value_says_is_read():
    said = Valued.of_answer(SAID)
    assert (said.said, said.open, said.needs, said.is_closed) == (
        "OPEN 2",
        2,
        ((0, 2), (1, 2)),
        False,
    )
    assert (said.count, said.worth, said.best_count, said.bound, said.gap) == (
        2,
        "11",
        3,
        "1",
        "-10",
    )
    said = Valued.of_answer("DESIGN 0 0\nCLOSED\nBEST 3 1.5 GAP 1.5\n")
    assert (said.said, said.open, said.needs, said.is_closed, said.count, said.gap) == (
        "CLOSED",
        0,
        (),
        True,
        0,
        "1.5",
    )
    for text in ("REFUSED OverCapacity(3)\n", "DESIGN 2 11\nCLOSED\n", SAID + "NEEDS 1 2\n"):
        with pytest.raises(pp.NotAccepted, match="pit value: " + text.split("(")[0].split("\n")[0]):
            Valued.of_answer(text)


@pytest.mark.parametrize(
    "change, match",
    [
        ({}, None),
        ({"open": 1}, "2 pairs are broken"),
        ({"needs": ((0, 2), (1, 3))}, "2 pairs are broken"),
        ({"count": 3}, "the table adds up to 2 worth 11"),
        ({"worth": "12"}, "pit value says 2 blocks worth 12"),
        ({"bound": "2"}, "below 2, and"),
        ({"gap": "-9"}, "-9 below 1"),
    ],
)
def test_contradictions_are_never_shown(change, match):
    said, held = dataclasses.replace(Valued.of_answer(SAID), **change), np.array(
        [True, True, False]
    )
    with pytest.raises(pp.Disagreement, match=match) if match else nullcontext():
        compare.agree(
            said, held, (np.array([0, 1]), np.array([2, 2]), np.zeros((2, 3), int)), "11", "1"
        )
