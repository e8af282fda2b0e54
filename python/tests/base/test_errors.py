"""TODO"""
import pytest

import pitplan as pp
from pitplan.base.errors import Disagreement, MachineError, PlanError, Remedy, exit_status


def test_a_remedy_is_words_and_data():
    remedy = Remedy(("model", "absent"), ["-99"], 'if that stands for "not estimated"', adds=True)
    assert str(remedy) == 'absent = ["-99"] in [model], if that stands for "not estimated"'
    error = pp.PlanError("the cell is 'x'", table="t.csv", row=3, column="CU", try_this=remedy)
    assert error.as_data()["remedy"] == {
        "key": ["model", "absent"],
        "value": ["-99"],
        "when": 'if that stands for "not estimated"',
        "adds": True,
        "other": None,
        "also": [],
    }
    assert error.as_data()["row"] == 5


@pytest.mark.parametrize(
    "error, status",
    [
        (PlanError("x"), 3),
        (Disagreement("x"), 1),
        (MachineError("x"), 4),
        (OSError(5, "x"), 4),
        (MemoryError(), 4),
        (KeyboardInterrupt(), 130),
        (SystemExit(2), 2),
        (SystemExit(None), 0),
    ],
)
def test_exit_statuses(error, status):
    assert exit_status(error) == status
