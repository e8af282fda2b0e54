"""What `pit schedule` says of a schedule is read."""
import pytest

from pitplan.base.errors import NotAccepted
from pitplan.pit.schedule_answer import Scheduled


@pytest.mark.parametrize(
    "text, early, feasible",
    [
        ("SCHEDULE 3 1.5\nBROKEN 0\n", 0, True),
        ("SCHEDULE 3 1.5\nBROKEN 0\nEARLY 2\nWAITS 0 2\nWAITS 1 2\n", 2, False),
        ("SCHEDULE 3 1.5\nBROKEN 1\nBREAKS 0 1\nEARLY 1\nWAITS 0 2\nOVER 0 1 2.5 2\n", 1, False),
        ("SCHEDULE 3 1.5\nBROKEN 0\nOVER 0 1 2.5 2\n", 0, False),
    ],
)
def test_what_is_said_of_blocks_that_wait(text, early, feasible):
    said = Scheduled.of_answer(text)
    assert (said.early, said.is_feasible) == (early, feasible)
    assert said.broken == text.count("BREAKS")
    assert said.over == (((0, 1),) if "OVER" in text else ())
    for wrong in (text + "EARLY 1\nBREAKS 0 1\n", text.replace("BROKEN", "WAITS 1 2\nBROKEN")):
        with pytest.raises(NotAccepted):
            Scheduled.of_answer(wrong)
