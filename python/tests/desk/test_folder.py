"""The folder that the desk serves, and what the system refuses there."""
import os

import pytest

from pitplan.desk import folder
from pitplan.desk.folder import refusal


def test_an_answer_of_the_system_is_told_in_words(tmp_path):
    full = folder.refusal(OSError(28, "No space left on device", "/mine/x.csv"))
    assert full.status == 507
    assert "make room" in full.answer["errors"][0]["try"]


@pytest.mark.parametrize("number, status", [(36, 404), (20, 404), (2, 404), (28, 507), (12, 503)])
def test_what_the_system_refuses_is_no_error_of_the_desk(number, status):
    assert refusal(OSError(number, os.strerror(number), "x" * 300)).status == status
