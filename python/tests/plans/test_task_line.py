"""The line of words that names a task."""
import pytest

import pitplan as pp
from pitplan.plans.task_line import Task, task_of


def test_words_of_a_task():
    assert task_of(["run", "base", "1000,800"]) == Task("run", "base", (800, 1000))
    assert str(task_of(["realisation", "017", "800"])) == "realisation 17 800"
    for words in (
        "run base",
        "run base x",
        "walk base 800",
        "realisation x 800",
        "run base 20000",
        "run base 0.8",
    ):
        with pytest.raises(pp.PlanError):
            task_of(words.split())
