"""The command `submit`: which tasks are handed in, and the words of each engine."""
from types import SimpleNamespace

import pytest

from pitplan.base.files import host
from pitplan.cli import submit
from pitplan.plans.task_line import task_of
from pitplan.tasks import status
from pitplan.tasks import tasks as tasks_of

STATES = [
    ("done", ""),
    (status.FAILED, "no room"),
    (status.TO_DO, ""),
    (status.RUNNING, f"on {host()}"),
    (status.RUNNING, "on another-machine"),
]


@pytest.fixture
def found(monkeypatch):
    """A task in each state."""
    states = [
        SimpleNamespace(
            task=task_of(["realisation", str(number), "1000"]), state=state, words=words
        )
        for number, (state, words) in enumerate(STATES)
    ]
    monkeypatch.setattr(tasks_of, "wanted", lambda study, factors: [])
    monkeypatch.setattr(status, "states", lambda study, tasks: states)
    return [state.task for state in states]


def test_what_failed_or_was_never_done_is_handed_in(found, capsys):
    assert submit._to_hand_in(None, [1000], False) == found[1:3]
    assert "1 task running on another-machine; if that machine died: --again" in " ".join(
        capsys.readouterr().err.split()
    )


def test_again_hands_in_what_seems_to_run_elsewhere_and_not_what_runs_here(found, capsys):
    assert submit._to_hand_in(None, [1000], True) == [*found[1:3], found[4]]
    assert capsys.readouterr().err == ""


def test_the_lines_of_a_dry_run_can_be_given_to_a_shell(found, monkeypatch, capsys):
    from pitplan.tasks import clusters

    monkeypatch.setattr(clusters, "megabytes", lambda study: 1234)
    study = SimpleNamespace(folder="my mine")
    submit._show(study, found[:2], submit._Engine.LOCAL, None)
    assert capsys.readouterr().out.splitlines() == [
        "2 tasks of 1,234 MB each would be handed in:",
        "  pitplan task 'my mine' realisation 0 1000",
        "  pitplan task 'my mine' realisation 1 1000",
    ]
