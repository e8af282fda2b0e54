"""Tasks that a command does itself: which are left, what is told of each, and what Slurm has of them."""
from types import SimpleNamespace

import pytest

from pitplan.base import events
from pitplan.base.errors import MachineError
from pitplan.cli import tasks_here
from pitplan.plans.task_line import task_of
from pitplan.tasks import clusters, local
from pitplan.tasks import tasks as tasks_of

TASKS = [task_of(["realisation", str(number), "1000"]) for number in range(3)]


@pytest.fixture
def study(monkeypatch, tmp_path):
    """A study of which the first task is done, on a machine that runs two at a time."""
    monkeypatch.setattr(
        tasks_of, "Tasks", lambda *_: SimpleNamespace(left=lambda tasks: [*tasks][1:])
    )
    monkeypatch.setattr(local, "processes_for", lambda study, workers: 2)
    return SimpleNamespace(folder=tmp_path, named=tmp_path, program=None, given=None)


def test_only_what_is_left_is_done_and_each_is_told(study, monkeypatch, capsys):
    heard, given = [], []
    monkeypatch.setattr(events, "event", lambda name, **words: heard.append((name, words)))

    def run_local(study, tasks, count, listener):
        given.append((tasks, count))
        for done, task in enumerate(tasks, 1):
            listener(task, done, len(tasks))
        return 0

    monkeypatch.setattr(local, "run_local", run_local)
    tasks_here.do_all(study, TASKS, None)
    assert given == [(TASKS[1:], 2)]
    lines = [line.split(" after ")[0] for line in capsys.readouterr().err.splitlines()]
    assert lines == ["realisation 1 1000 done: 1 of 2", "realisation 2 1000 done: 2 of 2"]
    assert heard == [
        ("task", {"task": "realisation 1 1000", "done": 1, "of": 2}),
        ("task", {"task": "realisation 2 1000", "done": 2, "of": 2}),
    ]


def test_a_process_that_was_ended_is_told(study, monkeypatch, capsys):
    monkeypatch.setattr(local, "run_local", lambda *_: 3)
    tasks_here.do_all(study, TASKS, None)
    assert "ended 3 times, and started again" in capsys.readouterr().err


def test_where_nothing_is_left_nothing_runs(study, monkeypatch):
    monkeypatch.setattr(local, "run_local", lambda *_: pytest.fail("it ran"))
    tasks_here.do_all(study, TASKS[:1], None)


@pytest.mark.parametrize(
    "in_hand, said",
    [
        ({}, ""),
        ({TASKS[0]: "RUNNING"}, ""),  # done
        ({TASKS[1]: "PENDING"}, "1 of these tasks waits or runs in Slurm, and is done here too"),
        (dict.fromkeys(TASKS, "RUNNING"), "2 of these tasks wait or run in Slurm, and are done"),
        ({TASKS[1]: ""}, ""),  # Slurm has ended it
    ],
)
def test_what_slurm_has_in_hand_is_told(study, monkeypatch, capsys, in_hand, said):
    states = {task: SimpleNamespace(state=state) for task, state in in_hand.items()}
    monkeypatch.setattr(clusters, "in_slurm", lambda study: states)
    tasks_here.tell_slurm(study, TASKS)
    found = " ".join(capsys.readouterr().err.split())
    assert said in found
    assert bool(said) == bool(found)


def test_where_slurm_answers_nothing_a_command_goes_on(study, monkeypatch, capsys):
    def none(study):
        raise MachineError("squeue doesn't answer")

    monkeypatch.setattr(clusters, "in_slurm", none)
    tasks_here.tell_slurm(study, TASKS)
    assert capsys.readouterr().err == ""
