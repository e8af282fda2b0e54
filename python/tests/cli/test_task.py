"""The command `task`: a task by its words, and lines of the standard input."""
import io
import json
import signal

import pytest

from pitplan.base.interrupts import stop
from pitplan.cli import task as command
from pitplan.tasks import local
from pitplan.tasks import tasks as tasks_of


class Done:
    """Tasks that note which are done."""

    def __init__(self, folder):
        self.folder, self.asked = folder, []

    def do(self, task):
        self.asked.append(str(task))
        return 2


@pytest.fixture
def made(monkeypatch, tmp_path):
    """The tasks of a study, with a signal handler that is put back."""
    found = Done(tmp_path)
    monkeypatch.setattr(tasks_of, "Tasks", lambda folder: found)
    monkeypatch.setattr(command, "refuse_study", lambda folder: None)
    before = signal.getsignal(signal.SIGTERM)
    yield found
    signal.signal(signal.SIGTERM, before)


def test_one_task_by_its_words(made, tmp_path, capsys):
    command.task(tmp_path, ["realisation", "3", "800,1000"])
    assert made.asked == ["realisation 3 800,1000"]
    assert capsys.readouterr().out == "realisation 3 800,1000: 2 pits found\n"


def test_sigterm_ends_it_as_ctrl_c_does(made, tmp_path):
    command.task(tmp_path, ["realisation", "3", "1000"])
    assert signal.getsignal(signal.SIGTERM) is stop


def test_lines_of_the_standard_input_are_done_one_after_the_other(
    made, tmp_path, capsys, monkeypatch
):
    lines = "realisation 0 1000\nrealisation 1 1000\n"
    monkeypatch.setattr("sys.stdin", io.StringIO(lines))
    command.task(tmp_path, ["-"])
    assert made.asked == lines.splitlines()
    assert [json.loads(line) for line in capsys.readouterr().out.splitlines()] == [
        {"done": True}
    ] * 2


def test_ctrl_c_between_lines_is_status_130(made, tmp_path, monkeypatch):
    def stopped(*_):
        raise KeyboardInterrupt

    monkeypatch.setattr(local, "serve", stopped)
    with pytest.raises(SystemExit) as ended:
        command.task(tmp_path, ["-"])
    assert ended.value.code == 130
