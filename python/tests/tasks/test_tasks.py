"""A task does what is missing and no more; one that was killed leaves no pit, and is gone on with."""
import json
import os
import signal

import pytest

from pitplan.plans.task_line import task_of
from pitplan.tasks.tasks import Tasks
from processes import command, gone, waited_for
from realisations import prepared
from processes import slow_pit


def test_a_task_does_nothing_where_a_verdict_stands(tmp_path, program):
    study = prepared(tmp_path, 2)
    tasks = Tasks(study.folder)
    words = ["run base 1000", "realisation 1 800,1000"]
    assert [tasks.do(task_of(line.split())) for line in words] == [1, 2]
    none = tmp_path / "no-pit"
    none.write_text("#!/bin/sh\nexit 4\n")
    none.chmod(0o755)
    for line in words:
        ran = command("task", study.folder, *line.split(), env={**os.environ, "PIT": str(none)})
        said = ran.communicate(timeout=600)
        assert ran.returncode == 0
        assert "done before" in said[0]
    ran = command("task", study.folder, "realisation", 0, 800, env={**os.environ, "PIT": str(none)})
    assert ran.communicate(timeout=600)
    assert ran.returncode == 4
    note = json.loads((study.folder / "log" / "realisation_0_800.failed.json").read_text())
    assert note["task"] == "realisation 0 800"
    assert "pit solve ended with status 4" in note["words"]
    assert tasks.do(task_of(["realisation", "0", "800"])) == 1
    assert not list((study.folder / "log").iterdir())
    assert not list((study.folder / "runs/r0000/f00800").glob("*.cert*"))


@pytest.mark.parametrize("how", [signal.SIGTERM, signal.SIGKILL])
def test_a_killed_task_leaves_no_pit_and_goes_on(tmp_path, program, how):
    study = prepared(tmp_path, 2)
    slow, marks = slow_pit(tmp_path, 60, program)
    scratch = tmp_path / "scratch"
    scratch.mkdir()
    run = command(
        "task",
        study.folder,
        "realisation",
        1,
        1000,
        env={**os.environ, "PIT": str(slow), "TMPDIR": str(scratch)},
    )
    solver = waited_for(marks, 1)[0]
    run.send_signal(how)
    run.communicate(timeout=600)
    assert gone([solver])
    if how == signal.SIGTERM:
        assert run.returncode == 130
        assert not list((study.folder / "runs/r0001").iterdir())
        assert not list(scratch.iterdir())
    assert Tasks(study.folder).do(task_of(["realisation", "1", "1000"])) == 1
    assert [p.name for p in (study.folder / "runs/r0001").iterdir()] == ["f01000"]
