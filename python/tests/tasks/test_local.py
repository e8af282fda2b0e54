"""Tasks in processes of this machine: one that dies, a full disk, ctrl-C, too little memory."""
import os
import signal

import pytest

import pitplan as pp
from held_pit import all_done, in_background, twelve
from mines import table
from pitplan.tasks import local, status
from pitplan.plans import risk
from pitplan.tasks.tasks import Tasks
from processes import TOP, command, gone, parent, runs, said
from realisations import prepared


def test_a_killed_process_of_this_machine_is_started_again(tmp_path, held):
    study, pit = prepared(tmp_path, 6, table(7, 6, 4, 3), factors=(1000,)), held(first=1)
    run, deaths = in_background(
        local.run_local, pp.Study(study.folder, pp.Pit(pit.path)), risk.risk_tasks(study), 2
    )
    killed = pit.solvers(3)[1]
    os.kill(parent(killed), signal.SIGKILL)
    pit.let_go()
    run.join(600)
    assert deaths == [1]
    assert not runs(killed)
    assert len(pit.solvers()) == 6 + 1
    assert not Tasks(study.folder).left(risk.risk_tasks(study))
    assert not list(study.folder.glob("runs/*/.*"))


def test_a_task_whose_process_dies_each_time_is_told(tmp_path):
    study = prepared(tmp_path, 2, table(6, 5, 4, 3), factors=(1000,))
    deadly = tmp_path / "pit"
    deadly.write_text("#!/bin/sh\nkill -9 $PPID\n")
    deadly.chmod(0o755)
    with pytest.raises(pp.MachineError, match="its process was ended 3 times"):
        local.run_local(pp.Study(study.folder, pp.Pit(deadly)), risk.risk_tasks(study), 1)


@pytest.mark.parametrize("how", [signal.SIGINT, signal.SIGKILL])
def test_ctrl_c_in_the_middle_leaves_nothing_and_goes_on(tmp_path, asked_for, held, how):
    study, pit = twelve(asked_for, tmp_path), held(first=1)
    scratch = tmp_path / "scratch"
    scratch.mkdir()
    heard = lambda: signal.signal(
        signal.SIGINT, signal.SIG_DFL
    )  # a shell lets what it starts behind its back ignore ctrl-C  # noqa: E731
    run = command(
        "submit",
        study.folder,
        "--workers",
        2,
        env={**os.environ, "PIT": str(pit.path), "TMPDIR": str(scratch)},
        preexec_fn=heard,
    )
    solvers = pit.solvers(3)
    helpers = [parent(pid) for pid in solvers[1:]]
    run.send_signal(how)
    shown = run.communicate(timeout=600)[1]
    assert run.returncode == (130 if how == signal.SIGINT else -9), shown
    assert shown.count("goes on from there") == (how == signal.SIGINT), shown
    assert gone([*solvers, *helpers])
    left = [path for pattern in ("runs/*/*", "runs/*/.*") for path in study.folder.glob(pattern)]
    assert len(left) == 1
    assert (left[0] / "verdict.json").is_file()
    assert not list(scratch.iterdir())
    pit.let_go()
    assert "11 tasks done" in said(
        "submit", study.folder, "--workers", 2, env={**os.environ, "PIT": str(pit.path)}
    )
    all_done(study)
    assert len(pit.solvers()) == 12 + 2  # what was done did not run again


def test_a_full_disk_is_told_and_what_is_done_is_kept(tmp_path, asked_for, small_disks):
    study, pitplan = twelve(asked_for, tmp_path), TOP / "bin/pitplan"
    place = study.folder / "runs"
    small_disks.mount(place, 64)
    small_disks.done(pitplan, "task", study.folder, "realisation", 0, 1000)
    small_disks.fill(place)
    code, _, errors = small_disks.said(pitplan, "submit", study.folder, "--workers", 2)
    assert code == 4, errors
    assert "No space left on device" in errors, errors
    assert "disk" in errors.split("try: ")[1], errors  # of pit, or of pitplan
    shown = small_disks.done(pitplan, "status", study.folder)
    assert "1 done, " in shown, shown
    assert "failed: " in shown, shown
    assert "No space left on device" in shown, shown
    small_disks.widen(place)
    assert "11 tasks done" in small_disks.done(pitplan, "submit", study.folder, "--workers", 2)
    assert "12 done, of 12" in small_disks.done(pitplan, "status", study.folder)


def test_a_full_scratch_is_told(tmp_path, asked_for, small_disks):
    study, scratch = twelve(asked_for, tmp_path), tmp_path / "scratch"
    small_disks.mount(
        scratch, 4
    )  # Python would take another folder for one that is full to the brim
    env = {**os.environ, "TMPDIR": str(scratch)}
    code, _, errors = small_disks.said(
        TOP / "bin/pitplan", "task", study.folder, "realisation", 3, 1000, env=env
    )
    assert code == 4, errors
    assert "No space left on device" in errors, errors
    assert "TMPDIR=" in errors, errors
    assert "No space left on device" in said("status", study.folder)
    small_disks.widen(scratch)
    small_disks.done(TOP / "bin/pitplan", "task", study.folder, "realisation", 3, 1000, env=env)
    assert not small_disks.done("ls", "-A", scratch)


def test_a_pit_without_memory_is_told_in_its_own_words(tmp_path, program):
    study = prepared(tmp_path, 3, table(24, 21, 12, 3), factors=(1000,))
    poor = tmp_path / "pit"
    poor.write_text(f'#!/bin/sh\nulimit -v 5000\nexec {program} "$@"\n')  # enough for it to start
    poor.chmod(0o755)
    with pytest.raises(pp.MachineError) as error:
        local.run_local(pp.Study(study.folder, pp.Pit(poor)), risk.risk_tasks(study), 2)
    assert "realisation" in str(error.value)
    assert "pit solve ended with status 4: fault: memory" in str(error.value)
    assert len(Tasks(study.folder).left(risk.risk_tasks(study))) == 3
    assert not list(study.folder.glob("runs/*/.*"))
    assert status.FAILED in {
        state.state for state in status.states(study, risk.risk_tasks(study))
    }  # the other may have been stopped first
    local.run_local(study, risk.risk_tasks(study), 2)
    assert {state.state for state in status.states(study, risk.risk_tasks(study))} == {status.DONE}
    assert not list((study.folder / "log").iterdir())
