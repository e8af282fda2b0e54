"""What `pitplan status` says of tasks: of Slurm, of another machine, of logs and of what was left."""
import os
import time
from types import SimpleNamespace

import pytest

from held_pit import twelve
from mines import table, written_study
from pitplan.tasks import clusters, status
from pitplan.plans import risk
from pitplan.plans.task_line import Task
from pitplan.tasks.tasks import Tasks, done_line
from processes import command, said
from realisations import prepared


def test_a_slurm_that_cant_be_asked(tmp_path, program):
    folder = written_study(tmp_path / "s", table(6, 5, 4, 3))
    said("build", folder)
    (folder / "submit/1").mkdir(parents=True)
    (folder / "submit/1/tasks.txt").write_text("run base 600\n")
    (folder / "submit/1/submitted.json").write_text(
        '{"engine": "slurm", "job": "7", "host": "head"}'
    )
    env = {**os.environ, "PIT": program, "PATH": "/nowhere"}
    shown = command("status", folder, env=env).communicate(timeout=600)
    assert "squeue isn't there" in shown[1]
    assert "3 to do, of 3 tasks" in shown[0]
    run = command("submit", folder, env=env)
    assert "squeue isn't there" in run.communicate(timeout=600)[1]
    assert run.returncode == 4


def test_what_another_machine_left_half_done(tmp_path, asked_for):
    """A process of another machine can't be looked for: its task runs, as far as is known, unless
    Slurm has it no more."""
    study, task, log = (
        twelve(asked_for, tmp_path),
        Task("realisation", "3", (1000,)),
        tmp_path / "log",
    )
    (study.folder / "runs/r0003/.f01000.node7.1.xyz").mkdir(parents=True)
    state = lambda handed: status.states(study, [task], handed)[0]  # noqa: E731
    assert (state({}).state, state({}).words) == (status.RUNNING, "on node7")
    assert state({task: clusters.Handed("RUNNING", log)}).state == status.RUNNING
    assert state({task: clusters.Handed("PENDING", log)}).state == status.WAITING
    log.write_text(
        "realisation 3\nslurmstepd: error: *** JOB 7 CANCELLED DUE TO TIME LIMIT ***\n\n"
    )
    found = state({task: clusters.Handed("", log)})
    assert found.state == status.FAILED
    assert (
        found.words
        == "was ended from outside; its log ends with: slurmstepd: error: *** JOB 7 CANCELLED DUE TO TIME LIMIT ***"
    )
    log.write_text(
        "slurmstepd: error: *** JOB 7 ON node7 CANCELLED AT 2026-11-26T17:00:00 ***\nstopped; what is done is kept, and the same command goes on from there\n"
    )
    assert (
        state({task: clusters.Handed("", log)}).words
        == "was ended from outside; its log ends with: slurmstepd: error: *** JOB 7 ON node7 CANCELLED AT 2026-11-26T17:00:00 ***"
    )
    log.write_text("stopped; what is done is kept, and the same command goes on from there\n")
    assert (
        state({task: clusters.Handed("", log)}).words
        == "was ended from outside: killed, out of memory, or out of time"
    )
    tidy = Task("realisation", "4", (1000,))  # one that has taken away what it had half done
    assert [
        (found.state, found.words)
        for found in status.states(study, [tidy], {tidy: clusters.Handed("", log)})
    ] == [(status.FAILED, "was ended from outside: killed, out of memory, or out of time")]
    run = command("submit", study.folder, "--dry")
    shown, look = run.communicate(timeout=600)
    assert "11 tasks of" in shown, (shown, look)
    assert "realisation 3 1000" not in shown, (shown, look)
    assert "1 task running on node7" in look, (shown, look)
    assert "--again" in look, (shown, look)
    assert "12 tasks of" in said("submit", study.folder, "--dry", "--again")


def test_a_log_without_a_word_and_one_of_a_model_that_was(tmp_path, asked_for):
    """A task that was killed before it said anything did begin, and one that was done over another
    model didn't fail."""
    study, task, log = (
        twelve(asked_for, tmp_path),
        Task("realisation", "3", (1000,)),
        tmp_path / "log",
    )
    state = lambda: status.states(study, [task], {task: clusters.Handed("", log)})[0]  # noqa: E731
    assert state().state == status.TO_DO  # cancelled while it waited
    log.write_text("")
    assert (state().state, state().words) == (
        status.FAILED,
        "was ended from outside: killed, out of memory, or out of time",
    )
    for count in (0, 1, 3):
        log.write_text(f"{done_line(task, count)}\n")
        assert (state().state, state().words) == (status.TO_DO, ""), count
    log.write_text(
        f"{done_line(task, 3)}\nslurmstepd: error: *** JOB 7 CANCELLED ***\n"
    )  # Slurm started it again
    assert state().state == status.FAILED
    assert state().words.endswith("JOB 7 CANCELLED ***")


def test_the_rest_is_reckoned_with_pricing(tmp_path, monkeypatch):
    """A realisation is priced and written before its first pit, and on a mine of few blocks or few
    factors that takes longest."""
    study = prepared(tmp_path, 3, table(6, 5, 4, 3))
    write = risk.write_blocks
    monkeypatch.setattr(risk, "write_blocks", lambda *words: time.sleep(1) or write(*words))
    one, *others = risk.risk_tasks(study)
    Tasks(study.folder).do(one)
    first, second = (
        risk.realisation(study, 0).verdict(factor)["seconds"] for factor in one.factors
    )
    assert second < 1 <= first
    found = status.states(study, risk.risk_tasks(study), {})
    assert sum(state.missing for state in found) == 4
    assert status.seconds_left(study, found) == pytest.approx(2 * (first + second))
    written = risk.realisation(study, 1)
    with written.written():
        pass
    assert written.preparation_seconds == 0  # what was written and not used counts with no pit


def test_the_rest_takes_less_where_several_run(monkeypatch):
    """Two pits took 10 and 20 seconds, and of six more two are at work: 15 seconds for each two."""
    verdicts = {600: {"seconds": 10.0}, 800: {"seconds": 20.0}}
    study = SimpleNamespace(folder=None, given=None, verdict=verdicts.get)
    monkeypatch.setattr(status, "Tasks", lambda *words: SimpleNamespace(study=lambda task: study))
    found = [
        status._State(Task("run", "base", factors), state, "", missing)
        for factors, state, missing in (
            ((600,), status.DONE, 0),
            ((800,), status.DONE, 0),
            ((900,), status.RUNNING, 1),
            ((1000,), status.RUNNING, 1),
            ((1100, 1200, 1300, 1400), status.WAITING, 4),
        )
    ]
    assert status.seconds_left(study, found) == 45


def test_risk_says_what_slurm_has_in_hand(tmp_path, asked_for, program):
    study, queue = twelve(asked_for, tmp_path), tmp_path / "squeue"
    (study.folder / "submit/1").mkdir(parents=True)
    (study.folder / "submit/1/tasks.txt").write_text(
        "".join(f"realisation {r} 1000\n" for r in range(3))
    )
    (study.folder / "submit/1/submitted.json").write_text(
        '{"engine": "slurm", "job": "7", "host": "head"}'
    )
    queue.write_text("#!/bin/sh\necho 7 2 RUNNING\necho 7 3 PENDING\n")
    queue.chmod(0o755)
    env = {**os.environ, "PIT": program, "PATH": f"{tmp_path}:{os.environ['PATH']}"}
    assert (
        "2 of these tasks wait or run in Slurm, and are done here too"
        in command("risk", study.folder, env=env).communicate(timeout=600)[1]
    )
    run = command("risk", study.folder, env=env)
    assert "in Slurm" not in run.communicate(timeout=600)[1]
    assert run.returncode == 0  # nothing is left to do


def test_a_task_of_many_factors_has_a_file_name(tmp_path, asked_for):
    """A name has at most 255 bytes, and 181 factors have more."""
    study, factors = twelve(asked_for, tmp_path), tuple(range(300, 1205, 5))
    many = [
        Task("realisation", name, chosen)
        for name in ("3", "4")
        for chosen in (factors, (*factors[:90], *factors[91:]))
    ]
    assert len({task.label for task in many}) == 4
    assert len(str(many[0])) > 255
    tasks = Tasks(study.folder)
    tasks.keep_words(many[0], "no room")
    assert [(found.state, found.words) for found in status.states(study, many, {})] == [
        (status.FAILED, "no room"),
        *[(status.TO_DO, "")] * 3,
    ]


def test_scratch_of_a_process_that_is_no_more_is_taken_away(tmp_path, monkeypatch):
    study = prepared(tmp_path, 1, table(6, 5, 4, 3), factors=(1000,))
    scratch = tmp_path / "scratch"
    names = {f"pitplan.{status.host()}.{pid}.abc": pid for pid in (os.getpid(), 999_999_999)} | {
        "pitplan.node7.999999999.abc": 0,
        "pitplan.toml": 0,
    }
    for name in names:
        (scratch / name).mkdir(parents=True)
    monkeypatch.setattr("tempfile.tempdir", str(scratch))
    with risk.realisation(study, 0).written() as files:
        assert files.blocks.parent.parent == scratch
        assert files.blocks.is_file()
    assert sorted(path.name for path in scratch.iterdir()) == sorted(
        name for name in names if names[name] != 999_999_999
    )
