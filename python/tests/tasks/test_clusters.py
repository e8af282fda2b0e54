"""Tasks on real engines: a Slurm of one's own, Snakemake over it, Dask. Each is hurt in the middle."""
import os
import shutil
import signal
import subprocess
from types import SimpleNamespace

import pandas as pd
import pytest

import pitplan as pp
from held_pit import all_done, in_background, twelve
from mines import table
from pitplan.tasks import clusters, status
from pitplan.plans import risk
from pitplan.plans.task_line import Task
from pitplan.tasks.tasks import Tasks
from processes import TOP, gone, parent, runs, said, started
from realisations import prepared
from small_slurm import Slurm, why_not


@pytest.fixture(scope="module")
def slurm(tmp_path_factory):
    reason = why_not()
    if reason:
        pytest.skip(reason)
    cluster = Slurm(tmp_path_factory.mktemp("slurm"))
    yield cluster
    cluster.stop()


def test_a_slurm_array_with_a_killed_task_and_a_killed_node(tmp_path, asked_for, held, slurm):
    study, pit = twelve(asked_for, tmp_path), held(first=3)
    env = {**slurm.env, "PIT": str(pit.path)}
    assert "12 tasks handed in as job" in said("submit", study.folder, "--engine", "slurm", env=env)
    killed = pit.solvers(5)[3]  # the first three are done, and two are held
    os.kill(parent(killed), signal.SIGKILL)  # one task, as the system does where memory is short
    at_work = [pid for pid in pit.solvers(6) if runs(pid)]
    assert len(at_work) == 2
    assert not runs(killed)
    shown = said("status", study.folder, env=env)
    assert "3 done, 2 running, 6 waiting, 1 failed, of 12 tasks" in shown, shown
    assert status.ENDED in shown, shown
    shown = said("submit", study.folder, "--engine", "slurm", "--dry", env=env)
    assert "1 task of" in shown, shown
    assert shown.count("\n  pitplan task") == 1, shown
    slurm.kill_node()
    assert gone(at_work)
    pit.let_go()
    slurm.bring_node_back()
    slurm.until(slurm.is_empty, "the array never ended")
    assert "11 done, 1 failed, of 12 tasks" in said("status", study.folder, env=env)
    shown = said("submit", study.folder, "--engine", "slurm", env=env)
    assert "1 task handed in" in shown, shown  # what was killed, and nothing else
    slurm.until(slurm.is_empty, "the last task never ended")
    all_done(study)
    assert len(pit.solvers()) == 12 + 1 + 2  # nothing that was done ran twice
    assert "nothing to hand in" in said("submit", study.folder, "--engine", "slurm", env=env)
    assert "12 done, of 12" in said("status", study.folder, env=env)


def test_snakemake_over_slurm_starts_a_killed_job_again(tmp_path, held, slurm, monkeypatch):
    assert shutil.which("snakemake"), "not installed: snakemake"
    study, pit = prepared(tmp_path, 4, table(7, 6, 4, 3), factors=(1000,)), held(first=1)
    monkeypatch.setenv("PIT", str(pit.path))  # the Snakefile names it
    written = clusters.write_snakefile(study, risk.risk_tasks(study))
    line = clusters.snakemake_lines(written)["Slurm"] + " --latency-wait 60"
    env = {
        **slurm.env,
        "PIT": str(pit.path),
        "HOME": str(tmp_path),
        "XDG_CACHE_HOME": str(tmp_path / "cache"),
        "CI": "true",
    }  # then it looks each second
    run = started(["bash", "-c", line], cwd=study.folder, env=env, stderr=subprocess.STDOUT)
    os.kill(parent(pit.solvers(2)[1]), signal.SIGKILL)
    pit.let_go()
    shown = run.communicate(timeout=1200)[0]
    assert run.returncode == 0, shown
    assert not Tasks(study.folder).left(risk.risk_tasks(study)), shown
    assert len(pit.solvers()) == 4 + 1, shown


def test_dask_with_a_killed_worker(tmp_path, held):
    import distributed

    study, pit = prepared(tmp_path, 8, table(7, 6, 4, 3), factors=(1000,)), held(first=2)
    done = []
    with distributed.LocalCluster(
        n_workers=3,
        threads_per_worker=1,
        processes=True,
        dashboard_address=None,
        host="127.0.0.1",
        memory_limit=0,
        local_directory=str(tmp_path),
    ) as cluster, distributed.Client(cluster) as client:
        client.wait_for_workers(3)
        run, _ = in_background(
            clusters.run_dask,
            pp.Study(study.folder, pp.Pit(pit.path)),
            risk.risk_tasks(study),
            client,
            lambda task, n, of: done.append(task),
        )
        killed = pit.solvers(3)[2]
        os.kill(parent(killed), signal.SIGKILL)
        pit.let_go()
        run.join(600)
        assert not run.is_alive()
        assert len(done) == 8
    assert not Tasks(study.folder).left(risk.risk_tasks(study))
    assert not runs(killed)
    assert len(pit.solvers()) == 8 + 1


def test_a_scheduler_starts_the_pit_that_was_named(tmp_path, asked_for, program, monkeypatch):
    """Also where PIT is a relative path, since tasks start in the study's folder."""
    study, place = twelve(asked_for, tmp_path), tmp_path / "a place"
    place.mkdir()
    shutil.copy(program, place / "own-pit")
    monkeypatch.chdir(tmp_path)
    monkeypatch.delenv("PIT", raising=False)
    assert " PIT=" not in clusters.slurm_script(study, 1, "submit/1")
    monkeypatch.setenv("PIT", "a place/own-pit")
    said = clusters.slurm_script(study, 1, "submit/1").splitlines()[-1]
    assert said == f"exec env PIT='{place.resolve()}/own-pit' {TOP / 'bin/pitplan'} task . $words"
    bare = {name: value for name, value in os.environ.items() if name != "PIT"}
    written = clusters.write_snakefile(study, [Task("realisation", "3", (1000,))])
    assert f"PIT='{place.resolve()}/own-pit'" in (written / "Snakefile").read_text()
    subprocess.run(
        ["sh", "-c", said.removeprefix("exec ").replace("$words", "realisation 3 1000")],
        cwd=study.folder,
        env=bare,
        check=True,
        stdout=subprocess.DEVNULL,
    )
    assert not Tasks(study.folder).missing(Task("realisation", "3", (1000,)))


def test_memory_is_asked_by_the_size_of_the_model(tmp_path, monkeypatch):
    study = prepared(tmp_path, 2, table(6, 5, 4, 3))
    small = clusters.megabytes(study)
    measured = pd.read_csv(TOP / "bench/scale.csv")
    assert set(measured.model) >= {"s50k", "s500k"}
    for row in measured[
        measured.step == "pit"
    ].itertuples():  # no less than it took, and no more than half as much again beyond a process alone
        study.manifest["blocks"] = row.blocks
        monkeypatch.setattr(study, "pairs", SimpleNamespace(count=row.pairs))
        assert (
            row.memory_mb < clusters.megabytes(study) / clusters.SPARE < 1.5 * row.memory_mb + 200
        ), row
    study.manifest["blocks"] = 10_000_000
    monkeypatch.setattr(study, "pairs", SimpleNamespace(count=49_000_000))
    assert small < 400
    assert 7_000 < clusters.megabytes(study) < 12_000
    script = clusters.slurm_script(study, 12, "submit/1", clusters.Limits(30, 5))
    assert f"--mem={clusters.megabytes(study)}M" in script
    assert "--array=1-12%5" in script
    assert "--time=30" in script
