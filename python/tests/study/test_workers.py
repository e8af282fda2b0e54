"""Several pits at a time, and what becomes of those that are stopped or killed."""
import os
import signal

import pytest

import pitplan as pp
from mines import pairs_of, study_of, table, written_study
from pitplan.pit.program import Pit
from pitplan.study import workers
from processes import command, gone, slow_pit, waited_for


@pytest.mark.parametrize("how", [signal.SIGINT, signal.SIGKILL])
def test_a_run_that_was_stopped_leaves_no_solver_and_goes_on(tmp_path, program, how):
    folder = written_study(tmp_path / "s")
    assert command("build", folder).wait() == 0
    slow, marks = slow_pit(tmp_path, 30, program)
    run = command(
        "shells", folder, "--certificates", "--workers", 2, env={**os.environ, "PIT": str(slow)}
    )
    solvers = waited_for(marks, 2)
    run.send_signal(how)
    said = run.communicate(timeout=600)[1]
    assert run.returncode == (130 if how == signal.SIGINT else -9)
    assert how == signal.SIGKILL or "goes on from there" in said
    assert gone(solvers)
    left = list((folder / "runs/base").iterdir())
    assert how == signal.SIGKILL or not left
    again = command("shells", folder, env={**os.environ, "PIT": program})
    assert again.communicate(timeout=600)
    assert again.returncode == 0
    assert sorted(path.name for path in (folder / "runs/base").iterdir()) == [
        "f00600",
        "f01000",
        "f01200",
    ]


def test_a_killed_solver_is_started_once_more(tmp_path, program):
    study = study_of(
        tmp_path,
        table(6, 5, 4, 3),
    )
    text = '#!/bin/sh\ncase "$*" in *solve*1000*) if [ ! -e {0} ]; then touch {0}; kill -9 $$; fi;; esac\nexec {1} "$@"\n'.format(
        tmp_path / "killed", program
    )
    (tmp_path / "pit").write_text(text)
    (tmp_path / "pit").chmod(0o755)
    study = pp.Study(study.folder, Pit(tmp_path / "pit"))
    found = []
    assert (
        len(
            study.shells(
                [600, 1000],
                2,
                lambda factor, what, share: found.append((factor, what)),
                certificates=True,
            ).verdicts
        )
        == 2
    )
    assert (1000, "killed") in found
    assert (1000, "done") in found
    (tmp_path / "pit").write_text("#!/bin/sh\nkill -9 $$\n")
    with pytest.raises(pp.MachineError, match="SIGKILL"):
        pp.Study(study.folder, Pit(tmp_path / "pit")).shells([700])


def test_workers_go_by_free_memory(tmp_path, monkeypatch):
    study = study_of(tmp_path, table(6, 5, 4, 3))
    need = workers.guess_of(study).memory
    assert need == workers.memory_of(len(study.model), study.pairs.count)
    for free, wanted, most in ((need * 10, 3, 3), (need * 10, 64, 8), (need, 3, 1), (0, 3, 1)):
        monkeypatch.setattr(workers, "free_memory", lambda free=free: free)
        assert workers.workers_for(study, wanted) == most
    assert workers.guess_of(study).pairs == len(pairs_of(study.where))
