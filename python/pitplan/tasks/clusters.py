"""Tasks on other machines, by engines that others keep well: a Slurm array, Snakemake for other
schedulers, a Dask client.

An engine starts lines of words (`task`) and needs no state of its own: what is done says the
study's folder, which all machines share. Each time that tasks are handed in they get a folder of
their own, ``submit/3/``, whose list nobody changes afterwards. All paths in what a scheduler reads
count from the study's folder, since sbatch breaks at a space.
"""
from __future__ import annotations

import hashlib
import json
import os
import re
import shlex
import shutil
import subprocess
from collections.abc import Callable, Iterable, Sequence
from dataclasses import dataclass
from pathlib import Path
from typing import Any

from ..base import kept_json
from ..base.errors import STOPPED, MachineError, PlanError, in_a_line
from ..pit.process import TOP, found_program
from ..plans.task_line import Task
from ..study.study import Study
from ..base.files import host
from .tasks import Tasks, memory_of_task

_MOST_OF_ARRAY = 1000  # tasks of an array: Slurm takes 1,001 unless its site says otherwise
SPARE = 1.3  # times the memory that is guessed, asked of the scheduler
_SLURM = """#!/bin/sh
#SBATCH --job-name={name}
#SBATCH --array=1-{count}%{at_once}
#SBATCH --cpus-per-task=1
#SBATCH --mem={mega}M
#SBATCH --time={minutes}
#SBATCH --requeue
#SBATCH --open-mode=append
#SBATCH --output=log/%A_%a.log
words=$(sed -n "${{SLURM_ARRAY_TASK_ID}}p" {list})
exec {command} task . $words
"""
# What Slurm knows of a job, without accounting: Snakemake waits forever for a job that was
# cancelled if nobody tells it.
_STATUS = """#!/bin/sh
s=$(scontrol -o show job "$1" 2>/dev/null | sed -n 's/.*JobState=\\([A-Z_]*\\).*/\\1/p')
case "$s" in COMPLETED) echo success;; PENDING|RUNNING|COMPLETING|CONFIGURING|SUSPENDED|REQUEUED)\
 echo running;; *) echo failed;; esac
"""
_SNAKEFILE = """rule all:
    input: expand("{folder}/done/{{i}}", i=range(1, {count} + 1))
rule task:
    output: touch("{folder}/done/{{i}}")
    resources: mem_mb={mega}
    shell: "{command} task . $(sed -n {{wildcards.i}}p {folder}/tasks.txt)"
"""


@dataclass(frozen=True)
class Limits:
    """What is asked of a scheduler.

    Attributes
    ----------
    minutes : int
        That a task may take.
    at_once : int
        How many tasks of an array may run at a time.
    """

    minutes: int = 240
    at_once: int = 200


def command() -> str:
    """How a scheduler's script starts pitplan, quoted for a shell. A `pit` that PIT names here is
    named there too, by its whole path: tasks start in the study's folder, and a site may hand on no
    environment.

    Raises
    ------
    PlanError
        Where it is neither beside this package nor on the path.
    """
    own = TOP / "bin" / "pitplan"
    found = str(own) if own.is_file() else shutil.which("pitplan")
    if found is None:
        raise PlanError(
            "the command pitplan isn't on the path, and a cluster's script starts it",
            try_this="./install in the repository, on a disk that all machines have",
        )
    return (
        f"env PIT={shlex.quote(found_program())} " if os.environ.get("PIT") else ""
    ) + shlex.quote(found)


def _job_name(study: Study) -> str:
    """What the jobs of a study are called, so that the scheduler can be asked for them."""
    return "pitplan-" + hashlib.sha256(str(study.folder.resolve()).encode()).hexdigest()[:10]


def megabytes(study: Study) -> int:
    """The memory that is asked for a task."""
    return int(SPARE * memory_of_task(study) / 1e6) + 1


def listed(study: Study, tasks: Sequence[Task]) -> Path:
    """A new folder ``submit/N`` with the list of tasks, a line each. Raises PlanError where `log`
    of the study is a file."""
    top = study.folder / "submit"
    top.mkdir(exist_ok=True)
    try:
        (study.folder / "log").mkdir(exist_ok=True)
    except FileExistsError:
        raise PlanError(
            (
                f"{study.folder / 'log'} is a file, and what tasks say is kept in a folder of that"
                " name"
            ),
            try_this="another name for the file",
        ) from None
    number = max((int(path.name) for path in top.iterdir() if path.name.isdigit()), default=0) + 1
    folder = top / str(number)
    folder.mkdir()
    (folder / "tasks.txt").write_text("".join(f"{task}\n" for task in tasks))
    return folder


def slurm_script(study: Study, count: int, folder: str, limits: Limits = Limits()) -> str:
    """The script of an array of so many tasks, listed in a folder ``submit/N``."""
    return _SLURM.format(
        name=_job_name(study),
        count=count,
        at_once=limits.at_once,
        mega=megabytes(study),
        minutes=limits.minutes,
        list=f"{folder}/tasks.txt",
        command=command(),
    )


def submit_slurm(study: Study, tasks: Sequence[Task], limits: Limits = Limits()) -> list[str]:
    """Hands tasks to Slurm, as arrays of up to a thousand.

    Returns
    -------
    list of str
        The number of each job.

    Raises
    ------
    MachineError
        Where sbatch isn't there or refuses, with its words.
    """
    jobs = []
    for at in range(0, len(tasks), _MOST_OF_ARRAY):
        part = tasks[at : at + _MOST_OF_ARRAY]
        folder = listed(study, part)
        (folder / "array.sh").write_text(
            slurm_script(study, len(part), f"submit/{folder.name}", limits)
        )
        said = asked(["sbatch", "--parsable", f"submit/{folder.name}/array.sh"], study.folder)
        job = said.strip().split(";")[0]
        (folder / "submitted.json").write_text(
            json.dumps({"engine": "slurm", "job": job, "host": host()})
        )
        jobs.append(job)
    return jobs


def asked(words: Sequence[str], folder: Path) -> str:
    """What a scheduler's program says. Raises MachineError where it isn't there or ends with a
    fault."""
    try:
        ran = subprocess.run(
            words, cwd=folder, capture_output=True, text=True, stdin=subprocess.DEVNULL
        )
    except FileNotFoundError:
        raise MachineError(
            f"{words[0]} isn't there: is this a machine of the cluster?", try_this="--engine local"
        ) from None
    if ran.returncode:
        raise MachineError(f"{words[0]}: {(ran.stderr or ran.stdout).strip()}")
    return ran.stdout


@dataclass(frozen=True)
class Handed:
    """What Slurm has of a task that was handed in.

    Attributes
    ----------
    state : str
        Its word, as RUNNING or PENDING; "" where it has the task no more.
    log : Path
        What the task wrote, or Slurm of it.
    """

    state: str
    log: Path

    def last_line(self) -> str | None:
        """What stands last in the log; before `STOPPED`, which a task says that is ended, and which
        doesn't say why. "" where there is nothing, None where there is no log: the task never
        began."""
        try:
            lines = [
                line.strip()
                for line in self.log.read_text(errors="replace").split("\n")
                if line.strip()
            ]
        except OSError:
            return None
        return in_a_line(
            next((line for line in reversed(lines) if line != STOPPED), STOPPED if lines else "")
        )


def in_slurm(study: Study) -> dict[Task, Handed]:
    """The tasks of a study that were handed in to Slurm, and what it has of each; none where there
    were none.

    Raises
    ------
    MachineError
        Where Slurm can't be asked.
    """
    lists = {}
    there = [
        path
        for path in (study.folder / "submit").glob("*/submitted.json")
        if path.parent.name.isdecimal()
    ]
    for path in sorted(there, key=lambda path: int(path.parent.name)):
        record = kept_json.read(
            path,
            {
                "engine": kept_json.is_word,
                "job": (
                    lambda value: isinstance(value, str) and re.fullmatch(r"\w*", value) is not None
                ),
            },
            f"take {path} away",
        )
        if record["engine"] == "slurm":
            lists[record["job"]] = (path.parent / "tasks.txt").read_text().splitlines()
    if not lists:
        return {}
    states = {}
    for line in asked(
        ["squeue", "--noheader", "--array", f"--name={_job_name(study)}", "--format=%F %K %T"],
        study.folder,
    ).splitlines():
        job, index, state = line.split()[:3]
        states[job, index] = state
    return {
        _task_in(line): Handed(
            states.get((job, str(at)), ""), study.folder / "log" / f"{job}_{at}.log"
        )
        for job, lines in lists.items()
        for at, line in enumerate(lines, 1)
    }


def _task_in(line: str) -> Task:
    from ..plans.task_line import task_of

    return task_of(line.split())


def write_snakefile(study: Study, tasks: Sequence[Task]) -> Path:
    """Writes the tasks out for Snakemake: a folder ``submit/N`` with a Snakefile, and a status
    script for Slurm without accounting.

    The marks of what is done are files of its own, so Snakemake, which takes away what a failed job
    had to make, never touches a pit.
    """
    folder = listed(study, tasks)
    place = f"submit/{folder.name}"
    # Python's words are quoted as JSON's are
    quoted = json.dumps(command().replace("{", "{{").replace("}", "}}"))[1:-1]
    (folder / "Snakefile").write_text(
        _SNAKEFILE.format(folder=place, count=len(tasks), mega=megabytes(study), command=quoted)
    )
    (folder / "slurm-status").write_text(_STATUS)
    it = folder / "slurm-status"
    it.chmod(it.stat().st_mode | it.stat().st_mode >> 2 & 0o111)  # who may read it may run it
    (folder / "submitted.json").write_text(
        json.dumps({"engine": "snakemake", "job": "", "host": host()})
    )
    return folder


def snakemake_lines(folder: Path) -> dict[str, str]:
    """The command lines that start a written Snakefile, from the study's folder."""
    place = f"submit/{folder.name}"
    start = f"snakemake --snakefile {place}/Snakefile --rerun-incomplete --retries 3"
    cluster = "sbatch --parsable --cpus-per-task=1 --mem={resources.mem_mb}M --output=log/%j.log"
    return {
        "this machine": f"{start} --jobs 4",
        "Slurm": f"{start} --jobs 100 --cluster '{cluster}' --cluster-status {place}/slurm-status",
        "another scheduler": f"{start} --jobs 100 --cluster 'qsub ..' --cluster-status YOUR-SCRIPT",
    }


def run_dask(
    study: Study,
    tasks: Iterable[Task],
    client: Any,
    on_done: Callable[[Task, int, int], None] | None = None,
) -> None:
    """Does tasks over the workers of a ``distributed.Client``. Words alone go over the network; the
    study's folder is shared.

    Dask sees the memory of its own process and not that of the `pit` beneath it: as many workers as
    memory has room for is the caller's care (`local.processes_for` says it for this machine).

    Parameters
    ----------
    client : distributed.Client
    on_done : function, optional
        Called with each task that is done.

    Raises
    ------
    PlanError
        As `Tasks.do`. A worker that dies costs the task that it had in hand, which is started again
        elsewhere.
    """
    from distributed import as_completed

    asked_for = list(tasks)
    folder, program = str(study.folder.resolve()), study.program.program
    futures = {
        client.submit(
            _do_words,
            folder,
            program,
            str(task),
            key=f"{_job_name(study)} {task}",
            pure=False,
            retries=3,
        ): task
        for task in asked_for
    }
    for done, future in enumerate(as_completed(futures), 1):
        future.result()
        if on_done:
            on_done(futures[future], done, len(asked_for))


def _do_words(folder: str, program: str, words: str) -> int:
    """Does a task in a worker of Dask."""
    from ..pit.program import Pit

    return Tasks(Path(folder), Pit(program)).do(_task_in(words))
