"""How many processors and how much memory a process may use."""
import os
import re

import pytest

from pitplan.base import machine

TWO = "0::/system.slice/slurmstepd.scope/job_7/step_0\n"
ONE = "11:memory:/slurm/uid_0/job_7\n5:cpu,cpuacct:/slurm/uid_0/job_7\n0::/init.scope\n"
JOB, STEP, OLD = (
    "system.slice/slurmstepd.scope/job_7",
    "system.slice/slurmstepd.scope/job_7/step_0",
    "slurm/uid_0/job_7",
)
LIMITS = [
    ("", {}, 8, 64),
    (TWO, {"cpu.max": "max 100000", "memory.max": "max"}, 8, 64),
    (TWO, {"cpu.max": "250000 100000", "memory.max": "9"}, 2, 9),
    (TWO, {f"{STEP}/cpu.max": "50000 100000"}, 1, 64),
    (
        TWO,
        {
            f"{JOB}/memory.max": "16",
            f"{JOB}/memory.stat": "anon 3\nfile 12\nshmem 1",
            f"{JOB}/cpu.max": "300000 100000",
            f"{STEP}/memory.max": "max",
        },
        3,
        12,
    ),  # a job within a node
    (
        TWO,
        {f"{JOB}/memory.max": "max", f"{STEP}/memory.high": "20", f"{STEP}/memory.current": "20"},
        8,
        20,
    ),  # what is taken are pages of files
    (
        TWO,
        {"system.slice/other/memory.max": "1", "system.slice/other/cpu.max": "100000 100000"},
        8,
        64,
    ),
    (
        ONE,
        {
            f"memory/{OLD}/memory.limit_in_bytes": "10",
            f"memory/{OLD}/memory.stat": "cache 9\ntotal_cache 9\ntotal_rss 4",
            f"cpu/{OLD}/cpu.cfs_quota_us": "400000",
            f"cpu/{OLD}/cpu.cfs_period_us": "100000",
        },
        4,
        6,
    ),
    (
        ONE,
        {
            "memory/slurm/memory.limit_in_bytes": "30",
            f"memory/{OLD}/memory.limit_in_bytes": "50",
            "cpu/cpu.cfs_quota_us": "-1",
            "cpu/cpu.cfs_period_us": "100000",
        },
        8,
        30,
    ),
    (ONE, {"unified/init.scope/memory.max": "7"}, 8, 7),
    ("4:memory:/docker/ab\n", {"memory/memory.limit_in_bytes": "5"}, 8, 5),
]


def groups_of(tmp_path, own, files):
    """A tree of control groups, with the file that says which is this process's; amounts of memory
    in gigabytes."""
    groups = tmp_path / "groups"
    for name, text in files.items():
        (groups / name).parent.mkdir(parents=True, exist_ok=True)
        (groups / name).write_text(
            (
                text
                if "cpu." in name
                else re.sub(r"\d+$", lambda found: found[0] + "0" * 9, text, flags=re.M)
            )
            + "\n"
        )
    (tmp_path / "own").write_text(own)
    return groups


@pytest.mark.parametrize("own, files, count, free", LIMITS)
def test_processors_and_memory_are_those_of_the_process(
    tmp_path, monkeypatch, own, files, count, free
):
    """By its own control group and those above it, of either version; of memory the machine has 64
    gigabytes."""
    groups = groups_of(tmp_path, own, files)
    (tmp_path / "meminfo").write_text("MemTotal: 99 kB\nMemAvailable:   62500000 kB\n")
    monkeypatch.setattr(os, "sched_getaffinity", lambda process: set(range(8)))
    assert machine.processors(groups, tmp_path / "own") == count
    assert machine.free_memory(groups, tmp_path / "own", tmp_path / "meminfo") == free * 10**9
    assert (
        machine.free_memory(groups / "none", tmp_path / "none", tmp_path / "none")
        == machine.UNKNOWN
    )


@pytest.mark.parametrize(
    "own, files, whole",
    [
        ("", {}, 64),
        (TWO, {f"{JOB}/memory.max": "16", f"{JOB}/memory.stat": "anon 3\nshmem 1"}, 16),
        (TWO, {"memory.max": "90", f"{STEP}/memory.high": "20"}, 20),
        (ONE, {f"memory/{OLD}/memory.limit_in_bytes": "10"}, 10),
        (TWO, {"memory.max": "90"}, 64),
    ],
)
def test_the_whole_memory_is_that_of_the_machine_or_of_a_group(tmp_path, own, files, whole):
    """Whatever of it is taken."""
    groups = groups_of(tmp_path, own, files)
    (tmp_path / "meminfo").write_text("MemTotal:   62500000 kB\nMemAvailable: 9 kB\n")
    assert machine.whole_memory(groups, tmp_path / "own", tmp_path / "meminfo") == whole * 10**9
