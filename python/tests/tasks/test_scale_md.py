"""docs/SCALE.md shows what bench/scale.py prints, and its text names no other figure; the simulated
cluster, by cases that are worked out by hand."""
import re
import subprocess
import sys
from dataclasses import replace

import pytest

from processes import TOP

sys.path.append(str(TOP / "bench"))  # after python, since bench has a pitplan.py too
from simulated_cluster import Cluster, Work, simulated  # noqa: E402

PAGE = TOP / "docs" / "SCALE.md"
KNOWN = {
    "64": "GB of a node",
    "16": "cores of a node",
    "10,000,000": "blocks",
    "1,000,000": "blocks",
    "50,000": "blocks",
    "500,000": "blocks",
    "2,000,000": "blocks",
    "2^27": "pairs",
    "134,217,728": "2^27",
    **dict.fromkeys(("1,123", "398", "127"), "units of three small mines"),
    **dict.fromkeys(("0.02", "0.55", "3.65"), "percent that no search of them can close"),
    **dict.fromkeys(("0.10", "8.1", "10.4", "0.17", "0.08", "1.64"), "percent below their bounds"),
    **dict.fromkeys(("0.03", "0.31", "0.43"), "percent, of one kind of step"),
    **dict.fromkeys(("0.003", "0.062"), "percent, by what whole blocks fill"),
    **dict.fromkeys(("456", "456.9"), "blocks that a year's mill has room for"),
    **dict.fromkeys(("0.24", "0.11", "0.39"), "percent, of pits of a year alone"),
    "4,123": "blocks of one body",
    **dict.fromkeys(("80.0", "93.9"), "million dollars of a first year, by bench/reach.py"),
    **dict.fromkeys(("0.196", "0.198", "0.475", "173", "2.773"), "of other runs"),
    **dict.fromkeys(("360", "3,600"), "processor seconds of two processors"),
    **dict.fromkeys(("2.7", "2.3", "0.7", "250"), "processor seconds and MB of one richest pit"),
    "2026": "a year",
}


def test_the_page_shows_what_the_script_prints():
    printed = subprocess.run(
        [str(TOP / "bench/scale.py")], stdout=subprocess.PIPE, text=True, check=True
    ).stdout
    text = PAGE.read_text()
    shown = [line[4:] for line in text.splitlines() if line.startswith("    ")]
    assert shown == [line for line in printed.splitlines() if line]
    found = {
        number.rstrip(",")
        for line in text.splitlines()
        if not line.startswith("    ")
        for number in re.findall(
            r"(?<![\w.^-])\d[\d,]*\.?\d*(?![\w^])", re.sub(r"`[^`]*`", "", line)
        )
    }
    strange = sorted(
        number
        for number in found
        if len(number.rstrip(".")) > 2
        and number.rstrip(".") not in printed
        and number.rstrip(".") not in KNOWN
    )
    assert not strange, strange


ONE = Cluster(nodes=1, cores=2, memory_mb=30, system_mb=0, disk_mb_s=10, slower=1)
WORK = Work(
    tasks=1,
    pits=2,
    begin_s=10,
    pit_s=5,
    asked_mb=10,
    held_mb=5,
    files_mb=20,
    own_mb=0,
    pit_mb=15,
    kept_mb=1,
)


def seconds(work, cluster, dies_at=None):
    return simulated(work, cluster, dies_at).hours * 3600


def test_a_task_reads_and_then_computes():
    assert seconds(WORK, ONE) == pytest.approx(2 + 10 + 2 * 5, abs=1)
    assert seconds(WORK, replace(ONE, slower=2)) == pytest.approx(2 + 2 * 20, abs=1)
    assert simulated(WORK, ONE).disk_gb == pytest.approx(0.02 + 0.002)


def test_a_node_that_keeps_no_files_reads_them_for_each_pit():
    for cluster in (
        replace(ONE, keeps=False),
        replace(ONE, memory_mb=29),
    ):  # two tasks hold 10 of 29: no room for 20 beside them
        assert seconds(WORK, cluster) == pytest.approx(2 + 20 + 1.5, abs=1.5)
        assert simulated(WORK, cluster).disk_gb == pytest.approx(0.02 + 0.015 + 0.002)


def test_as_many_at_once_as_cores_and_memory_have_room_for():
    four = replace(WORK, tasks=4)
    assert [
        simulated(four, cluster).at_once
        for cluster in (
            ONE,
            replace(ONE, memory_mb=15),
            replace(ONE, nodes=3),
            replace(ONE, cores=1),
        )
    ] == [2, 1, 6, 1]
    assert seconds(four, ONE) == pytest.approx(20 + 20 + 2, abs=2)
    assert seconds(four, replace(ONE, cores=1)) == pytest.approx(80 + 2, abs=2)
    with pytest.raises(ValueError):
        simulated(replace(WORK, asked_mb=31), ONE)


def test_a_node_that_dies_costs_the_pits_that_were_half_found():
    out = simulated(
        replace(WORK, tasks=2), replace(ONE, nodes=2, cores=1), dies_at=21
    )  # at 21 of 24 seconds each has found a pit
    assert out.lost_pits == 1
    assert out.hours * 3600 == pytest.approx(21 + 120 + 10 + 5, abs=2)
