"""Tests tools/gate_seconds.py: what the gate costs, of made-up seconds and of processes that only look like the kit's."""
import subprocess
import sys
import tempfile
import time
from pathlib import Path

import gate_seconds

BUSY = "import time\nwhile time.process_time() < 1.5: pass"


def costs(proof, edits=0.0):
    return {"proof": proof, "tests": 0.0, "edits": edits, "by function": 0.0}


def is_in_the_budgets_seconds():
    """Where the reference takes twice its seconds, each second is half of one of the budget's."""
    each = 2 * gate_seconds.REFERENCE_SECONDS / len(gate_seconds.REFERENCE)
    seconds = {crate: costs(each) for crate in gate_seconds.REFERENCE}
    seconds["another"] = costs(200.0, 58.0)
    lines = gate_seconds.summary(seconds, 60.0)
    return (
        lines[0] == "cost of the kit's part: 1000 processor seconds, 60 s by the clock"
        and lines[1]
        == "in the budget's seconds, 2.00 of these each: 500 (proof 471, tests 0, edits 29, by function 0)"
        and lines[2].startswith("the costliest: another 129, ")
    )


def is_silent_where_the_speed_is_unknown():
    seconds = {crate: costs(100.0) for crate in gate_seconds.REFERENCE[1:]}
    return "aren't known" in gate_seconds.summary(seconds, 60.0)[-1]


def are_processes_counted():
    """A busy process below this one is counted, for the crate that it names and the kind that its folder says."""
    words = [sys.executable, "-c", BUSY, "--crate-name", "upit_file"]
    with tempfile.TemporaryDirectory(
        prefix="pit-edit-"
    ) as folder, gate_seconds.Watcher() as watcher:
        edit = subprocess.Popen(words, cwd=folder)
        tests = subprocess.Popen([*words, "--test"], cwd=Path(folder).parent)
        edit.wait()
        tests.wait()
        time.sleep(0.6)
    found = watcher.table()["upit_file"]
    return all(0.5 < found[kind] < 5 for kind in ("by function", "tests")) and not found["proof"]


def test(_top):
    """How many tests passed and failed."""
    failed = 0
    tests = is_in_the_budgets_seconds, is_silent_where_the_speed_is_unknown, are_processes_counted
    for each in tests:
        if not each():
            failed += 1
            print("tools/gate_seconds.py: " + each.__name__.replace("_", " ") + ": no")
    return len(tests) - failed, failed
