"""Processes that tests start and look at. What `command` starts ends with its test, and with
pytest, however that ends."""
import os
import shutil
import signal
import subprocess
import time
from pathlib import Path

TOP = Path(__file__).resolve().parents[3]
STARTED = []
DIES_WITH_US = (shutil.which("setpriv") or "setpriv", "--pdeathsig", "KILL", "--")


def started(words, **more):
    """A process whose output is read as text; conftest ends it after the test."""
    more = {"stdout": subprocess.PIPE, "stderr": subprocess.PIPE, "text": True, **more}
    STARTED.append(subprocess.Popen([*DIES_WITH_US, *map(str, words)], **more))
    return STARTED[-1]


def command(*words, **more):
    """The command pitplan."""
    return started([TOP / "bin/pitplan", *words], **more)


def said(*words, **more):
    """What a command pitplan prints, and its errors; it has to be done."""
    run = command(*words, **more)
    out, faults = run.communicate(timeout=600)
    assert run.returncode == 0, (words, out, faults)
    return out


def end_started():
    """Ends what a test has left."""
    while STARTED:
        run = STARTED.pop()
        if run.poll() is None:
            run.kill()
            run.communicate()


def waited_for(path, lines, run=None, seconds=600):
    """The words of a file, once it has so many lines; fails with the words of the process that
    writes it, where that ends before."""
    for _ in range(seconds * 20):
        if path.exists() and path.read_text().count("\n") >= lines:
            return path.read_text().split()
        assert run is None or run.poll() is None, run.communicate()
        time.sleep(0.05)
    if run:
        run.kill()
    raise AssertionError((f"{path} never had {lines} lines", run and run.communicate()))


def stat(pid):
    """State, parent, .. of a process, None where there is none."""
    try:
        return Path(f"/proc/{pid}/stat").read_text().rsplit(")", 1)[1].split()
    except OSError:
        return None


def runs(pid):
    found = stat(pid)
    return found is not None and found[0] != "Z"


def gone(pids, seconds=300):
    """Whether processes end."""
    for _ in range(seconds * 20):
        if not any(map(runs, pids)):
            return True
        time.sleep(0.05)
    return False


def parent(pid):
    return int(stat(pid)[1])


def beneath(top, but=()):
    """The processes that descend from one; but not those of `but`, and what descends from them."""
    children = {}
    for path in Path("/proc").iterdir():
        found = stat(path.name) if path.name.isdigit() else None
        if found:
            children.setdefault(int(found[1]), []).append(int(path.name))
    left, found = [top], []
    while left:
        below = [pid for pid in children.get(left.pop(), []) if pid not in but]
        left += below
        found += below
    return [pid for pid in found if runs(pid)]


def kill_all(top, but=(), seconds=300):
    """Kills what descends from a process, until there is nothing of it."""
    for _ in range(seconds * 50):
        pids = beneath(top, but)
        if not pids:
            return
        for pid in pids:
            try:
                os.kill(pid, signal.SIGKILL)
            except ProcessLookupError:
                pass
        time.sleep(0.02)


SLOW = """#!/bin/sh
# pit, but a solve waits for a while before it begins
case "$1" in solve) echo $$ >> {marks}; sleep {wait};; esac
exec {pit} "$@"
"""


def slow_pit(folder, wait, pit):
    """A `pit` whose solves wait, and the file in which each leaves its number first."""
    path, marks = folder / "slow-pit", folder / "marks"
    path.write_text(SLOW.format(marks=marks, wait=wait, pit=pit))
    path.chmod(0o755)
    return path, marks
