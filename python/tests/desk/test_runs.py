"""Runs: they outlive the desk, hold the study's lock, are found again by their process, and are
stopped as by ctrl-C."""
import json
import os
import signal
import subprocess
import sys
import time
import tomllib

import pytest

from mines import written_study
from pitplan.base import events
from pitplan.base.files import host, write_json
from pitplan.desk import runs
from pitplan.desk.runs import Wanted
from pitplan.study import study_lock
from processes import TOP, gone, said

SLOW = """#!/bin/sh
# pit, but a series waits before it begins
case "$1" in shells) echo $$ >> {marks}; sleep 60;; esac
exec {pit} "$@"
"""
BUILD, PITS = Wanted("build", [["build", "s"]], "Ana"), Wanted("shells", [["shells", "s"]], "Ana")


@pytest.fixture
def study(tmp_path):
    return written_study(tmp_path / "s")


@pytest.fixture
def slow(study, tmp_path, monkeypatch):
    """A study that is built, whose pits take long; the file has a line once they are looked for."""
    said("build", study)
    path, marks = tmp_path / "slow-pit", tmp_path / "marks"
    path.write_text(SLOW.format(marks=marks, pit=os.environ["PIT"]))
    path.chmod(0o755)
    monkeypatch.setenv("PIT", str(path))
    yield marks
    for run in runs.of(study):
        if run["state"] == "running":
            os.killpg(run["pid"], signal.SIGKILL)


def waited_for(study, *states, seconds=600):
    end = time.time() + seconds
    while runs.of(study)[0]["state"] not in states:
        log = (runs.of(study)[0]["folder"] / "log").read_text()
        assert time.time() < end, (runs.of(study)[0], log)
        time.sleep(0.05)
    return runs.of(study)[0]


def begun(marks, seconds=600):
    end = time.time() + seconds
    while not marks.exists() or not marks.read_text():
        assert time.time() < end
        time.sleep(0.05)


def free(study, seconds=300):
    """Whether nobody has the study any more: the run's process ends a moment after its last word."""
    end = time.time() + seconds
    while study_lock.is_held(study) and time.time() < end:
        time.sleep(0.05)
    return study_lock.is_held(study) is None


def events_of(run):
    return events.read_on(run["folder"] / "events.jsonl")[0]


def test_a_run_does_its_commands_and_leaves_what_they_said(study, tmp_path):
    number = runs.start(tmp_path, study, Wanted("all", [["build", "s"], ["shells", "s"]], "Ana"))
    run = waited_for(study, "done")
    assert (run["number"], run["status"], run["who"], run["at"]) == (number, 0, "Ana", 2)
    assert run["typed"] == ["pitplan build s", "pitplan shells s"]
    text = (run["folder"] / "log").read_text()
    assert (
        text.index("$ pitplan build s") < text.index("built in s") < text.index("$ pitplan shells")
    )
    found = events_of(run)
    assert [e["command"] for e in found if e["event"] == "begin"] == [
        ["pitplan", "build", "s"],
        ["pitplan", "shells", "s"],
    ]
    assert sum(e["event"] == "pit" for e in found) > 0
    assert found[-1] == {**found[-1], "status": 0}
    assert (run["folder"] / "study.toml").read_bytes() == (study / "study.toml").read_bytes()
    assert (study / "out" / "pit_by_pit.csv").exists()


def test_a_run_reads_nothing_outside_of_the_desks_folder(tmp_path):
    study = written_study(tmp_path / "in" / "s")
    text = (study / "study.toml").read_text()
    table = tomllib.loads(text)["model"]["table"]
    (study / table).rename(tmp_path / "away.csv")
    (study / "study.toml").write_text(text.replace(table, "../../away.csv"))
    runs.start(tmp_path / "in", study, BUILD)
    run = waited_for(study, "failed", "done")
    assert run["state"] == "failed"
    assert "lies outside of" in (run["folder"] / "log").read_text()


def test_events_are_told_on_from_where_they_were_read(study, tmp_path):
    runs.start(tmp_path, study, BUILD)
    run, found, place = waited_for(study, "done"), [], 0
    path = run["folder"] / "events.jsonl"
    whole = path.read_bytes()
    for end in (10, len(whole) // 2, len(whole)):  # cut off within a line, as one is written
        path.write_bytes(whole[:end])
        new, place = events.read_on(path, place)
        found += new
    assert found == [json.loads(line) for line in whole.splitlines()]


def test_a_run_that_fails_says_so_and_the_rest_is_left(study, tmp_path):
    text = (study / "study.toml").read_text()
    (study / "study.toml").write_text(text.replace("mining = ", "minig = "))
    runs.start(tmp_path, study, Wanted("all", [["build", "s"], ["shells", "s"]]))
    run = waited_for(study, "failed")
    assert run["status"] == 3
    assert run["at"] == 1
    errors = [e for e in events_of(run) if e["event"] == "error"]
    assert ["economics", "minig"] in [e["key"] for e in errors]
    assert (
        errors[0]["line"]
        == text.splitlines().index(
            next(line for line in text.splitlines() if line.startswith("mining = "))
        )
        + 1
    )


def test_one_run_at_a_time_which_holds_the_studys_own_lock(study, tmp_path, slow):
    runs.start(tmp_path, study, Wanted("all", [["shells", "s"], ["page", "s"]], "Ana"))
    begun(slow)
    run = runs.of(study)[0]
    assert run["state"] == "running"
    holder = study_lock.is_held(study)
    assert holder.command == "pitplan shells s; pitplan page s"
    assert holder.pid == run["pid"]
    with pytest.raises(study_lock.Held, match="pitplan shells s; pitplan page s"):
        runs.start(tmp_path, study, BUILD)
    busy = subprocess.run(
        [TOP / "bin/pitplan", "--no-wait", "plot", study], capture_output=True, text=True
    )
    assert busy.returncode == 4
    assert "has the study" in busy.stderr
    assert [each["number"] for each in runs.of(study)] == [1]
    assert runs.stop(run)
    assert waited_for(study, "stopped")["status"] == 130
    assert free(study)
    assert not runs.stop(runs.of(study)[0])
    assert gone([int(pid) for pid in slow.read_text().split()])


def test_a_run_that_is_killed_is_no_run_that_goes_on(study, tmp_path, slow):
    runs.start(tmp_path, study, PITS)
    begun(slow)
    os.killpg(runs.of(study)[0]["pid"], signal.SIGKILL)
    assert waited_for(study, "killed")["status"] is None
    assert free(study)


STARTER = """import sys; sys.path.insert(0, {python!r})
from pathlib import Path
from pitplan.desk.runs import Wanted, start
start(Path({root!r}), Path({study!r}), Wanted("shells", [["shells", "s"]], "Ana"))
"""


def test_a_run_outlives_who_started_it_and_is_found_again(study, tmp_path, slow):
    code = STARTER.format(python=str(TOP / "python"), root=str(tmp_path), study=str(study))
    subprocess.run([sys.executable, "-c", code], check=True)
    begun(slow)
    run = runs.of(study)[0]
    assert run["state"] == "running"
    assert run["who"] == "Ana"
    with pytest.raises(study_lock.Held):
        runs.start(tmp_path, study, BUILD)
    assert runs.stop(run)
    waited_for(study, "stopped")


def test_a_number_that_another_process_has_now_is_not_the_run(study, tmp_path, slow):
    runs.start(tmp_path, study, PITS)
    begun(slow)
    run = runs.of(study)[0]
    os.killpg(run["pid"], signal.SIGKILL)
    waited_for(study, "killed")
    mine = {"pid": os.getpid(), "host": host()}
    write_json(run["folder"] / "process.json", {**mine, "since": run["since"]})
    assert runs.of(study)[0]["state"] == "killed"
    assert not runs.stop(runs.of(study)[0])
    write_json(run["folder"] / "process.json", {**mine, "since": runs.since(os.getpid())})
    assert runs.of(study)[0]["state"] == "running"
    write_json(run["folder"] / "process.json", {**mine, "host": "other", "since": "x"})
    assert runs.of(study)[0]["state"] == "runs on other"
    assert not runs.stop(runs.of(study)[0])
    write_json(run["folder"] / "process.json", {**mine, "since": run["since"]})


def test_a_design_that_breaks_the_slopes_is_no_failure():
    assert runs.is_done(1, ["compare", "s"])
    assert not runs.is_done(1, ["shells", "s"])
    assert not runs.is_done(3, ["compare", "s"])


ON_A_FULL_DISK = """import sys; sys.path.insert(0, {python!r})
import os, subprocess, time
from pathlib import Path
from starlette.applications import Starlette
from starlette.testclient import TestClient
from pitplan.desk.folder import Folder
from pitplan.desk.guard import Guard
from pitplan.desk import routes, runs
root = Path({root!r})
study = root / "s"
desk = routes.Desk(Folder(root), 10**9)
app = Guard(Starlette(routes=desk.routes()), "t", {{"d": "http://d"}}, "c")
client = TestClient(app, base_url="http://d")
client.headers["origin"] = "http://d"
client.cookies.set("c", "t")
def fill():
    with open(root / "ballast", "ab", buffering=0) as file:
        try:
            while file.write(b"x" * 4096): pass
        except OSError: pass
before = (study / "study.toml").read_bytes()
client.post("/api/studies/s/runs", json={{"what": "build"}})     # begun with room, ends without
fill()
while runs.of(study)[0]["state"] == "running":
    fill()  # what the run gives back, so that its end has no room either
    time.sleep(.02)
fill()
change = {{"path": ["economics", "currency"], "value": "USD"}}
for told in (
    client.patch("/api/studies/s", json={{"changes": [change]}}),
    client.put("/api/tables/new.csv", content=b"x" * 9000),
    client.post("/api/studies/s/runs", json={{"what": "build"}}),
):
    print(told.status_code, told.json()["errors"][0]["said"])
print(runs.of(study)[0]["state"], len(runs.of(study)))
print(before == (study / "study.toml").read_bytes(), sorted(it.name for it in root.iterdir()))
os.remove(root / "ballast")
print(client.patch("/api/studies/s", json={{"changes": [change]}}).status_code)
desk.end()
"""


def test_a_full_disk_is_told_and_loses_nothing(tmp_path, small_disks):
    root = tmp_path / "small"
    small_disks.mount(root, 400)
    source = written_study(tmp_path / "s")
    small_disks.done("cp", "-r", source, root / "s")
    code = ON_A_FULL_DISK.format(python=str(TOP / "python"), root=str(root))
    text = small_disks.done(sys.executable, "-c", code, env=dict(os.environ)).splitlines()
    assert [line.split()[0] for line in text[:3]] == ["507", "507", "507"], text
    undone = ("study.toml wasn't written", "new.csv wasn't written", "the run wasn't begun")
    kept = "No space left on device; what was there before is kept"
    assert [line[4:] for line in text[:3]] == [f"{what}: {kept}" for what in undone], text
    assert text[3] in (
        "failed 1",
        "done 1",
    ), text  # its end is known, though nothing can be written
    assert text[4] == "True ['ballast', 's']", text
    assert text[5] == "200", text
