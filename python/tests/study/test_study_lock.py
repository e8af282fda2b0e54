"""Commands over one study take turns, and tell what they do as events."""
import fcntl
import json
import os
import signal
import time

import pytest

from mines import STUDY_TOML, table, written_study
from pitplan.base import events
from pitplan.cli.taking_turns import WRITERS
from pitplan.study import last_run, study_lock
from pitplan.base.errors import exit_status
from processes import command, gone, said

WORDS = ["pitplan", "shells", "s"]


def test_a_study_is_had_by_one_command_at_a_time(tmp_path):
    found = []
    with study_lock.turn(tmp_path, WORDS):
        assert study_lock.is_held(tmp_path).command == "pitplan shells s"
        assert study_lock.is_held(tmp_path).pid == os.getpid()
        with pytest.raises(
            study_lock.Held,
            match=r"pitplan shells s \(process \d+ on .*, of .*, since \d\d:\d\d:\d\d\) has the study",
        ) as error:
            with study_lock.turn(tmp_path, ["pitplan", "build"], waits=False, waiting=found.append):
                found.append("within")
        assert exit_status(error.value) == 4
        assert not found
    assert study_lock.is_held(tmp_path) is None
    with study_lock.turn(tmp_path, ["pitplan", "build"], waits=False, waiting=found.append):
        found.append("within")
    assert found == ["within"]


def test_what_waits_is_told_who_has_it_and_goes_on(tmp_path):
    (tmp_path / "log").mkdir()
    with open(tmp_path / "log" / "lock", "a+") as other:
        fcntl.flock(other, fcntl.LOCK_EX)
        other.write(
            json.dumps(
                {"command": "pitplan vary", "pid": 7, "host": "h", "user": "u", "since": 0.0}
            )
        )
        other.flush()
        found = []
        with study_lock.turn(
            tmp_path,
            WORDS,
            waiting=lambda who: (found.append(who), fcntl.flock(other, fcntl.LOCK_UN)),
        ):
            assert len(found) == 1
            assert found[0].startswith("pitplan vary (process 7 on h, of u, since")
            assert study_lock.is_held(tmp_path).command == "pitplan shells s"


@pytest.mark.parametrize(
    "spoil",
    [lambda folder: folder.joinpath("log").write_text("a file"), lambda folder: folder.rmdir()],
    ids=["log is a file", "no folder"],
)
def test_where_nothing_can_be_held_a_command_runs(tmp_path, spoil):
    folder = tmp_path / "s"
    folder.mkdir()
    spoil(folder)
    with study_lock.turn(folder, WORDS):
        assert study_lock.is_held(folder) is None


def test_a_process_that_is_killed_holds_nothing(tmp_path):
    folder, slow = written_study(tmp_path / "s", table(12, 10, 6, 3)), tmp_path / "pit"
    slow.write_text("#!/bin/sh\nsleep 600\n")
    slow.chmod(0o755)
    run = command("build", folder, env={**os.environ, "PIT": str(slow)})
    while not events.of_last_run(folder) and run.poll() is None:
        time.sleep(0.005)
    assert study_lock.is_held(folder).pid == run.pid
    run.send_signal(signal.SIGKILL)
    run.communicate()
    assert gone([run.pid])
    assert study_lock.is_held(folder) is None
    assert "was ended from outside at" in last_run.last_line(folder)
    assert "pitplan build" in last_run.last_line(folder)


def test_two_shells_at_once_end_well_twenty_times(tmp_path):
    folder = written_study(tmp_path / "s", table(5, 4, 3, 3))
    said("build", folder)
    runs = [command("shells", folder, "--workers", "1") for _ in range(20)]
    waited = 0
    for run in runs:
        out, faults = run.communicate(timeout=900)
        assert run.returncode == 0, faults
        assert "pit by pit" in out, faults
        waited += "waiting: pitplan shells" in faults
    assert waited >= 10  # the first few may not have met
    assert study_lock.is_held(folder) is None
    assert last_run.last_line(folder).startswith("last: pitplan shells")


def test_events_are_told_beside_the_words(tmp_path):
    folder, file = written_study(tmp_path / "s", table(5, 4, 3, 3)), tmp_path / "events"
    said("build", folder, env={**os.environ, "PITPLAN_EVENTS": str(file)})
    said("shells", folder, env={**os.environ, "PITPLAN_EVENTS": str(file)})
    found = [json.loads(line) for line in file.read_text().splitlines()]
    kinds = [event["event"] for event in found]
    assert kinds.count("begin") == kinds.count("end") == 2
    assert kinds[0] == "begin"
    assert kinds[-1] == "end"
    assert found[0]["command"][:2] == ["pitplan", "build"]
    done = [
        event["factor"] for event in found if event["event"] == "pit" and event["state"] == "done"
    ]
    assert done == [600, 1000, 1200]
    assert {event["of"] for event in found if event["event"] == "pit"} == {3}
    assert {"step", "said", "table", "look"} <= set(kinds)
    assert all(event["time"] > 0 for event in found)
    looks = [event for event in found if event["event"] == "look"]
    assert "touches the side of the model" in looks[0]["what"]
    assert "a wider model" in looks[0]["try"]
    assert [event["event"] for event in events.of_last_run(folder)] == kinds[
        kinds.index("end") + 1 :
    ]
    assert last_run.last_line(folder).startswith("last: pitplan shells")
    assert " was done at " in last_run.last_line(folder)
    assert last_run.last_line(folder) in said("status", folder)


def test_every_command_that_writes_has_the_study_that_it_names(tmp_path):
    """And not the folder that it was started in, whatever its study is called among its arguments."""
    (tmp_path / "here").mkdir()
    folder = written_study(tmp_path / "s", table(5, 4, 3, 3))
    said("build", folder)
    more = {"bundle": [tmp_path / "b"], "phases": ["0.6,1.0"], "vary": ["price=-9..9"]}
    with study_lock.turn(folder, WORDS):
        for name in WRITERS:
            run = command("--no-wait", name, folder, *more.get(name, []), cwd=tmp_path / "here")
            text = run.communicate(timeout=600)[1]
            assert run.returncode == 4, (name, text)
            assert "has the study" in text, (name, text)
    assert not list((tmp_path / "here").iterdir())


def test_a_command_that_waits_says_so_as_an_event(tmp_path):
    folder, file = written_study(tmp_path / "s", table(5, 4, 3, 3)), tmp_path / "events"
    with study_lock.turn(folder, WORDS):
        run = command("build", folder, env={**os.environ, "PITPLAN_EVENTS": str(file)})
        for _ in range(1200):
            if file.exists() and '"wait"' in file.read_text():
                break
            time.sleep(0.05)
    assert run.communicate(timeout=600)
    assert run.returncode == 0
    found = [json.loads(line) for line in file.read_text().splitlines()]
    waits = [at for at, event in enumerate(found) if event["event"] == "wait"]
    assert len(waits) == 1
    assert found[waits[0]]["what"].startswith("pitplan shells s (process")
    assert [event["event"] for event in found[: waits[0]]] == ["begin"]


def test_each_region_s_offsets_are_events(tmp_path):
    text = STUDY_TOML.replace("angles = 45", 'angles = 44\nby = "SECTOR"\nregions = { WEST = 38 }')
    folder, file = written_study(tmp_path / "s", text=text), tmp_path / "events"
    said("build", folder, env={**os.environ, "PITPLAN_EVENTS": str(file)})
    steps = [
        event["what"]
        for event in map(json.loads, file.read_text().splitlines())
        if event["event"] == "step" and " offsets " in event["what"]
    ]
    assert steps == [
        "looking for the offsets of default, 1 of 2",
        "looking for the offsets of WEST, 2 of 2",
    ]


def test_how_far_a_command_is_that_has_the_study(tmp_path):
    with study_lock.turn(tmp_path, WORDS), events.of_study(tmp_path):
        events.event("step", what="reading the table")
        assert last_run.last_line(tmp_path).startswith("now: pitplan shells s (process")
        assert last_run.last_line(tmp_path).endswith(", reading the table")
        for factor, state in ((600, "done"), (700, "solving"), (800, "proved")):
            events.event("pit", factor=factor, state=state, share=0.5, of=19)
        assert last_run.last_line(tmp_path).endswith(", 2 of 19 pits")
    assert last_run.last_line(tmp_path.parent) is None
