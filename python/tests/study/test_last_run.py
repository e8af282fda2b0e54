"""What the last command of a study did, as it is kept."""
import json
import os

from mines import written_study
from pitplan.study import last_run
from processes import command


def test_an_error_is_an_event_with_its_key_and_line(tmp_path):
    folder, file = written_study(tmp_path / "s"), tmp_path / "events"
    (folder / "study.toml").write_text(
        (folder / "study.toml").read_text().replace("mining = 2.0", "minning = 2.0")
    )
    run = command("build", folder, env={**os.environ, "PITPLAN_EVENTS": str(file)})
    run.communicate(timeout=600)
    found = [json.loads(line) for line in file.read_text().splitlines()]
    wrong = [event for event in found if event["event"] == "error"]
    assert [(event["key"], event["line"]) for event in wrong] == [
        (["economics", "minning"], 6),
        (["economics", "mining"], 5),
    ]
    assert found[-1] == {**found[-1], "event": "end", "status": 3}
    assert "ended with status 3 at" in last_run.last_line(folder)
    assert "has no key 'minning'" in last_run.last_line(folder)


def test_how_long_a_command_took_is_told(tmp_path, monkeypatch):
    begun = {"event": "begin", "command": ["pitplan", "build", "s"], "time": 1000.0}
    ended = {"event": "end", "status": 0, "time": 1090.4}
    monkeypatch.setattr(last_run, "of_last_run", lambda folder: [begun, ended])
    line = last_run.last_line(tmp_path)
    assert line.startswith("last: pitplan build s was done at ")
    assert line.endswith(", after 90 s")
