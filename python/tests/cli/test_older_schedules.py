"""Exports and reports that show a schedule are put aside once another one is found."""
import json
import shutil
import signal
import subprocess
import sys

import mines
import pytest
from pitplan.study import older_outputs
from planned import PITPLAN, RICH, TERMS, built, run

SHOW = {"years.csv", "report.xlsx", "schedule.csv", "schedule_benches.csv", "schedule_t.csv"}


def files(out):
    return {
        path.relative_to(out).as_posix(): path.read_bytes()
        for path in out.rglob("*")
        if path.is_file() and not path.name.startswith(".")
    }


@pytest.fixture(scope="module")
def study(tmp_path_factory):
    folder = built(tmp_path_factory.mktemp("s") / "s", TERMS, RICH, mines.table(6, 6, 4, 4))
    run("schedule", folder, "--gap", "2")
    run("export", folder, "--to", "csv")
    run("export", folder, "--schedule", "--to", "csv")
    run("report", folder, "--xlsx")
    return folder


def test_what_shows_the_schedule_before_goes_to_older(study):
    """What shows pits alone stays; what somebody has changed is told apart, and isn't lost; the same
    schedule moves nothing."""
    out = study / "out"
    again = run("schedule", study, "--gap", "2")
    assert "schedule before" not in again
    assert not (out / "older").exists()
    (out / "schedule_benches.csv").write_text("mine\n")
    (out / "years.csv").write_text("a word of mine\n" + (out / "years.csv").read_text())
    before = files(out)
    assert SHOW | {"shells.csv", "pit_by_pit.csv"} <= set(before)
    text = (study / "study.toml").read_text()
    (study / "study.toml").write_text(text.replace("mill_rate = 400e3", "mill_rate = 300e3"))
    words = [sys.executable, PITPLAN, "schedule", study, "--gap", "2"]
    ran = subprocess.run(words, capture_output=True, text=True)
    assert ran.returncode == 0, ran.stderr
    assert "has what was written of the schedule before: " in ran.stdout
    found = ran.stdout.split("schedule before: ")[1].split("\n")[0].split(", ")
    assert {"report.xlsx", "schedule.csv", "schedule.html"} <= set(found)
    kept = "of the schedule before: changed/schedule_benches.csv, changed/years.csv\n"
    assert f"{out}/older has what isn't as pitplan wrote it, {kept}" in ran.stderr
    after = files(out)
    for name in ("schedule_benches.csv", "years.csv"):
        assert after[f"older/changed/{name}"] == before[name]
    assert after["schedule_benches.csv"] != before["schedule_benches.csv"]
    for name in found:
        assert after[f"older/{name}"] == before[name]
    assert "report.xlsx" not in after
    for name in ("shells.csv", "pit_by_pit.csv"):
        assert after[name] == before[name]


def test_what_the_same_schedule_writes_over(study):
    """A table that somebody has changed is kept also where the schedule is the one that it was of."""
    out = study / "out"
    run("schedule", study, "--gap", "2")
    kept = "mine\n" + (out / "schedule.csv").read_text()
    (out / "schedule.csv").write_text(kept)
    words = [sys.executable, PITPLAN, "schedule", study, "--gap", "2"]
    ran = subprocess.run(words, capture_output=True, text=True)
    assert f"{out}/older has what isn't as pitplan wrote it: changed/schedule.csv\n" in ran.stderr
    assert (out / "older/changed/schedule.csv").read_text() == kept
    assert "mine\n" + (out / "schedule.csv").read_text() == kept


def test_notes_of_an_older_version_have_no_schedule(tmp_path):
    """They stay good: nothing is moved for a schedule, and what is of another model is."""
    (tmp_path / "a.csv").write_text("1")
    status = (tmp_path / "a.csv").stat()
    (tmp_path / ".written.json").write_text(
        f'{{"a.csv": ["m", {status.st_size}, {status.st_mtime_ns}]}}'
    )
    assert older_outputs.set_schedules_aside(tmp_path, "s") == ([], [])
    assert older_outputs.set_aside(tmp_path, {"m"}) == ([], [])
    assert older_outputs.set_aside(tmp_path, {"n"}) == (["a.csv"], [])


def stopped(folder):
    """`schedule` in a process that is stopped by ctrl-C once it has a schedule and a bound."""
    words = [sys.executable, PITPLAN, "schedule", folder, "--gap", "0"]
    begun = subprocess.Popen(words, stdout=subprocess.PIPE, stderr=subprocess.PIPE, text=True)
    for line in begun.stderr:
        if line.startswith("schedules in the order of that plan"):
            break
    begun.send_signal(signal.SIGINT)
    said, told = begun.communicate()
    assert begun.returncode == 130, told
    return said, told


def test_a_search_that_was_stopped_leaves_one_plan(tmp_path):
    """At other terms what is shown is of the plan that schedule.json has; what shows the one before
    is put aside by ctrl-C, and by an export where the search was killed."""
    folder = built(tmp_path / "s", TERMS, RICH, mines.table(6, 6, 4, 4))
    out, text = folder / "out", (folder / "study.toml").read_text()
    run("schedule", folder, "--gap", "2")
    run("export", folder, "--schedule", "--to", "csv")
    before = files(out)
    older = {name for name in before if name.startswith("schedule")} | {"years.csv"}
    assert SHOW - {"report.xlsx"} <= older
    (folder / "study.toml").write_text(text.replace("mill_rate = 400e3", "mill_rate = 300e3"))
    said, told = stopped(folder)
    assert f"pitplan schedule {folder} --minutes 0" in " ".join(told.split())
    assert "has what was written of the schedule before: " in said
    after = files(out)
    assert {name for name in after if "schedule" in name or "years" in name} == {
        "schedule.json",
        *(f"older/{name}" for name in older),
    }
    assert all(after[f"older/{name}"] == before[name] for name in older)
    facts = json.loads(after["schedule.json"])
    run("schedule", folder, "--minutes", "0", "--gap", "0")
    assert json.loads((out / "schedule.json").read_text())["npv"] == facts["npv"]
    shutil.copytree(folder / "runs/schedule", tmp_path / "kept")
    (folder / "study.toml").write_text(text)
    run("schedule", folder, "--gap", "2")
    shutil.rmtree(folder / "runs/schedule")  # as where a search at the other terms was killed
    shutil.copytree(tmp_path / "kept", folder / "runs/schedule")
    (folder / "study.toml").write_text(text.replace("mill_rate = 400e3", "mill_rate = 300e3"))
    assert "of the schedule before: " in run("export", folder, "--schedule", "--to", "csv")
    names = {path.name for path in out.iterdir()}
    assert "years.csv" in names
    assert not {name for name in names if name.startswith("schedule")}
