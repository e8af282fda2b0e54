"""What is kept of a search, damaged."""
import gzip
import json
import shutil
import subprocess
import sys

import pytest

from pitplan import PlanError, Study
from pitplan.base.kept_json import Damaged
from pitplan.pit.program import Pit
from pitplan.schedule import Schedule
from pitplan.study.study_file import read_study_file
from planned import PITPLAN, built, run, scheduled


WITHIN = (0.05, 600)  # it ends once the gap is at most 5 %, on a busy machine too


@pytest.fixture(scope="module")
def study(tmp_path_factory):
    folder = built(tmp_path_factory.mktemp("kept") / "s")
    scheduled(folder, WITHIN)
    return folder


@pytest.fixture
def kept(study, tmp_path):
    """What is kept, which is put back after a test."""
    place = study / "runs" / "schedule"
    shutil.copytree(place, tmp_path / "kept")
    yield place
    shutil.rmtree(place)
    shutil.copytree(tmp_path / "kept", place)


def test_what_is_damaged_is_told(study, kept):
    path = kept / "bound" / "bound.json"
    path.write_text(path.read_text().replace('"closures": ', '"closures": -'))
    with pytest.raises(PlanError, match="bound.json is damaged: closures") as told:
        scheduled(study)
    assert told.value.try_this == f"rm -r {path.parent}: the next search finds a bound anew"
    path.unlink()
    with pytest.raises(PlanError, match="bound.json is gone"):
        scheduled(study)
    shutil.rmtree(path.parent)
    assert scheduled(study, WITHIN).closures >= 1


def last_of(study):
    plan = read_study_file(study)
    return Schedule.last(Study(study).shells(plan.factors), plan.values["schedule"], plan.rates)


@pytest.mark.parametrize(
    "change", [{"multipliers": [[0] * 5 + [10**6], [0] * 6]}, {"said": "0" * 64}]
)
def test_a_bound_that_pit_says_otherwise_is_told_by_its_folder(study, kept, change):
    path = kept / "bound" / "bound.json"
    path.write_text(json.dumps(json.loads(path.read_text()) | change))
    with pytest.raises(Damaged, match="isn't a bound any more: pit schedule") as told:
        last_of(study)
    assert told.value.try_this == f"rm -r {path.parent}: the next search finds a bound anew"


def flipped(data, at):
    return data[:at] + bytes([data[at] ^ 1]) + data[at + 1 :]


@pytest.mark.parametrize(
    "damage",
    [
        lambda data: flipped(data, len(data) - 6),
        lambda data: data[:300] + b"\xff" * 60 + data[360:],
        lambda data: data[: len(data) // 2],
        lambda data: b"",
        lambda data: gzip.compress(b"another one"),
        None,
    ],
    ids=["a bit of the sum", "60 bytes", "cut", "empty", "another", "gone"],
)
@pytest.mark.parametrize("name", ["bound/bound.cert.gz", "schedule.npz"])
def test_a_damaged_file_is_told_by_its_name(study, kept, name, damage):
    """Each way, and with what to do, which then does; nothing is lost in silence."""
    path = kept / name
    if damage:
        path.write_bytes(damage(path.read_bytes()))
    else:
        path.unlink()
    with pytest.raises(PlanError, match=f"{name} is {'damaged: ' if damage else 'gone'}") as told:
        scheduled(study, (0.05, 5))
    what = told.value.try_this.split(": the next search ")[0].split()
    is_schedule = damage and name == "schedule.npz"
    assert what == ["rm", "-r", str(kept / "bound"), *[str(path)] * bool(is_schedule)]
    if damage is None or not path.read_bytes():
        subprocess.run(what, check=True)
        assert scheduled(study, WITHIN).gap < 5


def test_status_tells_a_schedule_that_is_gone_as_the_search_does(study, kept):
    (kept / "schedule.npz").unlink()
    with pytest.raises(PlanError) as told:
        scheduled(study, (0.05, 5))
    said = " ".join(run("status", study).split())
    assert f"plan by years: none: {told.value.said} try: {told.value.try_this}" in said


def test_what_a_killed_search_leaves_is_swept_away(study, kept, monkeypatch):
    """By the next one; folders of processes that are still there stay."""
    shutil.rmtree(kept)
    words = [sys.executable, PITPLAN, "schedule", study, "--gap", "0"]
    begun = subprocess.Popen(words, stdout=subprocess.DEVNULL, stderr=subprocess.PIPE, text=True)
    for line in begun.stderr:
        if line.startswith("the bound: pit proves one"):
            break
    (alive,) = kept.glob(".closures.*")
    begun.kill()
    begun.communicate()
    assert alive.is_dir()
    names, own = [], Pit.schedule

    def judging(*args):
        names.extend(path.name for path in kept.glob(".judged.*"))
        return own(*args)

    monkeypatch.setattr(Pit, "schedule", judging)
    scheduled(study, (0.05, 5))
    assert not list(kept.glob(".closures.*"))
    host, number = alive.name.split(".")[2:4]
    assert number == str(begun.pid)
    (kept / f".judged.{host}.{number}.x").mkdir()
    (kept / f".judged.{host}.1.x").mkdir()
    scheduled(study, (0.05, 5))
    assert {path.name for path in kept.glob(".*.*")} == {f".judged.{host}.1.x"}
    assert all(name.startswith(f".judged.{host}.") and name.count(".") == 4 for name in names)


@pytest.mark.parametrize("name", ["partition", "swaps"])
@pytest.mark.parametrize("damage", [b"", b"no archive"])
def test_what_is_made_anew_is_told_in_a_line(study, kept, name, damage):
    """The search goes on without it, and the same command over what it has made says nothing."""
    (kept / f"{name}.npz").write_bytes(damage)
    words = [sys.executable, PITPLAN, "schedule", study, "--gap", "0", "--minutes", "0.05"]
    ran = subprocess.run(words, capture_output=True, text=True)
    assert ran.returncode == 0, ran.stderr
    lines = [line for line in ran.stderr.splitlines() if "damaged" in line]
    assert len(lines) == 1, ran.stderr
    assert lines[0].startswith(f"{kept}/{name}.npz is damaged: ")
    assert "; the search goes on without it, and makes it anew" in lines[0]
