"""The command `bundle`: which scripts it names, and what it says where the plan by years isn't in it."""
from types import SimpleNamespace

import pytest

from pitplan.audit import bundle as bundles
from pitplan.cli import bundle as command
from pitplan.cli import chosen_pits


@pytest.fixture
def made(monkeypatch, tmp_path):
    """What is written of a study of three pits, with a plan by years or without."""
    folder = tmp_path / "s"
    (folder / "runs" / "schedule").mkdir(parents=True)
    keys = SimpleNamespace(dialect=lambda table: "commas")
    plan = SimpleNamespace(keys=keys, table="t.csv", path="study.toml", values={"schedule": {}})

    class Pits:
        study = SimpleNamespace(folder=folder)

        def __len__(self):
            return 3

    monkeypatch.setattr(command, "described", lambda folder: plan)
    monkeypatch.setattr(command, "shells_of", lambda folder: (Pits(), {}))
    monkeypatch.setattr(chosen_pits, "with_certificates", lambda shells: shells)

    def made(has_plan):
        def write(shells, target, *more):
            assert more == ("study.toml", "commas", {}, {})
            target.mkdir()
            if has_plan:
                (target / "schedule").mkdir()
            return "0123"

        monkeypatch.setattr(bundles, "write_bundle", write)
        return folder

    return made


def test_both_scripts_are_named(made, tmp_path, capsys):
    folder, target = made(True), tmp_path / "b"
    command.bundle([str(folder), str(target)])
    said = " ".join(capsys.readouterr().out.split())
    assert f"{target}: 3 proved pits" in said
    assert f"python3 {target}/recheck.py PIT checks it again" in said
    assert f"python3 {target}/recheck_schedule.py checks it again" in said
    assert said.endswith("sha256 of SHA256SUMS is 0123")


@pytest.mark.parametrize("was_found", [False, True])
def test_a_plan_that_was_found_and_is_not_in_it_is_told(made, tmp_path, capsys, was_found):
    folder = made(False)
    if was_found:
        (folder / "runs" / "schedule" / "schedule.npz").touch()
    command.bundle([str(folder), str(tmp_path / "b")])
    said = capsys.readouterr()
    assert "recheck_schedule.py" not in said.out
    assert ("the plan by years isn't in it" in said.err) == was_found
