"""Where `pit` is, and its faults in words."""
import pytest

import pitplan as pp
from mines import study_of, table
from pitplan.pit import process
from pitplan.pit.program import Files, Periodic, Pit


def test_the_program_is_found_by_its_three_ways(tmp_path, monkeypatch):
    pit = tmp_path / "pit"
    pit.write_text("#!/bin/sh\n")
    pit.chmod(0o755)
    monkeypatch.setenv("PIT", str(pit))
    assert process.found_program() == str(pit.resolve())
    monkeypatch.setenv("PIT", str(tmp_path / "none"))
    with pytest.raises(pp.PlanError, match="PIT in the environment"):
        process.found_program()
    monkeypatch.delenv("PIT")
    monkeypatch.setenv("PATH", str(tmp_path))
    assert process.found_program() == str(pit)
    monkeypatch.setenv("PATH", "/nowhere")
    monkeypatch.setattr(process, "BUILT", (tmp_path / "none", pit))
    assert process.found_program() == str(pit)
    monkeypatch.setattr(process, "BUILT", ())
    with pytest.raises(pp.PlanError, match="isn't there"):
        process.found_program()


def test_words_of_pit_reach_the_planner(tmp_path):
    study = study_of(tmp_path, table(6, 5, 4, 3))
    text = study.settings_file.read_text()
    study.settings_file.write_text(text.replace("revenue = 0", "revenue = 40"))
    with pytest.raises(pp.PlanError, match=r"pit solve ended with status 3: .*NoColumn"):
        study.run(900)


def test_a_pit_that_takes_too_long_is_ended(tmp_path):
    """Of a program that never ends by itself nothing is left, and no bound is made of it."""
    never = tmp_path / "pit"
    never.write_text("#!/bin/sh\nexec sleep 100000\n")
    never.chmod(0o755)
    pit = Pit(never)
    mine = Periodic(Files(tmp_path / "a", tmp_path / "b"), tmp_path / "u", tmp_path / "p")
    assert pit.bound(mine, tmp_path / "c", 0.01) is None
    assert not pit.running
