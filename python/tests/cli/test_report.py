"""The command `report`."""
from mines import written_study
from processes import command, said


def test_a_study_without_pits_is_told(tmp_path):
    folder = written_study(tmp_path / "s")
    said("build", folder)
    run = command("report", folder)
    _, faults = run.communicate(timeout=600)
    assert run.returncode == 3
    assert "3 of 3 pits haven't been run" in faults
