"""Tests of folders that are there whole or not at all."""
import subprocess

import pytest

from pitplan.base.files import host, put, sweep, whole_file


def dead() -> int:
    """The number of a process that is no more."""
    ended = subprocess.Popen(["true"])
    ended.wait()
    return ended.pid


@pytest.mark.parametrize("is_new_there", [False, True])
def test_what_a_killed_process_had_moved_aside_comes_back(tmp_path, is_new_there):
    older = tmp_path / f".model.{host()}.{dead()}.0abc.old"
    older.mkdir()
    (older / "manifest.json").write_text("before")
    if is_new_there:
        (tmp_path / "model").mkdir()
        (tmp_path / "model" / "manifest.json").write_text("after")
    sweep(tmp_path, ".model.*")
    assert [path.name for path in tmp_path.iterdir()] == ["model"]
    assert (tmp_path / "model" / "manifest.json").read_text() == (
        "after" if is_new_there else "before"
    )


def test_what_a_dead_process_left_half_done_goes(tmp_path):
    half = tmp_path / f".model.{host()}.{dead()}.0abc"
    half.mkdir()
    sweep(tmp_path, ".model.*")
    assert not half.exists()


def test_what_a_process_of_another_machine_has_half_done_stays(tmp_path):
    """Whether it still runs isn't known here, on a disk that machines share."""
    half = tmp_path / f".model.elsewhere.{dead()}.0abc"
    half.mkdir()
    sweep(tmp_path, ".model.*")
    assert half.exists()


def test_a_folder_comes_in_place_of_another(tmp_path):
    work, place = tmp_path / ".model.x.1.a", tmp_path / "model"
    for folder, text in ((work, "after"), (place, "before")):
        folder.mkdir()
        (folder / "f").write_text(text)
    put(work, place)
    assert (place / "f").read_text() == "after"
    assert list(tmp_path.iterdir()) == [place]


def test_a_file_that_fails_leaves_the_older_one(tmp_path):
    (tmp_path / "x").write_text("older")
    with pytest.raises(ZeroDivisionError):
        with whole_file(tmp_path / "x") as part:
            part.write_text("half")
            1 / 0
    assert (tmp_path / "x").read_text() == "older"
    assert [p.name for p in tmp_path.iterdir()] == ["x"]
