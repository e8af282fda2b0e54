"""What somebody has changed in a study's results is never lost."""
import os
import shutil

import pytest
from pitplan.base.files import whole_file
from pitplan.study import older_outputs


def written(folder, texts, model="m"):
    """Writes files as a command does, and gives what it tells."""
    told = []
    older_outputs.watch(folder, model, told.append)
    for name, text in texts.items():
        with whole_file(folder / name) as part:
            part.write_text(text)
    older_outputs.note()
    return told


def texts_of(folder):
    return {
        path.relative_to(folder).as_posix(): path.read_text()
        for path in folder.rglob("*")
        if path.is_file() and path.name != ".written.json"
    }


def test_what_was_changed_is_put_aside_before_it_is_written_over(tmp_path):
    """Each time under a name of its own, in folders too; and it is told."""
    both = {"a.csv": "1", "d/b.csv": "1"}
    assert written(tmp_path, both) == []
    assert written(tmp_path, dict.fromkeys(both, "2")) == []
    assert texts_of(tmp_path) == dict.fromkeys(both, "2")
    for name in both:
        (tmp_path / name).write_text("mine")
    place = f"{tmp_path}/older has what isn't as pitplan wrote it: "
    assert written(tmp_path, dict.fromkeys(both, "3")) == [
        f"{place}changed/a.csv",
        f"{place}changed/d/b.csv",
    ]
    (tmp_path / "a.csv").write_text("mine again")
    assert written(tmp_path, {"a.csv": "4"}) == [f"{place}changed-2/a.csv"]
    assert texts_of(tmp_path) == {
        "a.csv": "4",
        "d/b.csv": "3",
        "older/changed/a.csv": "mine",
        "older/changed/d/b.csv": "mine",
        "older/changed-2/a.csv": "mine again",
    }


def test_a_file_of_the_planner_s_own_is_put_aside_too(tmp_path):
    """It has a name that pitplan writes, and isn't noted."""
    (tmp_path / "a.csv").write_text("mine")
    assert len(written(tmp_path, {"a.csv": "1"})) == 1
    assert texts_of(tmp_path) == {"a.csv": "1", "older/changed/a.csv": "mine"}


def test_what_is_written_twice_and_what_has_the_same_isn_t_put_aside(tmp_path):
    """As where a command writes a file at its stop and at its end, or a study was copied."""
    told = []
    older_outputs.watch(tmp_path, "m", told.append)
    for text in "12":
        with whole_file(tmp_path / "a.csv") as part:
            part.write_text(text)
    older_outputs.note()
    os.utime(tmp_path / "a.csv", (1, 1))
    assert told + written(tmp_path, {"a.csv": "2"}) == []
    assert texts_of(tmp_path) == {"a.csv": "2"}


def test_what_has_the_bytes_that_were_noted_is_no_change_after_a_copy(tmp_path):
    """A copy has other times. What was changed in it is put aside all the same."""
    assert written(tmp_path / "s", {"a.csv": "1", "b.csv": "1", "c.csv": "1"}) == []
    copy = shutil.copytree(tmp_path / "s", tmp_path / "copy", copy_function=shutil.copyfile)
    for path in copy.glob("*.csv"):
        os.utime(path, ns=(1, 1))
    (copy / "b.csv").write_text("2")
    assert written(copy, {"a.csv": "3"}) == []
    assert older_outputs.set_aside(copy, {"n"}) == (["a.csv", "c.csv"], ["changed/b.csv"])
    assert texts_of(copy) == {"older/a.csv": "3", "older/c.csv": "1", "older/changed/b.csv": "2"}


def test_a_file_that_can_t_be_put_aside_isn_t_written_over(tmp_path):
    (tmp_path / "a.csv").write_text("mine")
    (tmp_path / "older").write_text("a file in the place of the folder")
    with pytest.raises(OSError):
        written(tmp_path, {"a.csv": "1"})
    older_outputs.note()
    assert (tmp_path / "a.csv").read_text() == "mine"


def test_what_is_older_and_changed_is_put_apart_from_what_is_older(tmp_path):
    """The next one that is older goes in place of the one before; what was changed stays."""
    for text in "12":
        written(tmp_path, {"a.csv": text, "b.csv": text})
        (tmp_path / "b.csv").write_text(f"mine {text}")
        place = "changed" if text == "1" else "changed-2"
        assert older_outputs.set_aside(tmp_path, {"n"}) == (["a.csv"], [f"{place}/b.csv"])
    assert texts_of(tmp_path) == {
        "older/a.csv": "2",
        "older/changed/b.csv": "mine 1",
        "older/changed-2/b.csv": "mine 2",
    }
