"""The application: its errors, and what it needs for its help."""
import os
import shutil
import subprocess

import pytest

from mines import written_study
from served import PITPLAN, pitplan


@pytest.mark.parametrize(
    "words, status, said",
    [
        (("build", "nowhere"), 3, "isn't there"),
        (("shells", "nowhere"), 3, "isn't there"),
        (("init", "nowhere.csv"), 3, "no such file"),
        (("biuld",), 2, "No such command"),
        (("shells", ".", "--workers", "0"), 2, "--workers"),
    ],
)
def test_wrong_words_and_files_have_their_status(tmp_path, words, status, said):
    ran = pitplan(*words, cwd=tmp_path)
    assert ran.returncode == status
    assert said in ran.stderr
    assert "Traceback" not in ran.stderr


def test_the_study_comes_first_and_the_order_of_earlier_versions_is_refused_by_the_new_one(
    tmp_path,
):
    study = written_study(tmp_path / "s")
    for words in (("build",), ("shells",)):
        assert pitplan(*words, study).returncode == 0
    for name, word in (("phases", "0.6,1"), ("bundle", "b")):
        old = pitplan(name, word, "s", cwd=tmp_path)
        assert old.returncode == 3, old.stderr
        assert f"the study comes first: {word} is none, and s is one" in old.stderr
        assert f"pitplan {name} s {word}\n" in old.stderr
        assert not (tmp_path / word).exists()
        new = pitplan(name, "s", word, cwd=tmp_path)
        assert new.returncode == 0, new.stderr
        here = pitplan(name, word, cwd=study)
        assert here.returncode == 0, here.stderr
        many = pitplan(name, "s", word, "third", cwd=tmp_path)
        assert many.returncode == 3
        assert "'third' is a word too many" in many.stderr
    assert (tmp_path / "b" / "recheck.py").is_file()
    assert (study / "b" / "recheck.py").is_file()


def test_help_needs_no_study_and_no_pit(tmp_path):
    ran = subprocess.run(
        [PITPLAN, "--help"],
        cwd=tmp_path,
        capture_output=True,
        text=True,
        env={**os.environ, "PIT": "/nowhere"},
    )  # no fork of the server: its own start
    assert ran.returncode == 0
    assert all(name in ran.stdout for name in ("init", "build", "shells"))


def test_ctrl_c_while_the_command_is_loaded_is_told_in_a_line(tmp_path):
    (tmp_path / "lib" / "pontihaw" / "pitplan" / "cli").mkdir(parents=True)
    (tmp_path / "lib/pontihaw/pitplan/cli/main.py").write_text("raise KeyboardInterrupt\n")
    shutil.copy(PITPLAN, tmp_path / "pitplan")
    ran = subprocess.run([str(tmp_path / "pitplan"), "shells"], capture_output=True, text=True)
    assert (ran.returncode, ran.stderr) == (130, "stopped before anything was done\n")


def test_a_missing_pit_is_told(tmp_path):
    ran = pitplan("build", written_study(tmp_path / "s"), PIT="/nowhere/pit")
    assert ran.returncode == 3
    assert "PIT in the environment" in ran.stderr
