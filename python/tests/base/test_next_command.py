"""Commands within messages: as a shell takes them, and as this program was called."""
import os
import shlex
import subprocess
from pathlib import Path

import pytest

from pitplan.base import next_command
from pitplan.base.next_command import command, remember

TYPED = next_command._TYPED


@pytest.fixture(autouse=True)
def unremembered(monkeypatch):
    monkeypatch.setenv(TYPED, "")  # so that it is put back as it was, for the tests that follow
    monkeypatch.delenv(TYPED)


@pytest.mark.parametrize(
    "words",
    [("my mine", "price=-20..20"), ("it's", "$HOME", "a;b"), ("-x", "*", '"'), ("a\nb", "~")],
)
def test_a_shell_hands_on_each_word_as_it_is(words):
    text = command("vary", *words)
    assert text.startswith("pitplan vary ")
    line = "printf '%s\\0' " + text.removeprefix("pitplan ")
    said = subprocess.run(["sh", "-c", line], capture_output=True, text=True, check=True)
    assert said.stdout.split("\0")[:-1] == ["vary", *words]


def test_this_folder_needs_no_word():
    assert command("build") == command("build", ".") == command("build", Path()) == "pitplan build"
    assert command("build", "..") == "pitplan build .."


def test_a_program_that_the_path_leads_to_is_called_by_its_name(tmp_path, monkeypatch):
    for folder in ("on", "off"):
        (tmp_path / folder).mkdir()
        (tmp_path / folder / "pitplan").write_text("#!/bin/sh\n")
        (tmp_path / folder / "pitplan").chmod(0o755)
    monkeypatch.setenv("PATH", str(tmp_path / "on"))
    remember(str(tmp_path / "on" / "pitplan"))
    assert command("build") == "pitplan build"
    remember(str(tmp_path / "off" / "other"))
    assert TYPED not in os.environ
    away = str(tmp_path / "off" / "pitplan")
    remember(away)
    assert command("build", "s") == shlex.join([away, "build", "s"])
    remember(str(tmp_path / "third" / "pitplan"))  # a process that this one starts keeps its word
    assert command("build").startswith(away)
