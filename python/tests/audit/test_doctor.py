"""The doctor says what is here, and names the command that brings what is missing."""
import os
import stat
import subprocess
import sys
from pathlib import Path

import pytest

from pitplan.audit import doctor
from pitplan.pit import process
from pitplan.base.errors import PlanError

TOP = Path(__file__).resolve().parents[3]


def run(**environment):
    ran = subprocess.run(
        [str(TOP / "bin" / "pitplan"), "doctor"],
        capture_output=True,
        text=True,
        env={**os.environ, **environment},
    )
    assert "Traceback" not in ran.stderr, ran.stderr
    return ran


def test_all_is_well_here():
    ran = run()
    assert ran.returncode == 0, ran.stdout
    version = subprocess.run(
        [os.environ["PIT"], "--version"], capture_output=True, text=True
    ).stdout.split("\n")
    assert ", ".join(line for line in version if line) in ran.stdout
    assert "\nall is well\n" in ran.stdout
    for step in (
        "read, priced and built",
        "proved and added up",
        "a picture and the page",
        "a bundle is made",
    ):
        assert step in ran.stdout


def test_a_program_that_is_not_there_is_told_with_what_to_do():
    ran = run(PIT="/nowhere/pit")
    assert ran.returncode == 1
    assert "MISSING PIT in the environment is '/nowhere/pit'" in ran.stdout
    assert "the small mine wasn't tried" in ran.stdout


def script(path, text):
    path.parent.mkdir(exist_ok=True)
    path.write_text("#!/bin/sh\n" + text)
    path.chmod(path.stat().st_mode | stat.S_IXUSR)
    return str(path)


def test_a_pit_beside_the_command_is_found_where_none_is_on_the_path(tmp_path, monkeypatch):
    beside, on_path = script(tmp_path / "bin" / "pit", ""), script(tmp_path / "other" / "pit", "")
    monkeypatch.delenv("PIT")
    monkeypatch.setattr(sys, "argv", [str(tmp_path / "bin" / "pitplan")])
    monkeypatch.setattr(process, "BUILT", ())
    monkeypatch.setenv("PATH", str(tmp_path / "other"))
    assert process.found_program() == on_path
    monkeypatch.setenv("PATH", str(tmp_path))
    assert process.found_program() == beside
    Path(beside).unlink()
    with pytest.raises(PlanError, match="the program pit isn't there"):
        process.found_program()


def test_another_program_of_this_name_is_told(tmp_path):
    ran = run(PIT=script(tmp_path / "pit", "echo a hole in the ground\n"))
    assert ran.returncode == 1
    assert "doesn't answer to --version as pit does" in ran.stdout


def test_a_pit_that_answers_wrongly_is_told(tmp_path):
    liar = f'if [ "$1" = check ]; then cat >/dev/null; echo "ACCEPTED 6 141501"; else exec {os.environ["PIT"]} "$@"; fi\n'
    ran = run(PIT=script(tmp_path / "pit", liar))
    assert ran.returncode == 1
    assert "WRONG   its pits are found" in ran.stdout
    assert "tell the maintainers" in ran.stdout


@pytest.mark.parametrize("name, kind", [("matplotlib", "MISSING"), ("ezdxf", "look")])
def test_a_package_that_is_missing_is_named_with_its_command(monkeypatch, name, kind):
    monkeypatch.setitem(sys.modules, name, None)
    lines = list(doctor.packages())
    found = [line for line in lines if f"the Python package {name} can't be imported" in line.what]
    assert len(found) == 1
    assert found[0].kind == kind
    assert found[0].try_this == f"sudo apt-get install --no-install-recommends python3-{name}"


def test_what_it_looks_for_is_what_is_installed():
    """Each package that python/packages lists for pitplan itself is one that the doctor looks for,
    and each that it needs is listed."""
    listed = (TOP / "python" / "packages").read_text().split("# its tests")[0]
    names = {line.strip() for line in listed.splitlines() if line.startswith("python3-")}
    assert set(doctor.NEEDED.values()) <= names
    assert names <= {*doctor.NEEDED.values(), *doctor.WANTED.values()}
