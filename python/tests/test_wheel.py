"""The wheel of pitplan is installed beside Debian's packages, and what it installs works without
this repository."""
import os
import subprocess
import sys
import zipfile
from pathlib import Path

import pytest

TOP = Path(__file__).resolve().parents[2]
sys.path.insert(0, str(TOP / "tools"))

import planner_packages  # noqa: E402


@pytest.fixture(scope="module")
def wheel(tmp_path_factory):
    folder = tmp_path_factory.mktemp("wheel")
    name, data = planner_packages.wheel(1_700_000_000, folder)
    (folder / name).write_bytes(data)
    return folder / name


@pytest.fixture(scope="module")
def installed(wheel, tmp_path_factory):
    """A folder with the wheel, over the packages of the system."""
    folder = tmp_path_factory.mktemp("installed")
    subprocess.run(
        ["/usr/bin/python3", "-m", "venv", "--system-site-packages", "--without-pip", folder],
        check=True,
    )
    ran = subprocess.run(
        [
            "/usr/bin/python3",
            "-m",
            "pip",
            "--python",
            folder / "bin" / "python",
            "install",
            "--no-index",
            "--no-compile",
            "--disable-pip-version-check",
            wheel,
        ],
        capture_output=True,
        text=True,
    )
    assert ran.returncode == 0, ran.stdout + ran.stderr
    return folder


def said(folder, *words, **around):
    ran = subprocess.run(
        [folder / "bin" / "pitplan", *words],
        capture_output=True,
        text=True,
        cwd="/",
        env={**os.environ, **around},
    )
    return ran.returncode, ran.stdout


def test_it_holds_the_package_and_nothing_else(wheel):
    with zipfile.ZipFile(wheel) as held:
        names = {name for name in held.namelist() if ".dist-info/" not in name}
    there = {
        path.relative_to(TOP / "python").as_posix()
        for path in (TOP / "python" / "pitplan").rglob("*")
        if path.is_file() and path.parent.name != "__pycache__"
    }
    assert names == there
    assert "pitplan/views/page.html" in names


def test_it_works_where_it_is_installed(installed):
    from pitplan import __version__

    assert said(installed, "--version") == (0, f"pitplan {__version__}\n")
    status, text = said(installed, "doctor")
    assert status == 0, text
    assert f"in {installed}/lib" in text, text
    assert text.endswith("all is well\n"), text
    status, text = said(
        installed, _PITPLAN_COMPLETE="complete_bash", COMP_WORDS="pitplan she", COMP_CWORD="1"
    )
    assert text.split() == ["shells"], text
