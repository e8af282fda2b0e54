"""Whether this machine has what pitplan needs, and whether a small mine goes through it from the
table to a checked bundle."""
from __future__ import annotations

import importlib
import os
import platform
import shutil
import subprocess
import sys
import tempfile
import time
from collections.abc import Iterator
from dataclasses import dataclass
from itertools import product
from pathlib import Path

from .. import __version__
from ..base.errors import PlanError
from ..base.machine import free_memory, processors
from ..base.units_shown import share_text
from ..pit.program import Pit

# What is imported, and Debian's package of it.
NEEDED = {
    "numpy": "python3-numpy",
    "pandas": "python3-pandas",
    "matplotlib": "python3-matplotlib",
    "shapely": "python3-shapely",
    "typer": "python3-typer",
    "rich": "python3-rich",
    "tomlkit": "python3-tomlkit",
}
WANTED = {
    "scipy": "python3-scipy",
    "numba": "python3-numba",
    "ezdxf": "python3-ezdxf",
    "meshio": "python3-meshio",
    "geopandas": "python3-geopandas",
    "reportlab": "python3-reportlab",
    "openpyxl": "python3-openpyxl",
}
_THREE = Path("/usr/share/javascript/three")
_INSTALL = "sudo apt-get install --no-install-recommends"
_SHAPE = (5, 5, 2)  # of the small mine
# By hand: at 45 degrees the one block of ore in the middle of the lower bench has five blocks above
# it. It brings 2500 t * 1.2 % * 0.85 * 8000 = 204,000 at the full price, and costs 25,000 to treat;
# each of the six costs 6,250 to dig.
_PITS = {500: (6, "39500"), 1000: (6, "141500")}


@dataclass(frozen=True)
class Finding:
    """A line of the doctor.

    Attributes
    ----------
    kind : {"ok", "look", "MISSING", "WRONG"}
        "look" is what pitplan does without, or what may surprise.
    what : str
    try_this : str
        The command that brings what is missing.
    """

    kind: str
    what: str
    try_this: str = ""

    @property
    def is_bad(self) -> bool:
        return self.kind in ("MISSING", "WRONG")


def findings() -> Iterator[Finding]:
    """All that is looked at, one after the other; the mine is tried where nothing is missing for
    it."""
    bad = False
    for found in (*_program(), *packages(), *_machine()):
        bad = bad or found.is_bad
        yield found
    if bad:
        yield Finding("look", "the small mine wasn't tried: something is missing")
        return
    yield from _small_mine()


def _program() -> Iterator[Finding]:
    """Which `pit` and which logic, and where."""
    yield Finding(
        "ok",
        (
            f"pitplan {__version__} in {Path(__file__).resolve().parents[1]}, Python"
            f" {platform.python_version()} in {sys.executable}"
        ),
    )
    try:
        pit = Pit()
        version = pit.version()
    except PlanError as error:
        yield Finding("MISSING", error.what, error.try_this or "")
        return
    if not version or not version[0].startswith("pit "):
        yield Finding(
            "WRONG",
            f"{pit.program} doesn't answer to --version as pit does",
            "./install in the repository, or PIT=/path/to/pit",
        )
        return
    yield Finding("ok", f"{', '.join(version)}: {pit.program}")
    others = [path for path in _places("pit") if path != str(Path(pit.program).resolve())]
    if others:
        yield Finding("look", f"another pit is on the path, and isn't used: {', '.join(others)}")


def _places(name: str) -> list[str]:
    """All programs of a name on the path, each once."""
    found = [Path(folder or ".") / name for folder in os.environ.get("PATH", "").split(os.pathsep)]
    return list(
        dict.fromkeys(
            str(path.resolve()) for path in found if os.access(path, os.X_OK) and path.is_file()
        )
    )


def packages() -> Iterator[Finding]:
    """The packages that are imported, with their versions; what is missing with the command that
    brings it."""
    for names, kind in ((NEEDED, "MISSING"), (WANTED, "look")):
        there, lacking = [], []
        for name, package in names.items():
            try:
                there.append(
                    f"{name} {getattr(importlib.import_module(name), '__version__', '')}".strip()
                )
            except (
                Exception
                # a package that is there and broken is as good as none, and its own words help
            ) as error:
                lacking.append(
                    (name, package, "" if isinstance(error, ModuleNotFoundError) else f": {error}")
                )
        if there:
            yield Finding("ok", ", ".join(there))
        for name, package, why in lacking:
            yield Finding(
                kind,
                f"the Python package {name} can't be imported{why}"
                + ("" if kind == "MISSING" else "; some exports need it"),
                f"{_INSTALL} {package}",
            )
    yield (
        Finding("ok", f"three.js: {_THREE}")
        if (_THREE / "three.min.js").exists()
        else Finding("MISSING", "three.js, which draws the page", f"{_INSTALL} libjs-three")
    )


def _machine() -> Iterator[Finding]:
    """Processors and memory, as far as a container lets them be used, and room on the disk."""
    free = shutil.disk_usage(".").free
    memory = free_memory()
    yield Finding(
        "ok",
        (
            f"{processors()} processors, {memory / 1e9:.1f} GB of memory free, {free / 1e9:.0f} GB"
            " on this disk"
        ),
    )
    if memory < 1e9:
        yield Finding(
            "look", "a mine of 1,000,000 blocks takes about 1 GB for a pit", "fewer --workers"
        )
    if free < 1e9:
        yield Finding("look", "a study of 1,000,000 blocks with 20 pits takes about 1 GB")
    if not shutil.which("setpriv"):
        yield Finding(
            "look",
            "without setpriv a run isn't ended when pitplan is killed",
            f"{_INSTALL} util-linux",
        )


def _rows_of_mine() -> str:
    """A small mine: a block of ore in the middle, below barren rock."""
    nx, ny, nz = _SHAPE
    rows = ["ID,X,Y,Z,TONNES,CU,ROCK"]
    for i, j, k in product(range(nx), range(ny), range(nz)):
        is_ore = (i, j, k) == (nx // 2, ny // 2, 0)
        rock = "1.2,SUL" if is_ore else "0,WASTE"
        rows.append(f"b{i}{j}{k},{10 * i},{10 * j},{10 * k},2500,{rock}")
    return "\n".join(rows) + "\n"


def _small_mine() -> Iterator[Finding]:
    """A small mine from its table to pits, tables, a picture, the page and a bundle that is checked
    again."""
    with tempfile.TemporaryDirectory(prefix="pitplan-doctor-") as room:
        folder = Path(room)
        for what, step in (
            ("a small mine is read, priced and built", _built),
            ("its pits are found, proved and added up again", _shelled),
            ("a picture and the page are made", _pictured),
            ("a bundle is made, and recheck.py and plainly.py find that it holds", _bundled),
        ):
            began = time.time()
            try:
                step(folder)
            except (
                Exception
            ) as error:  # whatever it is, it is told, and what comes after it can't be tried
                yield Finding(
                    "WRONG",
                    f"{what}: {type(error).__name__}: {error}",
                    "tell the maintainers, with all lines of pitplan doctor",
                )
                return
            yield Finding("ok", f"{what}: {time.time() - began:.1f} s")


def _built(folder: Path) -> None:
    """The files that `pit` reads."""
    from ..study.study import Study
    from ..study.study_file import read_study_file

    (folder / "mine.csv").write_text(_rows_of_mine())
    (folder / "study.toml").write_text(
        '[model]\ntable = "mine.csv"\nsize = [10, 10, 10]\n[economics]\nmining = 2.5\nprocessing ='
        ' 10\nmetals = [ { name = "copper", grade = "CU", price = 8000, recovery = 0.85 }'
        f" ]\n[slopes]\nangles = 45\n[shells]\nfactors = {[factor / 1000 for factor in _PITS]}\n"
    )
    plan = read_study_file(folder)
    Study.create(folder, plan.read_model(), plan.economics, plan.slopes, keys=plan.digest)


def _shelled(folder: Path) -> None:
    """The pits of two factors, which are known by hand."""
    from ..study.study import Study

    for verdict in Study(folder).shells(list(_PITS), 1).with_certificates(1).verdicts:
        if (verdict["count"], verdict["worth"]) != _PITS[verdict["factor"]]:
            raise PlanError(
                f"at factor {share_text(verdict['factor'])} {verdict['count']} blocks worth"
                f" {verdict['worth']}, and by hand {_PITS[verdict['factor']]}"
            )


def _pictured(folder: Path) -> None:
    """The pit-by-pit picture, and the page."""
    from ..study.study import Study
    from ..views import page, pictures

    shells = Study(folder).shells(list(_PITS), 1)
    pictures.save(pictures.plan(shells, 0), folder / "plan.png")
    page.write(shells, folder / "page.html")


def _bundled(folder: Path) -> None:
    """A bundle, and its own check."""
    from ..study.study import Study
    from ..table.csv_text import Dialect
    from .bundle import write_bundle

    study = Study(folder)
    write_bundle(study.shells(list(_PITS), 1), folder / "bundle", folder / "study.toml", Dialect())
    words = [
        sys.executable,
        "-I",
        str(folder / "bundle" / "recheck.py"),
        "--plainly",
        study.program.program,
    ]
    ran = subprocess.run(words, stdout=subprocess.PIPE, stderr=subprocess.STDOUT, text=True)
    if ran.returncode:
        raise PlanError(
            "; ".join(
                line for line in ran.stdout.splitlines() if not line.startswith(("ok", "look"))
            )
        )
