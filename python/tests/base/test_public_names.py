"""What a package shows at its door: the same names to mypy, to `dir()` and to whoever imports it."""
import ast
import importlib
import subprocess
import sys
from pathlib import Path

import pytest

import pitplan

PYTHON = Path(__file__).resolve().parents[2]
PACKAGES = sorted(path.parent for path in (PYTHON / "pitplan").rglob("__init__.py"))
CLIENT = """import pitplan as pp
from pitplan.views.export import dxf

def value(folder: str) -> float:
    study = pp.Study(folder)
    shells: pp.Shells = study.shells(pp.factors(0.5, 1.0, 0.25))
    pp.plot.save(pp.plot.plan(shells, 100.0), "plan.png")
    pp.page.write(shells, "pits.html", shells.table())
    dxf.write(shells, "pits.dxf")
    return len(shells.factors)

reveal_type(pp.Study("x"))
reveal_type(pp.read_table)
pp.Stduy
"""


def test_mypy_knows_what_a_client_uses(tmp_path):
    """A name that isn't there is an error, and none is `Any`."""
    (tmp_path / "client.py").write_text(CLIENT)
    words = [sys.executable, "-m", "mypy", "--strict", "--config-file", PYTHON / "mypy.ini"]
    ran = subprocess.run(
        [*words, "--cache-dir", PYTHON / ".mypy_cache", tmp_path / "client.py"],
        cwd=PYTHON,
        capture_output=True,
        text=True,
    )
    found = [line.split(": ", 1)[1] for line in ran.stdout.splitlines() if "client.py:" in line]
    assert found[0] == 'note: Revealed type is "pitplan.study.study.Study"'
    assert found[1].endswith('-> pitplan.model.model.Model"')
    assert found[2].startswith('error: Module has no attribute "Stduy"')
    assert len(found) == 3


def at_the_door(package):
    """The names that a package imports for types, and where from."""
    for node in ast.parse((package / "__init__.py").read_text()).body:
        if isinstance(node, ast.If):
            for each in node.body:
                yield from (
                    (name.asname or name.name, each.module, name.name) for name in each.names
                )


@pytest.mark.parametrize("package", PACKAGES, ids=lambda path: path.name)
def test_the_names_for_types_are_those_at_run_time(package):
    name = ".".join(package.relative_to(PYTHON).parts)
    module = importlib.import_module(name)
    typed = list(at_the_door(package))
    assert sorted(it[0] for it in typed) == getattr(module, "__all__", [])
    assert {it[0] for it in typed} <= set(dir(module))
    for shown, home, own in typed:
        there = importlib.import_module(f"{name}.{home}" if home else name)
        assert getattr(module, shown) is getattr(there, own)


def test_a_name_that_is_not_there_is_an_error():
    with pytest.raises(AttributeError, match="module 'pitplan' has no attribute 'Stduy'"):
        pitplan.Stduy


def test_nothing_is_loaded_before_it_is_asked_for():
    code = "import sys; import pitplan; dir(pitplan); print('numpy' in sys.modules); pitplan.Study; print('numpy' in sys.modules)"
    ran = subprocess.run([sys.executable, "-c", code], cwd=PYTHON, capture_output=True, text=True)
    assert ran.stdout.split() == ["False", "True"], ran.stderr
