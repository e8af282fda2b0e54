"""Modules that are loaded when something of them is used."""
import subprocess

import pytest

from pitplan.base import lazy_modules
from processes import TOP

LOADED = """import sys
sys.path.insert(0, {!r})
sys.argv = ["pitplan", {!r}]
from pitplan.cli.main import main
try:
    main()
except SystemExit:
    print(*(name for name in ("numpy", "pandas.core", "typer.rich_utils", "rich.markdown") if "__file__" in vars(sys.modules.get(name, object))))
"""


def test_a_command_loads_what_it_needs():
    """What help and errors look like, and pandas, wait until somebody asks for them."""
    for word, loaded in (("--version", ""), ("--help", "typer.rich_utils rich.markdown")):
        ran = subprocess.run(
            ["/usr/bin/python3", "-I", "-c", LOADED.format(str(TOP / "python"), word)],
            capture_output=True,
            text=True,
        )
        assert ran.stdout.splitlines()[-1] == loaded, ran.stdout + ran.stderr


def test_ctrl_c_while_a_module_is_loaded_is_no_other_error(tmp_path, monkeypatch):
    """A handler names an error of the module, which asks for the module again."""
    (tmp_path / "slow_module.py").write_text("raise KeyboardInterrupt\n")
    monkeypatch.syspath_prepend(str(tmp_path))
    lazy_modules.lazily("slow_module")
    import slow_module

    for _ in range(2):
        with pytest.raises(KeyboardInterrupt):
            try:
                slow_module.read()
            except slow_module.Error:
                pass
