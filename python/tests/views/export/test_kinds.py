"""Each kind of file that `export` writes has a module that writes it, and the command takes no other."""
import importlib
import inspect

import pytest

from pitplan.views.export.kinds import KINDS, MINELIB


@pytest.mark.parametrize("kind", KINDS)
def test_each_kind_has_a_writer(kind):
    module = importlib.import_module(f"pitplan.views.export.{kind}")
    assert inspect.isfunction(module.write)


def test_the_model_alone_is_one_of_them_and_none_comes_twice():
    assert MINELIB in KINDS
    assert len(set(KINDS)) == len(KINDS)
