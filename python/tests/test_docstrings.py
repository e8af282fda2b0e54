"""Public functions say what they do, and the examples in docstrings give what they show."""
import ast
import doctest
import importlib
from pathlib import Path

PYTHON = Path(__file__).resolve().parents[1]
FILES = sorted((PYTHON / "pitplan").rglob("*.py"))
SAYING_WHAT_THEY_RAISE = "base table model pit slopes study plans tasks views".split()
LONGEST = 4  # lines of a function that may go without a word


def public():
    """Functions of modules and methods of classes, without those within others, and without names
    that begin with _."""
    for path in FILES:
        tree = ast.parse(path.read_text())
        for owner in (tree, *(node for node in tree.body if isinstance(node, ast.ClassDef))):
            yield from (
                (path, node)
                for node in owner.body
                if isinstance(node, ast.FunctionDef) and not node.name.startswith("_")
            )


def test_public_functions_say_what_they_do():
    silent = [
        f"{path.name}: {node.name}"
        for path, node in public()
        if not ast.get_docstring(node) and node.end_lineno - node.lineno >= LONGEST
    ]
    assert not silent, silent


def raised(node):
    """Whether a function raises something new itself, not by one that stands within it."""
    return any(
        isinstance(each, ast.Raise) and each.exc is not None or raised(each)
        for each in ast.iter_child_nodes(node)
        if not isinstance(each, (ast.FunctionDef, ast.Lambda))
    )


def test_public_functions_say_what_they_raise():
    silent = [
        f"{path.name}: {node.name}"
        for path, node in public()
        if path.relative_to(PYTHON / "pitplan").parts[0] in SAYING_WHAT_THEY_RAISE
        and raised(node)
        and "Raises" not in (ast.get_docstring(node) or "")
    ]
    assert not silent, silent


def test_examples_give_what_they_show():
    ran = 0
    for path in FILES:
        if ">>> " in path.read_text():
            name = ".".join(path.relative_to(PYTHON).with_suffix("").parts)
            failed, tried = doctest.testmod(importlib.import_module(name))
            assert not failed, name
            ran += tried
    assert ran > 50
