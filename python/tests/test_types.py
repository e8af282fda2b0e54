"""The package is typed throughout, and its functions are as short as CONTRIBUTING says."""
import ast
import re
import subprocess
import sys
from pathlib import Path

PYTHON = Path(__file__).resolve().parents[1]
LINES, ARGUMENTS, COLUMNS = 60, 6, 120


def test_mypy_is_content():
    ran = subprocess.run([sys.executable, "-m", "mypy"], cwd=PYTHON, capture_output=True, text=True)
    assert ran.returncode == 0, ran.stdout


def test_black_has_laid_out_every_file():
    top = PYTHON.parent
    folders = ["python", "tools", "tests", "bench", "examples", "docs"]
    names = ["build", "release", "bin/pitplan", "tests/run", "tests/day"]
    words = ["/usr/bin/black", "--check", "--quiet", "--config", PYTHON / "pyproject.toml"]
    ran = subprocess.run([*words, *folders, *names], cwd=top)
    assert ran.returncode == 0, "black --config python/pyproject.toml " + " ".join(folders + names)


def functions():
    for path in sorted((PYTHON / "pitplan").rglob("*.py")):
        for node in ast.walk(ast.parse(path.read_text())):
            if isinstance(node, (ast.FunctionDef, ast.AsyncFunctionDef)):
                yield path, node


def length(node):
    """Lines of a function without its docstring."""
    first = node.body[0]
    has_docstring = (
        isinstance(first, ast.Expr)
        and isinstance(first.value, ast.Constant)
        and isinstance(first.value.value, str)
    )
    return (
        node.end_lineno
        - node.lineno
        + 1
        - (first.end_lineno - first.lineno + 1 if has_docstring else 0)
    )


def wide(text):
    """The numbers of the lines that are too wide and can be broken: more than one word stands there."""
    for number, line in enumerate(text.splitlines(), 1):
        if len(line) > COLUMNS and len(line.split()) > 1:
            yield number


def test_lines_are_no_wider_than_a_screen():
    """black leaves texts as wide as they are; strings one after another make one."""
    files = sorted((PYTHON / "pitplan").rglob("*.py"))
    found = {str(path.relative_to(PYTHON)): list(wide(path.read_text())) for path in files}
    assert not {name: numbers for name, numbers in found.items() if numbers}
    assert list(wide("\n".join(["a" * 120, "a " * 61, "a" * 121]))) == [2]


def test_functions_are_short():
    long = [
        f"{path.name}: {node.name} has {length(node)} lines"
        for path, node in functions()
        if length(node) > LINES
    ]
    assert not long, long


def test_functions_take_few_arguments():
    many = []
    for path, node in functions():
        if any(ast.unparse(mark).startswith("app.command") for mark in node.decorator_list):
            continue  # a command has an argument for each of its options
        words = [
            a.arg
            for a in (*node.args.posonlyargs, *node.args.args, *node.args.kwonlyargs)
            if a.arg not in ("self", "cls")
        ]
        if len(words) > ARGUMENTS:
            many.append(f"{path.name}: {node.name} has {len(words)}")
    assert not many, many


def unused(text):
    """The names that a file imports and doesn't use, but for what it hands on or loads by intent."""
    tree, lines = ast.parse(text), text.splitlines()
    used = {node.id for node in ast.walk(tree) if isinstance(node, ast.Name)}
    used |= {node.value for node in ast.walk(tree) if isinstance(node, ast.Constant)}  # __all__
    for node in ast.walk(tree):
        is_import = isinstance(node, (ast.Import, ast.ImportFrom))
        if is_import and not re.search("noqa.*F401|__future__", lines[node.lineno - 1]):
            for each in node.names:
                name = (each.asname or each.name).split(".")[0]
                if each.asname != each.name and name not in used:
                    yield name


def test_no_import_is_unused():
    folders = ("python", "tools", "tests", "bench", "examples")
    files = [path for folder in folders for path in (PYTHON.parent / folder).rglob("*.py")]
    found = {str(path): list(unused(path.read_text())) for path in files}
    assert not {name: names for name, names in found.items() if names}
    assert list(unused("import os, re as re\nfrom sys import path")) == ["os", "path"]
