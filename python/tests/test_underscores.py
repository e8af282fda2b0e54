"""A name of a module that nothing else uses, and that isn't public, begins with an underscore."""
import ast
import re
import sys
from collections import defaultdict
from pathlib import Path

import pytest

TOP = Path(__file__).resolve().parents[2]
PACKAGE = TOP / "python" / "pitplan"
sys.path.insert(0, str(TOP / "tools"))

from manual import REFERENCE  # noqa: E402

PROGRAMS = {"recheck", "plainly", "recheck_schedule"}  # of one file, which an auditor runs
PARTICIPLES = ("asked", "found", "given", "said", "told")  # which say nothing of what is held
USERS = ("python", "tools", "tests", "bench", "examples", "docs")


def used(tree, has_strings):
    """Pairs of a module's last name and a name of it; a string's words are names of any module."""
    called = {}
    for node in ast.walk(tree):
        if isinstance(node, (ast.Import, ast.ImportFrom)):
            home = getattr(node, "module", None) or ""
            for each in node.names:
                called[each.asname or each.name] = each.name.rpartition(".")[2]
                yield home.rpartition(".")[2], each.name
    for node in ast.walk(tree):
        if isinstance(node, ast.Attribute):
            home = ast.unparse(node.value)
            yield called.get(home, home.rpartition(".")[2]), node.attr
        elif has_strings and isinstance(node, ast.Constant) and isinstance(node.value, str):
            if "pitplan" in node.value or re.fullmatch(r"[\w ]+", node.value):
                yield from (("", word) for word in re.findall(r"\w+", node.value))


def defined(body):
    """The names that a module defines, each with its statement."""
    for node in body:
        if isinstance(node, (ast.FunctionDef, ast.ClassDef)):
            yield node.name, node
        elif isinstance(node, (ast.Assign, ast.AnnAssign)):
            for target in getattr(node, "targets", None) or [node.target]:
                for part in ast.walk(target):
                    if isinstance(part, ast.Name) and isinstance(part.ctx, ast.Store):
                        yield part.id, node


def is_public(module, name, node):
    """Whether a name is a command's, or one that the manual shows."""
    is_command = any(
        ast.unparse(mark).startswith("app.") for mark in getattr(node, "decorator_list", ())
    )
    is_shown = isinstance(node, (ast.FunctionDef, ast.ClassDef)) and ast.get_docstring(node)
    return name.startswith("__") or is_command or (module in REFERENCE and is_shown)


def lonely(trees):
    """The names of modules of the package, without an underscore, that none of the other files uses."""
    users = {}
    for path, tree in trees.items():
        has_strings = not path.is_relative_to(PACKAGE) or path.stem == "__init__"
        for pair in used(tree, has_strings):
            users.setdefault(pair, set()).add(path)
    for path, tree in trees.items():
        if not path.is_relative_to(PACKAGE) or path.stem in PROGRAMS:
            continue
        module = ".".join(path.relative_to(PACKAGE).with_suffix("").parts)
        for name, node in defined(tree.body):
            others = users.get((path.stem, name), set()) | users.get(("", name), set())
            if (
                not name.startswith("_")
                and not others - {path}
                and not is_public(module, name, node)
            ):
                yield f"{module}.{name}"


@pytest.fixture(scope="module")
def trees():
    """Every file of Python, read."""
    files = [path for folder in USERS for path in sorted((TOP / folder).rglob("*.py"))]
    return {path: ast.parse(path.read_text()) for path in files}


def test_a_name_that_its_own_module_alone_uses_has_an_underscore(trees):
    assert not list(lonely(trees))


def test_a_name_without_one_is_seen(trees):
    path = PACKAGE / "base" / "narrow_tables.py"
    more = ast.parse(path.read_text() + "SPARE = 3\ndef left_over(): ...\n")
    assert list(lonely({**trees, path: more})) == [
        "base.narrow_tables.SPARE",
        "base.narrow_tables.left_over",
    ]


def parameters():
    """The parameters of the package that have a type, each with its file and the type as it stands."""
    for path in PACKAGE.rglob("*.py"):
        for node in ast.walk(ast.parse(path.read_text())):
            if isinstance(node, ast.arg) and node.annotation:
                yield path, node.arg, ast.unparse(node.annotation)


def test_a_parameter_is_named_after_what_it_is():
    """`found` says nothing where its type has a name of its own."""
    wrong = []
    for path, name, of in parameters():
        own = ("Any", "Mapping", name.capitalize())
        if name in PARTICIPLES and of[:1].isupper() and re.match(r"\w+", of)[0] not in own:
            wrong.append(f"{path.name}: {name}: {of}")
    assert wrong == []


def types():
    """The types of the parameters of a name, by the name."""
    found = defaultdict(set)
    for _, name, of in parameters():
        found[name].add(of)
    return found


def test_a_participle_is_a_parameter_of_two_types_at_most():
    """What holds anything that was asked for, found, given, said or told is named after that."""
    assert {name: of for name, of in types().items() if name in PARTICIPLES and len(of) > 2} == {}


def test_a_parameter_s_name_is_of_few_types():
    """A name that may be anything says nothing; twelve types are as many as rich has for one."""
    assert {name: len(of) for name, of in types().items() if len(of) > 12} == {}
