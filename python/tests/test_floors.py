"""The floors of the package: a module imports from its own package and from those below it alone,
also for types. Tests keep the same folders."""
import ast
import re
from pathlib import Path

TESTS = Path(__file__).resolve().parent
PACKAGE = TESTS.parent / "pitplan"
FLOORS = (
    "base",
    "table",
    "model",
    "pit",
    "slopes",
    "study",
    "plans",
    "schedule",
    "tasks",
    "views",
    "audit",
    "desk",
    "cli",
)


def imports(path):
    """The packages that a module names in relative imports, by their floors."""
    own = path.relative_to(PACKAGE).parts[:-1]
    for node in ast.walk(ast.parse(path.read_text())):
        if isinstance(node, ast.ImportFrom) and node.level:
            above = own[: len(own) + 1 - node.level]
            names = [*above, *(node.module or "").split(".")]
            yield from [names[0]] if names[0] else [name.name for name in node.names]


def test_a_module_imports_from_its_own_floor_and_from_those_below():
    upward = [
        f"{path.relative_to(PACKAGE)} imports {name}"
        for path in sorted(PACKAGE.rglob("*/*.py"))
        for name in imports(path)
        if name in FLOORS and FLOORS.index(name) > FLOORS.index(path.relative_to(PACKAGE).parts[0])
    ]
    assert not upward, upward


def test_every_module_has_a_floor():
    here = {path.name for path in PACKAGE.iterdir()} - {"__pycache__"}
    assert here == {"__init__.py", "__main__.py", "py.typed", *FLOORS}


def listed(page):
    """The modules that the map lists, by package: those of its tables, and above these the commands."""
    lists = page.partition("## Every module")[2].partition("\n## ")[0]
    commands, *tables = lists.split("\n| `")
    found = {f"cli/{name}" for name in re.findall(r"`(\w+)`", commands)}
    for line in tables:
        name, _, rest = line.partition("`")
        if rest.partition("\n")[2].startswith("|---"):
            package = name
        else:
            found.add(f"{package}/{name}")
    return found


def test_the_map_lists_every_module_under_its_package():
    there = {path.relative_to(PACKAGE).with_suffix("") for path in PACKAGE.rglob("*/*.py")}
    modules = {path.as_posix() for path in there if path.name != "__init__"}
    found = listed((PACKAGE.parent / "README.md").read_text())
    assert modules - found == set()
    assert found - modules == {"cli/cli"}  # the package, which the sentence on commands names


def neighbours(path):
    """The modules of its own package that a module imports, or imports from."""
    for node in ast.walk(ast.parse(path.read_text())):
        if isinstance(node, ast.ImportFrom) and node.level == 1:
            yield from [node.module] if node.module else [name.name for name in node.names]


def test_no_command_imports_from_the_module_of_another():
    """What two commands need is in a module that is shared, as the map has it."""
    page = (PACKAGE.parent / "README.md").read_text()
    row = next(line for line in page.splitlines() if line.startswith("| `cli` | The"))
    shared = set(re.findall(r"`(\w+)`", row)) - {"cli"}
    modules = {path.stem: path for path in (PACKAGE / "cli").glob("*.py") if path.stem[0] != "_"}
    commands = {name for name, path in modules.items() if "\n@app.command()" in path.read_text()}
    assert set(modules) - shared == commands
    wrong = [(name, it) for name in modules for it in neighbours(modules[name]) if it in commands]
    assert not wrong, wrong


def test_no_test_imports_another():
    wrong = [
        (path.name, line)
        for path in sorted(TESTS.rglob("*.py"))
        for line in path.read_text().splitlines()
        if line.startswith(("from test_", "import test_"))
    ]
    assert not wrong, wrong


def test_tests_stand_in_the_folders_of_the_package():
    folders = {path.parent.relative_to(TESTS) for path in TESTS.rglob("*.py")}
    assert not [
        str(each) for each in folders if not (PACKAGE / each).is_dir() and each != Path("support")
    ]


def joined(text):
    """The lines of asserts that say two things."""
    for node in ast.walk(ast.parse(text)):
        if isinstance(node, ast.Assert) and isinstance(node.test, ast.BoolOp):
            if isinstance(node.test.op, ast.And):
                yield node.lineno


def test_an_assert_says_one_thing():
    wrong = [
        (path.name, line)
        for path in sorted(TESTS.rglob("*.py"))
        for line in joined(path.read_text())
    ]
    assert not wrong, wrong
    assert list(joined("assert a or b\nassert a and b")) == [2]
