"""Where the tests find the package and the program, and how many examples hypothesis tries."""
import os
import signal
import sys
from pathlib import Path

import pytest
from hypothesis import HealthCheck, settings

HERE = Path(__file__).resolve().parent
sys.path.insert(0, str(HERE.parent))
sys.path.insert(0, str(HERE / "support"))

# Begun in the background of a script, tests ignore ctrl-C, and so would each process that they start and stop by it.
signal.signal(signal.SIGINT, signal.default_int_handler)

settings.register_profile(
    "gate",
    max_examples=int(os.environ.get("EXAMPLES", "12")),
    deadline=None,
    derandomize=True,
    suppress_health_check=list(HealthCheck),
)
settings.load_profile("gate")

# The files that take longest come first, so that none of them is left to one processor at the end.
LONGEST = (
    "views/test_page.py",
    "cli/test_help_texts.py",
    "cli/test_planning_md.py",
    "tasks/test_clusters.py",
    "audit/test_bundle.py",
    "plans/test_risk.py",
)


@pytest.hookimpl(tryfirst=True)
def pytest_runtest_setup(item):
    """Tables of processes are as wide as off a terminal: readline, which a debugger loads, sets a
    width that processes inherit, and that os.environ doesn't show."""
    for name in ("COLUMNS", "LINES"):
        os.environ.pop(name, None)
        os.unsetenv(name)


def pytest_collection_modifyitems(items):
    items.sort(key=lambda item: not item.path.as_posix().endswith(LONGEST))


@pytest.fixture(scope="session", autouse=True)
def program():
    """Every test needs `pit`: PIT, or the one on the path, or the repository's own build."""
    from pitplan.pit.process import found_program

    os.environ["PIT"] = found_program()
    return os.environ["PIT"]


@pytest.fixture(autouse=True)
def no_process_is_left():
    """Ends what a test has started, also where it fails."""
    yield
    from processes import end_started

    end_started()


@pytest.fixture
def small_disks(tmp_path):
    """A keeper whose own processes alone see the small disks that it mounts."""
    from keeper import Keeper

    if os.geteuid() != 0:
        pytest.skip("only root mounts a small disk")
    with Keeper(tmp_path / "keeper") as keeper:
        if not keeper.mounts:
            pytest.skip("this container mounts nothing")
        yield keeper
