"""A study of twelve tasks, and a `pit` that is held in the middle of them."""
import numpy as np
import pytest

from held_pit import Held
from mines import STUDY_TOML, table, written_study
from processes import said
from realisations import grades_of


@pytest.fixture
def held(tmp_path, program):
    made = []
    yield lambda first=0: made.append(Held(tmp_path, program, first)) or made[-1]
    for one in made:
        one.let_go()


@pytest.fixture(scope="session")
def asked_for(tmp_path_factory):
    """A study for which 12 tasks are asked: its own pit, and 11 realisations."""
    folder = tmp_path_factory.mktemp("asked")
    place = written_study(
        folder / "mine", table(7, 6, 4, 3), STUDY_TOML.replace("[0.6, 1.0, 1.2]", "[1.0]")
    )
    said("build", place)
    np.save(folder / "sims.npy", grades_of(table(7, 6, 4, 3), 11))
    assert "11 realisations" in said(
        "risk", place, "--realisations", folder / "sims.npy", "--later"
    )
    return place
