"""What a bundle has of a plan by years: all that its checker reads, of the terms as they stand."""
import json

import mines
import numpy as np
import pytest

from bundles import with_schedule
from pitplan.audit import recheck
from pitplan.audit.schedule_files import OF_SCHEDULE, write_schedule
from planned import RICH

TERMS = "\n[schedule]\nyears = 4\nmining_rate = 500e3\nmill_rate = 300e3\nsink = 3\npushbacks = [0.6]\nlead = 1\n"


@pytest.fixture(scope="module")
def found(tmp_path_factory):
    """A bundle with a schedule, and that schedule."""
    return with_schedule(tmp_path_factory.mktemp("s"), mines.table(6, 5, 4, 5), RICH + TERMS)


def written(found, work, changes=()):
    """Writes it again, by terms that may be changed."""
    shells = found[1].shells
    values = {"years": 4, "mining_rate": 500e3, "mill_rate": 300e3, "sink": 3}
    values |= {"pushbacks": [0.6], "lead": 1, "per_year": 1, "when": "mid", "cutoff": "fixed"}
    (work / "tables").mkdir(parents=True)
    rates = {"mining_rate": 1e6, "mill_rate": 5e5, "discount": 0.08}
    return write_schedule(shells, work, values | dict(changes), rates)


def test_each_file_that_the_checkers_read_is_written(found, tmp_path):
    assert written(found, tmp_path / "b")
    names = {str(p.relative_to(tmp_path / "b")) for p in (tmp_path / "b").rglob("*") if p.is_file()}
    assert names == set(recheck.OF_SCHEDULE)
    for name in names:
        assert (tmp_path / "b" / name).read_bytes() == (found[0] / name).read_bytes(), name


def test_units_and_terms_are_those_of_the_schedule(found):
    made = found[1].production
    rows = np.loadtxt(found[0] / "schedule" / "units.txt", int)
    assert (rows == np.column_stack([made.blocks, made.unit])).all()
    assert json.loads((found[0] / "schedule" / "terms.json").read_text()) == {
        "sink": 3,
        "lag": 1,
        "pushbacks": [600],
        "lead": 1,
        "fixed_cost": 0,
        "npv": f"{found[1].npv:f}",
        "bound": f"{found[1].bound:f}",
    }


@pytest.mark.parametrize("change", [{"mill_rate": 290e3}, {"sink": 2}, {"years": 5}, {"lead": 0}])
def test_a_schedule_of_other_terms_is_left_out(found, tmp_path, change):
    assert not written(found, tmp_path / "b", change.items())
    assert not (tmp_path / "b" / "schedule").exists()


def test_without_a_search_there_is_nothing(tmp_path):
    study = mines.study_of(tmp_path, mines.table(6, 5, 4, 3))
    assert not write_schedule(study.shells([1000]), tmp_path / "b", {}, {})


def test_the_readme_names_what_it_has():
    for name in ("recheck_schedule.py", "schedule/", "schedule.csv", "schedule_benches.csv"):
        assert name in OF_SCHEDULE
