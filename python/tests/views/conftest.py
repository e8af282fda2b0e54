"""A schedule for the tests of its pictures and of its view on the page."""
import mines
import pytest
from pitplan import Study
from pitplan.schedule import Schedule
from pitplan.study.study_file import read_study_file

TERMS = """
[schedule]
mining_rate = [600e3, 500e3]
mill_rate = 400e3
"""


@pytest.fixture(scope="session")
def found(tmp_path_factory):
    """The schedule of a hill, found to one percent."""
    folder = mines.written_study(
        tmp_path_factory.mktemp("pictures") / "s",
        mines.table(9, 8, 5, 5),
        mines.STUDY_TOML.replace("price = 8500", "price = 24000") + TERMS,
    )
    plan = read_study_file(folder)
    Study.create(folder, plan.read_model(), plan.economics, plan.slopes)
    shells = Study(folder).shells(plan.factors)
    return Schedule.of(shells, plan.values["schedule"], plan.rates, (0.01, 600))
