"""What a report says of pits and pictures, before it is a file."""
import re

import pytest

import pitplan as pp
from pitplan.study.study_file import read_study_file
from pitplan.views.report import gathered
from pitplan.views.report.contents import proved_of


def test_pictures_are_titled_by_what_they_show(reported):
    folder, _ = reported
    plan = read_study_file(folder)
    found = gathered(pp.Shells(pp.Study(folder), plan.factors), plan)
    titles = [figure.axes[0].get_title() for _, figure in found.pictures[:3]]
    assert not any("t.csv" in title for title in titles)
    for title, begins in zip(titles, ("Pit by pit: ore, waste", "Bench ", "Section at northing ")):
        assert title.startswith(begins)


class Pits(list):
    """Pits of which some have a certificate."""

    def __init__(self, count, certified):
        super().__init__(range(count))
        self.certified = certified


@pytest.mark.parametrize(
    "count, certified, begins",
    [
        (3, 0, "3 pits are as pit shells states them, "),
        (3, 1, "1 pit has a certificate that pit check has accepted, 2 pits are as pit shells "),
        (
            3,
            2,
            "2 pits have a certificate that pit check has accepted, 1 pit is as pit shells states it, ",
        ),
        (3, 3, "3 pits have a certificate that pit check has accepted: each "),
        (1, 1, "1 pit has a certificate that pit check has accepted: each "),
    ],
)
def test_the_cover_tells_of_all_pits(count, certified, begins):
    """The first of what is proved, which the cover has, counts every pit once."""
    (first, *_) = proved_of(Pits(count, certified))
    assert first.startswith(begins)
    assert first.endswith("is worth more at its factor.")
    assert sum(map(int, re.findall(r"(\d+) pits?", first))) == count
