"""A study with two regions of slopes, straight and turned, whose pits are there."""
import pytest

import pitplan as pp
from mines import study_of, table


@pytest.fixture(scope="session", params=[0.0, 25.0])
def study(request, tmp_path_factory):
    frame = table(9, 8, 5, 5, rotation=request.param)
    made = study_of(
        tmp_path_factory.mktemp("m"),
        frame,
        pp.Slopes(45, by="SECTOR", regions={"EAST": 38}),
        rotation=request.param,
    )
    made.shells([600, 1000, 1200])
    return made
