"""The shells of a mine that files for other programs are made of."""
import numpy as np
import pytest

from mines import study_of, table


@pytest.fixture(scope="session", params=[0.0, 30.0])
def turned(request, tmp_path_factory):
    """The shells of a mine, straight and turned, and the planner's own table."""
    frame = table(9, 8, 5, 5, rotation=request.param)
    frame["SEEN"] = np.arange(len(frame)) % 2 == 0
    return (
        study_of(tmp_path_factory.mktemp("m"), frame, rotation=request.param).shells(
            [600, 800, 1000, 1200]
        ),
        frame,
    )
