"""A model from above: its colours are the heights, greatest grades and words of its columns."""
import numpy as np
import pytest

import pitplan as pp
from mines import model_of, table
from pitplan.views.ground import from_above

SHAPE = (5, 4)


@pytest.fixture(scope="module")
def frame():
    return table(*SHAPE, 4, 3)


@pytest.fixture(scope="module")
def model(frame):
    return model_of(frame)


def by_column(frame, value):
    """Something of the rows of each column of blocks, by its place."""
    found = np.full(SHAPE, np.nan)
    for (x, y), rows in frame.groupby(["XC", "YC"]):
        found[round((x - 5000) / 20), round((y - 9000) / 20)] = value(rows)
    return found


def colours(axes):
    """The numbers of the first mesh of a picture."""
    return np.ma.filled(axes.collections[0].get_array(), np.nan).reshape(SHAPE)


def test_the_ground_is_half_a_block_above_the_highest_centre(frame, model):
    figure = from_above(model)
    wanted = by_column(frame, lambda rows: rows.ZC.max() + 7.5)
    assert np.allclose(colours(figure.axes[0]), wanted)
    assert figure.axes[1].get_ylabel() == "elevation of the ground (m)"
    assert figure.axes[0].get_xlabel() == "Easting (m)"


def test_a_grade_is_the_greatest_of_its_column(frame, model):
    figure = from_above(model, "CU", "ft", "%")
    assert np.allclose(colours(figure.axes[0]), by_column(frame, lambda rows: rows.CU.max()))
    assert figure.axes[1].get_ylabel() == "greatest CU (%) of each column of blocks"
    figure = from_above(model, "CU", "ft")
    assert figure.axes[1].get_ylabel() == "greatest CU of each column of blocks"
    assert figure.axes[0].get_ylabel() == "Northing (ft)"


def test_words_are_those_at_the_ground(frame, model):
    figure = from_above(model, "ROCK")
    names = [text.get_text() for text in figure.axes[0].get_legend().get_texts()]
    assert names == ["OXI", "SUL"]
    wanted = by_column(frame, lambda rows: names.index(rows.ROCK[rows.ZC.idxmax()]))
    assert np.allclose(colours(figure.axes[0]), wanted)
    assert figure.axes[0].get_legend().get_title().get_text() == "ROCK at the ground"


def test_rock_alone_is_ground(frame):
    """Rows without tonnes are air: what stands below them counts."""
    thin = frame.assign(TONNES=frame.TONNES.where(frame.ZC < 130, 0.0))
    figure = from_above(model_of(thin))
    low = by_column(thin[thin.ZC < 130], lambda rows: rows.ZC.max() + 7.5)
    assert np.allclose(colours(figure.axes[0]), low)


def test_a_column_that_is_not_there_names_the_nearest(model):
    with pytest.raises(pp.PlanError, match="there is no column 'ROKC'.*ROCK"):
        from_above(model, "ROKC")
