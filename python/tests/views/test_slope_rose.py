"""Walls by their bearing, as a rose."""
import math

import pytest

import pitplan as pp
from pitplan.views import slope_rose


def test_walls_are_told_and_drawn_of_what_settings_list(monkeypatch):
    """The text is the one thing that `pit` reads: where it lists other offsets, other walls are
    shown."""
    grid, slopes = pp.Grid((0, 0, 0), (10, 10, 10), (1, 1, 1), 0.0), pp.Slopes(45)
    five = "slopes = [[[0, 0, 1], [1, 0, 1], [-1, 0, 1], [0, 1, 1], [0, -1, 1]]]\n"
    monkeypatch.setattr(pp.Slopes, "settings", lambda self, grid, column: five)
    found = slopes.built(grid).set_index("bearing").built
    assert found[0] == pytest.approx(45)  # a block out on each level: the corner of a square
    assert found[45] == pytest.approx(math.degrees(math.atan(math.sqrt(2))))
    drawn = slope_rose.rose(slopes, grid).axes[0].lines[0].get_ydata()
    assert drawn[45] == pytest.approx(math.degrees(math.atan(math.sqrt(2))))


def test_bearings_run_from_north_by_east_and_each_line_has_its_name():
    """A wall of 38 degrees to the north gets steeper up to 46 to the east, and is so to the west."""
    slopes = pp.Slopes([(0, 38), (90, 46), (180, 46), (270, 46)])
    axes = slope_rose.rose(slopes, pp.Grid((0, 0, 0), (10, 10, 10), (1, 1, 1), 0.0)).axes[0]
    middle, edge = axes.get_ylim()
    words = {text.get_text(): at for at, text in zip(axes.get_xticks(), axes.get_xticklabels())}
    x, y = axes.transData.transform((0.0, middle))
    for word, (right, up) in {"N": (0, 1), "E": (1, 0), "S": (0, -1), "W": (-1, 0)}.items():
        at = axes.transData.transform((words[word], edge))
        assert (round(at[0] - x) > 0, round(at[0] - x) < 0) == (right > 0, right < 0), word
        assert (round(at[1] - y) > 0, round(at[1] - y) < 0) == (up > 0, up < 0), word
    drawn = {line.get_label(): line.get_ydata() for line in axes.lines}
    (asked,) = (angles for label, angles in drawn.items() if label.endswith(": asked"))
    assert [asked[bearing] for bearing in (0, 90, 180, 270)] == pytest.approx([38, 46, 46, 46])
