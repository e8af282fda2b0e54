"""Slopes in settings, read back."""
import re
import tomllib

import pytest

import pitplan as pp
from mines import study_of, table
from pitplan.slopes import slope_settings


def test_what_settings_list_is_what_was_searched():
    """The text, read back by a reader of TOML; and by what walls are told and drawn from."""
    grid = pp.Grid((0, 0, 0), (20, 20, 15), (1, 1, 1), 30.0)
    slopes = pp.Slopes(45, by="S", regions={"N ] # 1\a\n": [(0, 38), (180, 46)]})
    text = slopes.settings(grid, 4)
    facts = tomllib.loads(text)
    found = list(slopes.offsets_by_region(grid).values())
    assert [[tuple(offset) for offset in each] for each in facts["slopes"]] == found
    assert {key: facts[key] for key in facts if key != "slopes"} == {"region": 4, "up": "plus"}
    assert slope_settings.offsets_listed(text) == found
    assert "region" not in tomllib.loads(pp.Slopes(45).settings(grid, 4))


@pytest.mark.parametrize(
    "text, said",
    [
        ("", "lists no slopes"),
        ("slopes = []", "lists no slopes"),
        ("slopes = [1]", "no list"),
        ("slopes = [[[0, 0]]]", "three whole numbers that lead upward"),
        ("slopes = [[[0, 0, 0]]]", "three whole numbers that lead upward"),
        ("slopes = [[[0, 0, -1]]]", "three whole numbers that lead upward"),
        ("slopes = [[[0, 0, 1.0]]]", "three whole numbers that lead upward"),
        ("slopes = [[[0, true, 1]]]", "three whole numbers that lead upward"),
        ("slopes = [[[2147483648, 0, 1]]]", "three whole numbers that lead upward"),
        ('slopes = [[[0, 0, 1]]]\nup = "minus"', "where z is less"),
        ("slopes = [[", "Invalid value"),
    ],
)
def test_settings_that_list_no_offsets_upward_are_refused(text, said):
    with pytest.raises(ValueError, match=said):
        slope_settings.offsets_listed(text)


def test_settings_without_the_slopes_of_each_region_are_told(tmp_path):
    study = study_of(tmp_path, table(6, 5, 4, 3))
    text = study.settings_file.read_text()
    for slopes, said in (
        ("", "it lists no slopes"),
        ("slopes = [[[0, 0, 1]], []]", "it lists 2 slopes, and there are 1"),
        ("slopes = [[[0, 0, 0]]]", "three whole numbers that lead upward"),
    ):
        study.settings_file.write_text(re.sub(r"slopes = .*", slopes, text, flags=re.S))
        with pytest.raises(pp.PlanError, match=f"settings.toml is damaged: .*{said}"):
            pp.Study(study.folder).offsets
