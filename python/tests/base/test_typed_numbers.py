"""Numbers typed with separators."""
import pytest

from pitplan.base.typed_numbers import typed_number
from pitplan.table import wrong_values
from pitplan.table.study_keys import METALS


@pytest.mark.parametrize(
    "name, value, right, named",
    [
        ("price", "9,250", 9250, "',' between thousands"),
        ("price", "1.250,5", 1250.5, "'.' between thousands, and ',' before the decimals"),
        ("price", "1,250.5", 1250.5, "',' between thousands"),
        ("price", "1.250.000", 1250000, "'.' between thousands"),
        ("price", "9 250", 9250, "' ' between thousands"),
        ("price", "12,5", 12.5, "',' before the decimals"),
        ("recovery", "0,85", 0.85, "',' before the decimals"),
        ("recovery", {"OXI": "0,75", "SUL": 0.88}, {"OXI": 0.75, "SUL": 0.88}, "of OXI is '0,75'"),
    ],
)
def test_a_number_with_separators_is_seen_with_what_to_type(name, value, right, named):
    at = ("economics", METALS, "copper")
    (error,) = wrong_values.wrong_in(METALS, {name: value}, "copper:", at)
    assert named in error.said
    assert error.remedy.key == (*at, name)
    assert error.remedy.value == right
    is_open = value == "9,250"  # 9.25 where the comma is of decimals
    assert bool(error.remedy.when) == is_open
    assert error.remedy.other == (9.25 if is_open else None)


def test_both_readings_of_amounts_by_rock_are_whole_tables():
    by_rock = {"OXI": "1,250", "SUL": 3, "OVB": "2,5"}
    at = ("economics", "processing")
    (error,) = wrong_values.wrong_in("economics", {"processing": by_rock}, "[economics]", at[:1])
    assert error.remedy.value == {"OXI": 1250, "SUL": 3, "OVB": 2.5}
    assert error.remedy.other == {"OXI": 1.25, "SUL": 3, "OVB": 2.5}


@pytest.mark.parametrize("value", ["ZC", "2.0, 3", "where(ROCK == 'OXI', 0.7, 0.8)", "1,2,3"])
def test_a_formula_is_no_number_with_separators(value):
    assert wrong_values.wrong_in(METALS, {"recovery": value}) == []


@pytest.mark.parametrize("text, value", [("-0,965", -0.965), ("+0,250", 0.25), ("-1,250", -1250)])
def test_no_thousands_begin_with_0_below_0_either(text, value):
    found = typed_number(text)
    assert (found.value, found.other) == (value, None if "0," in text[:3] else -1.25)
