"""What is wrong with a section's values."""
import re

import pytest

from pitplan.table.wrong_values import wrong_in


@pytest.mark.parametrize(
    "key, words",
    [
        ("prices", "prices that change by year"),
        ("min_mill_rate", "a least feed"),
        ("blending", "blending"),
        ("stockpile", "a stockpile"),
    ],
)
def test_where_no_law_holds_the_key_is_refused_by_name(key, words):
    (error,) = wrong_in("schedule", {key: [1.0, 1.1], "years": 3})
    assert re.search(words + ".* no bound is proved", str(error))
    assert error.key == ("schedule", key)
    assert error.try_this
    assert not wrong_in("schedule", {"years": 3})


@pytest.mark.parametrize(
    "name, value, better",
    [
        ("years", 101, "years = 100"),
        ("years", 2.5, "years = 2"),
        ("years", True, "years = 1"),
        ("per_year", 0, "per_year = 1"),
        ("when", "late", 'when = "start" or "mid" or "end"'),
        ("mining_rate", [1, -2], "mining_rate = [1, 2]"),
        ("mill_rate", [0, -1e6], "mill_rate = [0, 1000000.0]"),
        ("mill_rate", [0, 0], "mill_rate = [15e6, 20e6]"),
        ("pushbacks", [2], "pushbacks = [0.5, 0.75]"),
        ("lead", 2000, "lead = 1000"),
        ("fixed_cost", -1, "fixed_cost = 0"),
        ("fixed_cost", [1e6], "fixed_cost = 1000000.0"),
        ("discount", -0.02, "discount = 0"),
        ("discount", 900, "discount = 0.08"),
    ],
)
def test_a_wrong_value_of_the_schedule_comes_with_one_that_it_may_have(name, value, better):
    (error,) = wrong_in("schedule", {name: value})
    assert (error.key, error.try_this) == (("schedule", name), better)


def test_rates_by_year_stand_in_the_schedule_and_not_in_shells():
    (error,) = wrong_in("shells", {"mill_rate": [0, 1.6e6]})
    assert "a list by year stands in [schedule]: mill_rate = [0, 1600000.0]" in error.try_this


@pytest.mark.parametrize(
    "name, value, told",
    [
        ("mining_rate", [0, 1, -2], "each of at least 0 and one above 0; year 3 is -2"),
        ("mining_rate", -2, "each of at least 0 and one above 0"),
        ("mining_rate", 0, "each of at least 0 and one above 0"),
        ("mining_rate", [0, 0], "each of at least 0 and one above 0"),
        ("mill_rate", [0], "each of at least 0 and one above 0"),
        ("process_rates", {"mill": 1, "leach": [0, 2, -1]}, "one above 0; leach in year 3 is -1"),
        ("process_rates", {"mill": 1, "leach": [0, 0]}, "one above 0; leach is [0, 0]"),
        ("process_rates", {"heap leach": "1"}, "one above 0, without quotes"),
        ("process_rates", {"mill": 1, "leach": -1}, "one above 0; leach is -1"),
        ("process_rates", {}, "one above 0"),
    ],
)
def test_of_several_rates_the_first_wrong_one_is_named(name, value, told):
    (error,) = wrong_in("schedule", {name: value})
    assert error.what.endswith(told)


@pytest.mark.parametrize(
    "name, value",
    [
        ("mill_rate", [0, 0, 250e3]),
        ("mining_rate", [1e6, 0]),
        ("process_rates", {"mill": [0, 15e6], "leach": 5e6}),
    ],
)
def test_a_rate_may_be_0_in_some_years(name, value):
    assert wrong_in("schedule", {name: value}) == []


def test_what_is_tried_of_rates_by_process_keeps_those_that_are_right():
    (error,) = wrong_in("schedule", {"process_rates": {"mill": [0, 0], "heap leach": 5e5}})
    right = '{ mill = [15000000.0, 20000000.0], "heap leach" = 500000 }'
    assert error.try_this == f"process_rates = {right}"


def test_a_key_of_another_section_is_told_so():
    (error,) = wrong_in("shells", {"sink": 4})
    assert error.what == "[shells] has no key 'sink': it is a key of [schedule]"
    assert error.try_this == "put it into [schedule]"
    (error,) = wrong_in("schedule", {"factrs": [1.0]})
    assert error.what.startswith("[schedule] has no key 'factrs'; there are years, ")
