"""What looks wrong, in words and as data."""
from decimal import Context

import pytest

from pitplan.base.errors import Remedy
from pitplan.base.strange import Strange, rounded


def test_words_say_what_was_seen_and_expected_and_what_to_try():
    one = Strange("the price is 8.5", "copper is about 8,500", "price = 8500")
    assert str(one) == "the price is 8.5; copper is about 8,500\n  try: price = 8500"
    bare = Strange("no block has a grade", "", "pitplan check")
    assert str(bare) == "no block has a grade\n  try: pitplan check"


def test_data_is_one_line_and_has_the_remedy_where_there_is_one():
    key = ("economics", "mining")
    remedy = Remedy(key, 2.5)
    one = Strange("mining is 250", "2.5 is usual", "mining = 2.5", key, remedy)
    assert one.as_data() == {
        "said": "mining is 250; 2.5 is usual; try: mining = 2.5",
        "remedy": remedy.as_data(),
    }
    assert Strange("a", "", "b").as_data() == {"said": "a; try: b", "remedy": None}


@pytest.mark.parametrize("value", [0.000123456, 3.8571, 85.04, 999.6, 8504.3, 1_934_000, 5e9])
def test_three_digits_count_and_no_power_of_ten_is_shown(value):
    text = rounded(value)
    assert "e" not in text
    assert float(text.replace(",", "")) == float(Context(prec=3).create_decimal_from_float(value))
