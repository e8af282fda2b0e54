"""The nearest known word to one that isn't known."""
import pytest

from pitplan.base.near_words import meant, near_to, swap_of

KEYS = ["dilution", "mining", "Recovery"]


@pytest.mark.parametrize(
    "word, near",
    [
        ("dilutoin", "dilution"),
        ("minning", "mining"),
        ("RECOVERY", "Recovery"),  # in other letters of case
        ("min", "mining"),  # a part of it
        ("n", None),  # a letter alone is a part of nothing
        ("price", None),
        ("", None),
    ],
)
def test_the_name_that_looks_most_like_a_word(word, near):
    assert near_to(word, KEYS) == near


def test_names_in_the_same_letters_come_before_others():
    assert near_to("Xcenter", ["XCENTER", "Xcentre"]) == "Xcentre"


def test_what_is_added_to_no_such_name():
    assert meant("dilutoin", KEYS) == "; is 'dilution' meant?"
    assert meant("price", iter(KEYS)) == "; there are dilution, mining, Recovery"
    assert meant("price", []) == "; there are none"


def test_forty_names_are_listed_at_most():
    assert meant("price", map(str, range(60))).endswith(" 38, 39")


def test_a_word_with_the_name_that_is_meant():
    assert swap_of("minning", iter(KEYS)) == ("minning", "mining")
    assert swap_of("price", KEYS) is None
