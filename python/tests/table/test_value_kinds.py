"""What a value may be: its example is one, and the test agrees with the JSON Schema beside it."""
import math
import tomllib

import pytest

from pitplan.table.value_kinds import KINDS, has_ramp, is_list, is_number, is_table

jsonschema = pytest.importorskip("jsonschema")
RAMP = {"width": 25, "grade": 0.1, "height": 300, "turns": 2}
VALUES = (
    *(
        True,
        0,
        3,
        2.5,
        -1,
        "words",
        "",
        [],
        ["a"],
        ["a", 1],
        [1, 2, 3],
        [1, 2],
        [[0, 38], [90, 45]],
    ),
    *([[0, 38, 1]], [[]], {}, {"OXI": 7.5}, {"OXI": "x"}, {"copper": 0.5}, {"copper": 1.5}),
    *(
        {"EUR": 1.08},
        {"EUR": 0},
        {"length": "ft"},
        {"length": "mile"},
        {"width": "ft"},
        {"x": "XC"},
    ),
    *({"from": 0.3, "to": 1.2, "step": 0.05}, {"from": 0.3, "to": 1.2}, [{}], [{}] * 9),
    *(RAMP, {**RAMP, "around": 1500}, {**RAMP, "turns": 0}, {"EAST": RAMP}, {"EAST": 3}),
)
# of these the schema says less than the test, or leaves it to what the key means
LOOSER = ("metals", "processes", "fill", "formula", "recoveries", "rates", "shares")


@pytest.mark.parametrize("name", KINDS)
def test_an_example_is_one_and_is_written_as_toml(name):
    value = tomllib.loads(f"key = {KINDS[name].example}")["key"]
    assert KINDS[name].holds(value)
    jsonschema.validate(value, KINDS[name].schema)


@pytest.mark.parametrize("name", [name for name in KINDS if name not in LOOSER])
def test_the_schema_takes_what_the_test_takes(name):
    kind = KINDS[name]
    found = [
        (value, kind.holds(value), jsonschema.Draft7Validator(kind.schema).is_valid(value))
        for value in VALUES
    ]
    assert [(value, test) for value, test, schema in found if test != schema] == []
    assert any(test for _, test, _ in found)
    assert not all(test for _, test, _ in found)


def test_what_is_no_number():
    assert all(map(is_number, (0, -1, 2.5)))
    assert not any(map(is_number, (True, "1", None, math.inf, -math.inf, math.nan, [1])))


def test_words_are_no_list_and_a_list_is_no_table():
    assert [is_list(value) for value in ("ab", [1], {}, 1)] == [False, True, False, False]
    assert [is_table(value) for value in ("ab", [1], {}, 1)] == [False, False, True, False]


def test_a_ramp_has_all_of_its_numbers_above_nothing():
    assert has_ramp(RAMP)
    assert has_ramp({**{key: RAMP[key] for key in ("width", "grade", "height")}, "around": 1500})
    for key in RAMP:
        assert not has_ramp({name: value for name, value in RAMP.items() if name != key})
        assert not has_ramp({**RAMP, key: -1})
        assert not has_ramp({**RAMP, key: 1e9})
    assert not has_ramp({**RAMP, "around": 1500})
