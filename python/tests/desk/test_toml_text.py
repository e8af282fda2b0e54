"""Changes of study.toml: exactly what is asked for, and all else byte for byte as it was."""
import tomllib

import pytest
from hypothesis import given, strategies as st

from pitplan.desk.toml_text import Conflict, at, changed
from pitplan.study.first_look import look_at, written
from processes import TOP

WALK = """# a mine
[model]
table = "t.csv"   # here
size = [20, 20, 10]                   # in metres

[economics]
mining = 2.5
# mill = ["OXI", "SUL"]                 # the rocks
processing = { OXI = 7.5, SUL = 9.0 }
metals = [
    # the first
    { name = "copper", grade = "CU", price = 8500 },
]

[slopes]
angles = 44
"""


def now(*changes, text=WALK):
    return changed(text, [{"path": path, "value": value} for path, value in changes])


def test_a_change_leaves_all_else_as_it_is():
    assert now((["model", "size", 2], 5)) == WALK.replace("20, 10]", "20, 5]")
    assert now((["economics", "processing", "SUL"], 9.25)) == WALK.replace("9.0", "9.25")
    assert now((["economics", "metals", 0, "price"], 8600)) == WALK.replace("8500", "8600")
    assert now((["economics", "metals", "copper", "price"], 8600)) == WALK.replace("8500", "8600")


def test_a_key_comes_where_init_left_it_as_a_comment():
    wanted = WALK.replace('# mill = ["OXI", "SUL"]  ', 'mill = ["OXI"]  ')
    assert now((["economics", "mill"], ["OXI"])) == wanted


def test_a_new_key_comes_to_the_end_of_its_section():
    found = now((["slopes", "by"], "SECTOR"), (["slopes", "regions"], {"A b": [[0, 38], [90, 44]]}))
    assert found == WALK + 'by = "SECTOR"\nregions = { "A b" = [[0, 38], [90, 44]] }\n'
    assert now((["shells", "discount"], 0.1)) == WALK + "\n[shells]\ndiscount = 0.1\n"
    assert now((["model", "columns", "x"], "XC")) == WALK.replace(
        "# in metres\n", '# in metres\ncolumns = { x = "XC" }\n'
    )


def test_a_value_is_taken_out():
    assert now((["economics", "mining"], None)) == WALK.replace("mining = 2.5", "# mining = 2.5")
    assert "copper" not in now((["economics", "metals"], None))
    assert now((["model", "rotation"], None)) == WALK


def test_a_value_that_is_emptied_and_typed_again_keeps_its_place_and_its_comment():
    text = WALK.replace("angles = 44", "angles = 44   # as the report says\nsafe = true")
    emptied = now((["slopes", "angles"], None), text=text)
    assert emptied == text.replace("angles = 44", "# angles = 44")
    again = now((["slopes", "angles"], 47), text=emptied)
    assert again == text.replace("angles = 44", "angles = 47")


def test_lines_of_windows_stay():
    text = WALK.replace("\n", "\r\n")
    assert now((["slopes", "safe"], True), text=text) == text + "safe = true\r\n"
    assert now((["slopes", "angles"], 45), text=text) == text.replace("44", "45")


WRONG = (
    ["model", "size", 7],
    ["model", "table", "x"],
    ["economics", "metals", 3, "price"],
    ["model"],
)


@pytest.mark.parametrize("path", WRONG, ids=str)
def test_a_path_that_leads_nowhere_is_refused(path):
    with pytest.raises(ValueError):
        now((path, 1))


def test_a_change_that_would_be_another_one_is_refused():
    """A line of a long text looks as a key that was left out, and is none."""
    text = '[economics]\nnote = """\n# mill = ["x"]   # the rocks\n"""\nmining = 2\n'
    with pytest.raises(ValueError, match="can't be written there"):
        now((["economics", "mill"], ["OXI"]), text=text)


def test_what_somebody_else_has_changed_is_refused_and_nothing_else():
    other = WALK.replace("8500", "9000")
    mine = {"path": ["economics", "metals", 0, "price"], "was": 8500, "value": 8600}
    with pytest.raises(Conflict):
        changed(other, [mine])
    slopes = {"path": ["slopes", "angles"], "was": 44, "value": 45}
    assert changed(other, [slopes]) == other.replace("44", "45")
    with pytest.raises(Conflict):
        changed(WALK, [{"path": ["slopes", "safe"], "was": False, "value": True}])


TEXTS = [WALK, *(path.read_text() for path in sorted(TOP.glob("examples/*/study.toml")))]
TEXTS += [written(look_at(TOP / "examples" / "hill.csv"), "../hill.csv")]
WORDS = st.text(st.characters(blacklist_categories=["Cs"]), max_size=12)
VALUES = st.one_of(
    st.floats(-1e9, 1e9, allow_nan=False).map(float),
    st.integers(-(10**12), 10**12),
    st.booleans(),
    WORDS,
    st.lists(WORDS, max_size=3),
    st.dictionaries(WORDS, st.integers(0, 99), max_size=3),
)


def paths(tree, above=()):
    """Every key and every item of a file."""
    steps = tree.items() if isinstance(tree, dict) else enumerate(tree)
    for step, each in steps:
        yield [*above, step]
        if isinstance(each, (dict, list)):
            yield from paths(each, (*above, step))


@given(st.sampled_from(TEXTS), st.integers(0, 10**6), VALUES)
def test_any_value_anywhere_changes_that_alone(text, pick, value):
    """Or it is refused: a text is never other than asked for. `tomllib` judges what `tomlkit` wrote."""
    there = [path for path in paths(tomllib.loads(text)) if len(path) > 1]
    path = there[pick % len(there)]
    try:
        found = changed(text, [{"path": path, "value": value}])
    except ValueError:
        return
    before, after = tomllib.loads(text), tomllib.loads(found)
    assert at(after, path) == value
    for other in there:
        if other[: len(path)] != path and path[: len(other)] != other:
            assert at(before, other) == at(after, other)
    assert [line for line in text.splitlines() if line.startswith("#")] == [
        line for line in found.splitlines() if line.startswith("#")
    ] or "\n#" in str(value)
