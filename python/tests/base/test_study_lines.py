"""The lines of a study.toml, each with the key that it belongs to."""
import pytest

from pitplan.base.study_lines import lines_of

TEXT = """# all of it
[model]
table = "a#b.csv"  # the "table"
absent = ['#', "\\"#"] # two
[ economics ]
mining=2.5#c
metals = [
    { name = "gold", price = 1900 }, # ours
]
[[economics.processes]]
name = "leach"
"""
WANTED = [
    ("", "", "", "# all of it"),
    ("model", "", "[model]", ""),
    ("model", "table", 'table = "a#b.csv"  ', '# the "table"'),
    ("model", "absent", 'absent = [\'#\', "\\"#"] ', "# two"),
    ("economics", "", "[ economics ]", ""),
    ("economics", "mining", "mining=2.5", "#c"),
    ("economics", "metals", "metals = [", ""),
    ("economics", "", '    { name = "gold", price = 1900 }, ', "# ours"),
    ("economics", "", "]", ""),
    ("economics", "processes", "[[economics.processes]]", ""),
    ("economics", "processes", 'name = "leach"', ""),
]


def test_each_line_has_its_key_and_its_comment():
    found = [tuple(each.values()) for each in lines_of(TEXT)]
    assert found == WANTED


@pytest.mark.parametrize("text", [TEXT, "", "[[[", 'a = "open # no end', "\n\n# x", "a'b#c"])
def test_nothing_of_a_text_is_lost(text):
    assert [each["said"] + each["comment"] for each in lines_of(text)] == text.splitlines()
