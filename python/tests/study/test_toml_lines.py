"""A study.toml that is no TOML: each wrong line is told with what is meant."""
import pytest

from mines import table, written_study
from pitplan.base.error_text import lines_of
from pitplan.study.check import check
from processes import command
from slips import STUDY


# Lines that are no TOML, and what has to be typed in their place.
NO_TOML = [
    ('by = "SECTOR"', "by = SECTOR", 'by = "SECTOR"'),
    ("mill_rate = 5e5", "mill_rate = 5e5 t/a", "mill_rate = 5e5"),
    ("mill_rate = 5e5", "mill_rate = 0.5 Mt/a", "mill_rate = 500000"),
    ("mill_rate = 5e5", "mill_rate = 500 kt", "mill_rate = 500000"),
    ("mining_rate = 1e6", "mining_rate = 1.000.000", "mining_rate = 1000000"),
    ("mining = 2.0", "mining = 2,0", "mining = 2.0"),
    ("mill_rate = 5e5", "mill_rate = 500,000", "mill_rate = 500000"),
    ("discount = 0.08", "discount = 8 %", "discount = 0.08"),
    ("rotation = 0", "rotation = 0°", "rotation = 0"),
    ("rotation = 0", "rotation: 0", "rotation = 0"),
    ("dilution = 0.05", "dilution = .05", "dilution = 0.05"),
    ("[20, 20, 15]", "[20; 20; 15]", "size = [20, 20, 15]"),
    ("[20, 20, 15]", "[20, 20, 15", "size = [20, 20, 15 ]"),
    ('by = "SECTOR"', "by = “SECTOR”", 'by = "SECTOR"'),
    ('by = "SECTOR"', 'by = "SECTOR', 'by = "SECTOR"'),
    ('table = "t.csv"', 'table = "C:\\mine\\t.csv"', "table = 'C:\\mine\\t.csv'"),
    ("rotation = 0", "regularise = False", "regularise = false"),
    ("regions = { WEST = 44 }", "regions = { WEST = 44", "regions = { WEST = 44 }"),
    (
        "regions = { WEST = 44 }",
        "regions = { WEST = 44, far east = 45 }",
        'regions = { WEST = 44, "far east" = 45 }',
    ),
]


@pytest.mark.parametrize("was, now, wanted", NO_TOML, ids=[row[1] for row in NO_TOML])
def test_a_line_that_is_no_toml_is_told_with_what_is_meant(tmp_path, was, now, wanted):
    assert was in STUDY
    found = check(written_study(tmp_path / "s", table(9, 8, 5, 5), STUDY.replace(was, now, 1)))
    first = found.errors[0]
    at = next(i for i, line in enumerate(STUDY.splitlines(), 1) if was in line)
    assert first.what.startswith(f"line {at} isn't TOML: ")
    assert first.try_this == wanted
    assert [error.what for error in found.errors[1:]] == []


@pytest.mark.parametrize(
    "now, said, what_to_try",
    [
        (
            "regions = { WEST = 44 }\nregions.EAST = 45\n",
            "its braces stand above, and have all of its keys",
            "this key within those braces",
        ),
        (
            "regions.WEST = 44\nregions.WEST = 45\n",
            "this stands above already",
            "take one of the two out",
        ),
    ],
)
def test_a_key_that_stands_above_already_is_told(tmp_path, now, said, what_to_try):
    text = STUDY.replace("regions = { WEST = 44 }", now.rstrip(), 1)
    first = check(written_study(tmp_path / "s", table(9, 8, 5, 5), text)).errors[0]
    again = now.splitlines()[1]
    at = text.splitlines().index(again) + 1
    assert first.what == f"line {at} isn't TOML: {said}: {again}"
    assert first.try_this == what_to_try


def test_a_statement_of_several_lines_is_mended_in_the_line_that_is_wrong(tmp_path):
    text = STUDY.replace('price_unit = "oz"', "price_unit = oz")
    found = check(written_study(tmp_path / "s", table(9, 8, 5, 5), text))
    at = next(i for i, line in enumerate(text.splitlines(), 1) if "= oz" in line)
    assert [error.key for error in found.errors] == [("economics", "metals")]
    assert found.errors[0].what.startswith(f"line {at} isn't TOML")
    assert 'price_unit = "oz", recovery = 0.60' in found.errors[0].try_this


@pytest.mark.parametrize(
    "typed, meant", [("8,500", "8500 or 8.5"), ("8500,5", "8500.5"), ("1,250,000", "1250000")]
)
@pytest.mark.parametrize("was", ["price = 8500", "mining = 2.0"])
def test_a_number_with_a_comma_is_told_with_its_line_and_what_it_may_be(
    tmp_path, typed, meant, was
):
    """Also where more keys stand after it, in a line further down than its list begins."""
    key = was.split()[0]
    text = STUDY.replace(was, f"{key} = {typed}", 1)
    folder = written_study(tmp_path / "s", table(9, 8, 5, 5), text)
    at = next(i for i, line in enumerate(text.splitlines(), 1) if typed in line)
    first = check(folder).errors[0]
    said = "a number has no comma between thousands, and a point before decimals"
    assert first.what == f"line {at} isn't TOML: {key} = {typed}: {said}: {meant}"
    assert f"{key} = {meant.split()[0]}" in first.try_this
    shown = lines_of(first, folder / "study.toml")[1]
    assert shown == f"  study.toml:{at}: {text.splitlines()[at - 1].strip()}"


def test_what_stands_twice_is_told_with_the_first(tmp_path):
    text = STUDY.replace("dilution = 0.05", "dilution = 0.05\nmining = 3.0\nmill_rate = 7")
    found = check(written_study(tmp_path / "s", table(9, 8, 5, 5), text))
    assert [(error.what, error.key) for error in found.errors] == [
        ("line 12: mining stands here again, after line 8", ("economics", "mining")),
        (
            "[economics] has no key 'mill_rate': it is a key of [shells]",
            ("economics", "mill_rate"),
        ),
    ]
    twice = check(written_study(tmp_path / "s", text=STUDY + "[model]\nwiden = 1\n"))
    assert [error.what for error in twice.errors] == [
        f"line {STUDY.count(chr(10)) + 1}: the section [model] stands here again"
    ]


@pytest.mark.parametrize(
    "text",
    [
        "widen = 1\nwiden = 1\n" + STUDY,
        "= 3\n" + STUDY,
        "[model\n" + STUDY,
        STUDY + "x = " + 600 * "[" + "\n",
        STUDY + 'x = "' + 10**6 * " " + "\n",
        STUDY + "x = [\n" + 200 * "1,\n" + "by = 3\n",
        3000 * "a\n" + STUDY,
        "\x00" + STUDY,
    ],
    ids=["twice outside", "no key", "half a header", "deep", "wide", "long", "many lines", "zero"],
)
def test_what_is_no_toml_in_another_way_is_told_too(tmp_path, text):
    found = check(written_study(tmp_path / "s", table(9, 8, 5, 5), text))
    assert found.errors
    assert all("TOML" in error.what for error in found.errors[:1])


def test_a_line_that_is_no_toml_hides_no_other(tmp_path):
    text = STUDY
    for was, now in (
        ('by = "SECTOR"', "by = SECTOR"),
        ("rotation = 0", "rotation = 0°"),
        ("discount = 0.08", "discount = 8"),
        ('"SUL"]', '"SULF"]'),
        ("mining = 2.0", 'mining = "2.0 + ZZC"'),
    ):
        text = text.replace(was, now, 1)
    folder = written_study(tmp_path / "s", table(9, 8, 5, 5), text)
    assert {error.key for error in check(folder).errors} == {
        ("slopes", "by"),
        ("model", "rotation"),
        ("shells", "discount"),
        ("economics", "mill"),
        ("economics", "mining"),
    }
    ran = command("build", folder)
    _, faults = ran.communicate(timeout=600)
    assert ran.returncode == 3
    at = next(i for i, line in enumerate(text.splitlines(), 1) if line == "by = SECTOR")
    assert f'  study.toml:{at}: by = SECTOR\n  try: by = "SECTOR"\n' in faults
