"""What `check` says to try: the walk's mine with one slip each, and the remedy that mends it."""
import re
from pathlib import Path

import pytest

from processes import said
from pitplan.base.error_text import lines_of
from pitplan.study.check import check
from pitplan.study.study_file import read_study_file
from pitplan.base.errors import PlanError

TOP = Path(__file__).resolve().parents[3]
WALK = (TOP / "docs" / "PLANNING.md").read_text()
STUDY = (
    re.search(r"\$ cat hill/study.toml\n(.*?)\n\nWhat", WALK, re.S)[1]
    .replace("\n    ", "\n")
    .replace("../examples/hill.csv", "blocks.csv")
    .strip()
)
ROWS = (TOP / "examples" / "hill.csv").read_text().splitlines()
HEADER = ROWS[0].split(",")


def mine(folder, was="", now="", cells=()):
    """The walk's study in a folder, with a change of study.toml and other cells, as (row, column,
    text)."""
    assert was in STUDY
    rows = list(ROWS)
    for row, column, text in cells:
        words = rows[row - 1].split(",")
        words[HEADER.index(column)] = text
        rows[row - 1] = ",".join(words)
    folder.mkdir()
    (folder / "blocks.csv").write_text("\n".join(rows) + "\n")
    (folder / "study.toml").write_text(STUDY.replace(was, now, 1))
    return folder


def only_error(folder):
    """The lines of the one error that there is, as the terminal shows them."""
    found = check(folder)
    assert len(found.errors) == 1, list(map(str, found.errors))
    return lines_of(found.errors[0], folder / "study.toml")


def only_look(folder):
    """The one look that there is: what it says, and what to try."""
    found = check(folder)
    assert not found.errors, list(map(str, found.errors))
    assert len(found.looks) == 1, list(map(str, found.looks))
    return str(found.looks[0]).split("\n  try: ")


@pytest.mark.parametrize(
    "now, wanted",
    [
        # 420 dollars of selling are those of a tonne at 8,500: the unit is right
        ('price = 8.5, price_unit = "t"', "price = 8500 of copper"),
        # 0.4 dollars are those of a kilogram at 8.5: the unit is wrong
        ('price = 8.5, price_unit = "t", selling = 0.4', 'price_unit = "kg" of copper'),
        # nothing tells which
        (
            'price = 8.5, price_unit = "t", selling = 0',
            'price = 8500 of copper, or price_unit = "kg"',
        ),
        # 2204.62 pounds are a tonne: 8500 / 2204.62 = 3.8555
        ('price = 8500, price_unit = "lb", selling = 0.19', "price = 3.8555 of copper"),
    ],
)
def test_a_price_that_is_off_is_told_alone_with_what_selling_fits(tmp_path, now, wanted):
    was = 'price = 8500, price_unit = "t"'
    folder = mine(tmp_path / "m", was, now)
    if "selling" in now:
        path = folder / "study.toml"
        path.write_text(path.read_text().replace(", selling = 420", ""))
    found = check(folder)
    looks = [look for look in found.looks if look.key[2:3] == ("copper",)]
    assert [look.key[-1] for look in looks] == ["price"], list(map(str, found.looks))
    assert looks[0].try_this == wanted


@pytest.mark.parametrize(
    "cell, number",
    [("0.35O", "0.350"), ("o.35", "0.35"), ("l.2", "1.2"), ("I2", "12"), ("1e-O2", "1e-02")],
)
def test_a_letter_in_a_number_is_told_as_the_digit(tmp_path, cell, number):
    lines = only_error(mine(tmp_path / "m", cells=[(5, "CU", cell)]))
    assert lines[-1] == (
        f"  try: {number} in that cell, if a letter stands for a digit; or"
        f' absent = ["-99", "{cell}"] in [model], if that stands for "not estimated"'
    )


@pytest.mark.parametrize("cell", ["OIL", "n.a.", "O", "0.3S"])
def test_a_word_that_is_no_number_is_told_beside_the_marks_that_are_there(tmp_path, cell):
    lines = only_error(mine(tmp_path / "m", cells=[(5, "CU", cell)]))
    assert lines[-1].startswith(f'  try: absent = ["-99", "{cell}"] in [model], if that')


@pytest.mark.parametrize("column, cell", [("CU", ""), ("AU", "-1")])
def test_an_empty_cell_and_one_below_0_keep_the_marks_that_are_there(tmp_path, column, cell):
    lines = only_error(mine(tmp_path / "m", cells=[(5, column, cell)]))
    assert lines[-1].startswith(f'  try: absent = ["-99", "{cell}"] in [model], if ')


def test_a_letter_in_a_density_is_told_as_the_digit_alone(tmp_path):
    lines = only_error(mine(tmp_path / "m", cells=[(2, "SG", "2.67O")]))
    assert lines[-1] == "  try: 2.670 in that cell, if a letter stands for a digit"


@pytest.mark.parametrize(
    "cells, wanted",
    [
        ([(2, "SG", "267.2")], ("267.2", "2.672 in that cell")),
        (
            [(2, "SG", "267.2"), (3, "SG", "26.88")],
            ("267.2", "2.672 in that cell, and 1 like it"),
        ),
        # a tenth of it is no rock
        ([(2, "SG", "9.1")], ("9.1", "that cell: a decimal")),
    ],
)
def test_a_slip_of_a_density_is_told_once_with_what_stands_there(tmp_path, cells, wanted):
    seen, tried = only_look(mine(tmp_path / "m", cells=cells))
    assert seen.startswith(f"row 2 has a density of {wanted[0]} by SG; half of all blocks have")
    assert tried == wanted[1]


ALL = "table, columns, tonnes, units, size, rotation, z, absent, missing, fill, regularise, widen, decimal, encoding, skip"


@pytest.mark.parametrize(
    "was, now, wanted",
    [
        ("absent = ", "absnt = ", 'absent = ["-99"]'),
        ("dilution = 0.03", "dilutoin = 0.03", "dilution = 0.03"),
        ("payable = 0.98", "payabel = 0.98", "payable = 0.98"),
        ("rotation = 30", "rotation = 30\nvein = 8", ALL),  # none is near
        ("rotation = 30", "rotation = 30\nrotatoin = 40", ALL),  # that one is there
        ("rotation = 30", 'rotation = 30\ncolumns = { dnsity = "SG" }', 'density = "SG"'),
        (
            "discount = 0.08",
            "discount = 0.08\n[modle]\nz = 1",
            "model, economics, slopes, shells, schedule",
        ),
        ("[shells]", "[shels]", "[shells]"),
    ],
)
def test_a_misspelt_key_comes_as_it_has_to_be(tmp_path, was, now, wanted):
    assert only_error(mine(tmp_path / "m", was, now))[-1] == f"  try: {wanted}"


@pytest.mark.parametrize(
    "name, said_of_it, wanted",
    [
        ("ZD", "; is 'ZC' meant?", "ZC"),
        ("CZ", "; is 'ZC' meant?", "ZC"),
        ("SECTR", "; is 'SECTOR' meant?", "SECTOR"),
        ("AG", "; there are id, ", None),  # silver, and no slip of AU
        ("QD", "; there are id, ", None),
    ],
)
def test_a_misspelt_column_of_a_formula_comes_with_the_right_one(
    tmp_path, name, said_of_it, wanted
):
    lines = only_error(mine(tmp_path / "m", "1125 - ZC", f"1125 - {name}"))
    assert f"there is no column {name!r}{said_of_it}" in lines[0]
    assert [line for line in lines if "try:" in line] == ([f"  try: {wanted}"] if wanted else [])


def test_a_misspelt_word_of_a_formula_comes_with_the_right_one(tmp_path):
    now = "mining_recovery = 0.97\nforbid = [\"ROCK == 'OXID'\"]"
    lines = only_error(mine(tmp_path / "m", "mining_recovery = 0.97", now))
    assert lines[-1] == "  try: 'OXI'"


@pytest.mark.parametrize(
    "now, wanted",
    [
        ("NOTRH", "  try: NORTH = [[0, 38], [90, 44], [270, 44]] in regions of [slopes]"),
        ("XYZ", None),
        # the right one has its own angles
        ("NORTH = 40, NOTRH", None),
    ],
)
def test_a_misspelt_region_comes_with_the_right_one(tmp_path, now, wanted):
    lines = only_error(mine(tmp_path / "m", "{ NORTH", "{ " + now))
    assert [line for line in lines if "try:" in line] == ([wanted] if wanted else [])


@pytest.mark.parametrize(
    "named, wanted",
    [
        ("block.csv", 'table = "blocks.csv" in [model]'),
        ("BLOCKS.csv", 'table = "blocks.csv" in [model]'),
        ("tables/blocks.csv", None),
        ("../far/blocks.csv", None),
    ],
)
def test_a_table_that_is_missing_comes_as_the_key_has_to_be(tmp_path, monkeypatch, named, wanted):
    monkeypatch.chdir(tmp_path)
    folder = mine(tmp_path / "m", '"blocks.csv"', f'"{named}"')
    error = check(folder).errors[0]
    assert "there is no such file" in error.said
    if wanted:
        assert lines_of(error, folder / "study.toml")[1:] == [
            f'  study.toml:4: table = "{named}"',
            f"  try: {wanted}",
        ]
        assert error.remedy.value == "blocks.csv"
        with pytest.raises(PlanError) as of_build:
            read_study_file(folder).read_model()
        assert of_build.value.try_this == wanted
    else:
        assert error.try_this.startswith("another folder: there is no ")


def test_a_table_a_folder_up_and_two_that_are_like_it_are_named_from_the_study(tmp_path):
    folder = mine(tmp_path / "m", '"blocks.csv"', '"topo9.csv"')
    (tmp_path / "topo9.csv").write_text("x\n")
    assert check(folder).errors[0].try_this == 'table = "../topo9.csv" in [model]'
    for name in ("topo8.csv", "topo7.csv"):
        (folder / name).write_text("x\n")
    error = check(folder).errors[0]
    assert error.try_this == 'table = "topo8.csv" or table = "topo7.csv" in [model]'
    assert error.remedy is None


@pytest.mark.parametrize(
    "was, now, line, tried",
    [
        ("rotation = 30", "rotation = 35", "6: rotation = 35", "rotation = 30"),
        ("[20, 20, 10]", "[20, 20, 5]", "5: size = [20, 20, 5]", "size = [20, 20, 10]"),
    ],
)
def test_the_line_is_that_of_the_key_that_is_to_be_changed(tmp_path, was, now, line, tried):
    lines = only_error(mine(tmp_path / "m", was, now))
    assert lines[1].startswith(f"  study.toml:{line}")
    assert lines[-1] == f"  try: {tried} in [model]"


def test_check_counts_the_cells_that_are_not_estimated(tmp_path):
    """The walk's table has -99 in 128 cells of AU, as grep counts them."""
    of_gold = sum(row.split(",")[HEADER.index("AU")] == "-99" for row in ROWS)
    plain = mine(tmp_path / "a")
    assert f"\n  not estimated, by absent: {of_gold} cells of AU\n" in said("check", plain)
    marked = mine(
        tmp_path / "b",
        '["-99"]',
        '["-99", "N/S", ""]',
        [(5, "CU", "N/S"), (6, "CU", ""), (7, "CU", "-99.0")],
    )
    assert check(marked).model.absent_cells == {"CU": 3, "AU": of_gold}
    bare = mine(tmp_path / "c", '["-99"]', "[]", [])
    text = (bare / "blocks.csv").read_text().replace(",-99,", ",0,")
    (bare / "blocks.csv").write_text(text)
    assert "not estimated" not in said("check", bare)


FACTORS = "factors = { from = 0.4, to = 1.2, step = 0.1 }"


@pytest.mark.parametrize(
    "now, wanted",
    [
        ("[40, 60, 80, 100]", "factors = [0.4, 0.6, 0.8, 1] in [shells], if these are in percent"),
        ("[400, 1000]", "factors = [0.4, 1] in [shells], if these are in thousandths"),
        (
            "{ from = 40, to = 120, step = 10 }",
            "factors = { from = 0.4, to = 1.2, step = 0.1 } in [shells], if these are in percent",
        ),
        (
            "{ from = 1.2, to = 0.4, step = 0.1 }",
            "factors = { from = 0.4, to = 1.2, step = 0.1 } in [shells]",
        ),
        (
            "{ from = 0.4, to = 1.2, step = 10 }",
            "factors = { from = 0.4, to = 1.2, step = 0.1 } in [shells]",
        ),
        ("[1, 0.8, 0.5, 0.8]", "factors = [0.5, 0.8, 1] in [shells]"),
    ],
)
def test_factors_in_another_unit_or_order_come_as_shares_that_ascend(tmp_path, now, wanted):
    lines = only_error(mine(tmp_path / "m", FACTORS, f"factors = {now}"))
    assert lines[-1] == f"  try: {wanted}"


@pytest.mark.parametrize(
    "was, now, wanted",
    [
        # 0.77 is 44.1 degrees in radians, and atan(0.77) is 37.6 degrees
        (
            "angles = 44 ",
            "angles = 0.77 ",
            "44.1 for 0.77, if it is in radians; or 37.6, if it is a rise over a run",
        ),
        ("[90, 44]", "[90, 110]", "47.7 for 110, if it is a rise in percent"),
        ("angles = 44 ", "angles = 3 ", "71.6 for 3, if it is a rise over a run"),
        ("angles = 44 ", 'angles = "44 deg" ', "angles = 44 in [slopes]"),
        ("angles = 44 ", 'angles = "44°" ', "angles = 44 in [slopes]"),
    ],
)
def test_a_slope_in_another_unit_is_told_in_degrees(tmp_path, was, now, wanted):
    assert only_error(mine(tmp_path / "m", was, now))[-1] == f"  try: {wanted}"


def test_a_column_that_isnt_there_is_told_beside_those_of_the_table_alone(tmp_path):
    lines = only_error(
        mine(tmp_path / "m", '{ name = "gold", grade = "AU"', '{ name = "gold", grade = "GRAM"')
    )
    assert "there are BLOCKID, XC, YC, ZC, SG, CU, AU, ROCK, SECTOR" in " ".join(lines)


def test_the_column_that_has_all_regions_is_told_in_place_of_one_that_isnt_there(tmp_path):
    lines = only_error(mine(tmp_path / "m", 'by = "SECTOR"', 'by = "Domain"'))
    assert lines[-1] == '  try: by = "SECTOR" in [slopes]'
