"""`pitplan check`: what is wrong with a study, and what looks wrong, without building it. The slips
are those that a planner made."""
import re
import warnings

import numpy as np
import pandas as pd
import pytest

import two_ways
from mines import table, written_study
from processes import command, said
from pitplan.study.check import check
from pitplan.study.pit_by_pit import Rates, discounted
from pitplan.base.error_text import lines_of
from pitplan.base.errors import Cell, PlanError
from pitplan.base.study_lines import line_of
from slips import STUDY, cell, slipped


def turned(frame):
    """The same mine, turned by 30 degrees."""
    return table(9, 8, 5, 5, rotation=30)


def holed(frame):
    """Without the rows of low grade on one level within the ground."""
    return frame[(frame["CU"] > 0) | (frame["ZC"] != 115)]


def commas(frame):
    """A table of a country with decimal commas, of which one column has zeros alone."""
    return frame.assign(CU="0,000")


TURN, METRES = ("rotation = 0", "rotation = 30"), "[20, 20, 15]"
# what the planner did; what changes in study.toml, as (was, now); what changes in the table; what is said; the key that it concerns
ERRORS = [
    (
        "recovery in percent",
        ("recovery = 0.85", "recovery = 88"),
        None,
        "study.toml: [economics] recovery of copper is 88, and a share is from 0 to 1\n  try: recovery = 0.88 in",
        ("economics", "metals", "copper", "recovery"),
    ),
    (
        "recovery of gold in percent",
        ("recovery = 0.60", "recovery = 60"),
        None,
        "recovery of gold is 60",
        ("economics", "metals", "gold", "recovery"),
    ),
    (
        "payable in percent",
        ("payable = 0.965", "payable = 96.5"),
        None,
        "payable is 96.5, and has to be a number from 0 to 1\n  try: payable = 0.965 in",
        ("economics", "metals", "copper", "payable"),
    ),
    (
        "discount in percent",
        ("discount = 0.08", "discount = 8"),
        None,
        "discount is 8, and has to be a share from 0 to below 1, as 0.08\n  try: discount = 0.08 in",
        ("shells", "discount"),
    ),
    (
        "dilution in percent",
        ("dilution = 0.05", "dilution = 5"),
        None,
        "dilution is 5, and has to be a number from 0 to 1",
        ("economics", "dilution"),
    ),
    (
        "mining recovery in percent",
        ("mining_recovery = 0.97", "mining_recovery = 97"),
        None,
        "and at most 1\n  try: mining_recovery = 0.97 in",
        ("economics", "mining_recovery"),
    ),
    (
        "recovery by rock in percent",
        ("recovery = 0.85", "recovery = { OXI = 0.8, other = 85 }"),
        None,
        "of copper of rock other is 85, and a share is from 0 to 1\n  try: recovery = { OXI = 0.8, other = 0.85 }",
        ("economics", "metals", "copper", "recovery"),
    ),
    (
        "a number in quotes",
        ("rotation = 0", 'rotation = "30"'),
        None,
        "'30', and has to be a number, without quotes\n  try: rotation = 30 in [model]",
        ("model", "rotation"),
    ),
    (
        "a misspelt rock in a table by rock",
        ("SUL = 9.0", "SULF = 9.0"),
        None,
        "no block is of rock 'SULF'; is 'SUL' meant?\n  try: { OXI = 7.5, SUL = 9 }",
        ("economics", "processing"),
    ),
    (
        "digging below 0 in one block",
        ("mining = 2.0", 'mining = "2 - 3 * (CU >= 0.5)"'),
        lambda frame: frame.assign(CU=np.where(np.arange(len(frame)) == 40, 0.5, 0.4)),
        "row 42: [economics] mining costs -1 here, less than nothing\n",
        ("economics", "mining"),
    ),
    (
        "negative tonnes",
        None,
        cell("TONNES", 7, -5.0),
        "row 9, column TONNES: -5 is less than nothing",
        ("model", "columns"),
    ),
    (
        "a row twice",
        None,
        lambda frame: pd.concat([frame, frame.iloc[[3]]]),
        "is at the place of row 5: two blocks at one place",
        ("model", "table"),
    ),
    (
        "a misspelt region",
        ("WEST = 44", "WESST = 44"),
        None,
        "no block has SECTOR = WESST; is 'WEST' meant?",
        ("slopes", "regions", "WESST"),
    ),
    (
        "a misspelt rock",
        ('"SUL"]', '"SULF"]'),
        None,
        "no block is of rock 'SULF'; is 'SUL' meant?",
        ("economics", "mill"),
    ),
    (
        "a misspelt column in a formula",
        ("mining = 2.0", 'mining = "2 + 0.03 * (1400 - ZZC)"'),
        None,
        "there is no column 'ZZC'; is 'ZC' meant?",
        ("economics", "mining"),
    ),
    (
        "factors in percent",
        ("from = 0.4, to = 1.2, step = 0.1", "from = 40, to = 120, step = 10"),
        None,
        "[shells] factors: a factor is 40, and has to be a share",
        ("shells", "factors"),
    ),
    (
        "a step of factors that is too small",
        ("step = 0.1", "step = 0.0001"),
        None,
        "a step is at least 0.001",
        ("shells", "factors"),
    ),
    (
        "the sign of the rotation",
        ("rotation = 0", "rotation = -30"),
        turned,
        "off the grid that most blocks are on; 257 blocks are off it\n  try: rotation = 30 in [model]",
        ("model", "rotation"),
    ),
    ("no rotation", None, turned, "try: rotation = 30 in [model]", ("model", "rotation")),
    (
        "half the size",
        (METRES, "[10, 20, 15]"),
        None,
        "all are 2 blocks of 10 apart",
        ("model", "size"),
    ),
    (
        "a wrong height",
        (METRES, "[20, 20, 10]"),
        None,
        "are off it\n  try: size = [20, 20, 15] in [model]",
        ("model", "size"),
    ),
    (
        "a forgotten mark",
        ('["-99"]', "[]"),
        cell("CU", 7, -99),
        'row 9, column CU: -99 is below 0\n  try: absent = ["-99"]',
        ("economics", "metals", "copper", "grade"),
    ),
    (
        "rotation in radians",
        ("rotation = 0", "rotation = 0.5236"),
        turned,
        "off the grid",
        ("model", "rotation"),
    ),
    (
        "angles in radians",
        ("WEST = 44", "WEST = 0.77"),
        None,
        "from 5 to 89 degrees",
        ("slopes", "regions", "WEST"),
    ),
    (
        "96 degrees",
        ("WEST = 44", "WEST = 96"),
        None,
        "from 5 to 89 degrees",
        ("slopes", "regions", "WEST"),
    ),
    (
        "a price below 0",
        ("price = 8500", "price = -8500"),
        None,
        "try: price = 0, selling = 8500",
        ("economics", "metals", "copper", "price"),
    ),
    (
        "a cell with a decimal comma",
        None,
        cell("CU", 7, "0,45"),
        "it is '0,45'\n  try: 0.45 in that cell, as the others of the column have it",
        ("economics", "metals", "copper", "grade"),
    ),
    (
        "zeros with a decimal comma",
        None,
        commas,
        'try: decimal = ","',
        ("economics", "metals", "copper", "grade"),
    ),
    (
        "waste without rows",
        None,
        holed,
        "has no row, with blocks above and below it",
        ("model", "missing"),
    ),
    (
        "a row without tonnes",
        None,
        cell("TONNES", 7, np.nan),
        "weighs 0, and makes air of rock",
        ("model", "columns", "tonnes"),
    ),
    (
        "digging below 0",
        ("mining = 2.0", "mining = -2.0"),
        None,
        "study.toml: [economics] mining costs -2, less than nothing",
        ("economics", "mining"),
    ),
    ("feet for metres", (METRES, "[65.6, 65.6, 49.2]"), None, "off the grid", ("model", "size")),
    (
        "x and y swapped in a turned model",
        ("rotation = 0", 'rotation = 30\ncolumns = { x = "YC", y = "XC" }'),
        turned,
        'YC is a usual name of y, XC is a usual name of x\n  try: columns = { y = "YC", x = "XC" } in',
        ("model", "columns"),
    ),
    (
        "amounts in another unit",
        ("price = 8500", "price = 8.5e12"),
        None,
        "a revenue of",
        ("economics", "metals"),
    ),
    (
        "a word for a number",
        ("mining_rate = 1e6", 'mining_rate = "1e6"'),
        None,
        "mining_rate is '1e6', and has to be a number above 0",
        ("shells", "mining_rate"),
    ),
]


@pytest.mark.parametrize(
    "text, frame, said, key", [row[1:] for row in ERRORS], ids=[row[0] for row in ERRORS]
)
def test_a_slip_is_an_error(tmp_path, text, frame, said, key):
    found = check(slipped(tmp_path / "s", text, frame))
    assert len(found.errors) == 1, [(str(error), error.key) for error in found.errors]
    assert said in str(found.errors[0]), [(str(error), error.key) for error in found.errors]
    assert found.errors[0].key == key, [(str(error), error.key) for error in found.errors]


# Twelve mistakes in one study: nine of study.toml, and three that are found in the table.
TWELVE = [
    ("size = [20, 20, 15]", "size = [20, 20]"),
    ("rotation = 0", 'rotation = "north"'),
    ("mining = 2.0", 'mining = "2.0 + 0.03 * ZZC"'),
    ("dilution = 0.05", "dilutoin = 0.05"),
    ('["OXI", "SUL"]', '["OXI", "SULF"]'),
    ("price = 8500", "prise = 8500"),
    ('price_unit = "oz"', 'price_unit = "ounce"'),
    ("recovery = 0.60", "recovery = 60"),
    ("WEST = 44", "WESST = 44"),
    ("discount = 0.08", "discount = 8"),
    ("to = 1.2, ", ""),
]


def test_a_study_with_twelve_mistakes_is_mended_by_what_check_says(tmp_path):
    """Each round mends what the errors name, by their keys and lines alone."""
    text = STUDY
    for was, now in TWELVE:
        assert was in text
        text = text.replace(was, now, 1)
    folder, rounds, mended = (
        written_study(tmp_path / "s", cell("CU", 7, "N/S")(table(9, 8, 5, 5)), text),
        0,
        set(),
    )
    backward = {now: was for was, now in TWELVE if now}
    while (found := check(folder)).errors:
        rounds += 1
        assert rounds <= 3, list(map(str, found.errors))
        for error in found.errors:
            if error.remedy and error.remedy.adds:
                text, wanted = text.replace('["-99"]', '["-99", "N/S"]'), "N/S"
            else:
                line = line_of(text, error.key)[1]
                hits = [
                    now
                    for now in backward
                    if now.split("\n")[0] in text and any(part in line for part in now.splitlines())
                ] or ["from = 0.4, step"]
                wanted = hits[0]
                text = (
                    text.replace("from = 0.4, step", "from = 0.4, to = 1.2, step")
                    if wanted == "from = 0.4, step"
                    else text.replace(wanted, backward[wanted], 1)
                )
            mended.add(wanted)
        (folder / "study.toml").write_text(text)
    assert len(mended) == 12
    assert found.priced is not None
    assert rounds <= 3


def test_check_says_each_error_and_its_line_and_shows_the_tonnage(tmp_path):
    folder = written_study(
        tmp_path / "s",
        text=STUDY.replace("dilution = 0.05", "dilution = 5")
        .replace("price = 1900", "prise = 1900")
        .replace("size = [20, 20, 15]", "size = [20, 20]"),
    )
    ran = command("check", folder)
    out, faults = ran.communicate(timeout=600)
    assert ran.returncode == 3
    assert not out
    assert faults.splitlines() == [
        "error: study.toml: [model] size is [20, 20], and has to be three numbers above 0",
        "  study.toml:3: size = [20, 20]",
        "  try: size = [20, 20, 10]",
        "error: study.toml: [economics] dilution is 5, and has to be a number from 0 to 1",
        "  study.toml:11: dilution = 5",
        "  try: dilution = 0.05 in [economics]",
        "error: study.toml: [economics] metal gold has no key 'prise'; is 'price' meant?",
        '  study.toml:15: { name = "gold", grade = "AU", grade_unit = "g/t", prise = 1900, price_unit = "oz", recovery = 0.60, payable = 0.98 },',
        "  try: price = 1900",
        "error: study.toml: [economics] metal gold has no price: of a unit of metal, at factor 1",
        '  study.toml:15: { name = "gold", grade = "AU", grade_unit = "g/t", prise = 1900, price_unit = "oz", recovery = 0.60, payable = 0.98 },',
        "  try: price = 1",
    ]
    (folder / "study.toml").write_text(STUDY)
    out = said("check", folder)
    assert (
        "walls of default, as seen from the pit's middle: north 38, east 45, south 50, west 42"
        in out
    )
    assert "copper %" in out
    assert "nothing is wrong" in out
    assert not (folder / "model").exists()
    for price, ends in (
        ("3.86", "no errors; 1 look to decide on; then: "),
        ("80000", "no errors; 1 look to decide on; then: "),
    ):
        (folder / "study.toml").write_text(
            STUDY.replace("price = 8500", f"price = {price}").replace(
                "selling = 420", "selling = 2000" if price == "80000" else "selling = 420"
            )
        )
        assert ends in said("check", folder)


def test_rows_are_spelled_alike_in_a_message():
    error = PlanError("no number", row=4335).with_cells([Cell(4336, "x")])
    assert lines_of(error) == ["row 4337: no number", "  also row 4338: 'x'"]


def test_a_mine_that_takes_for_ever_is_worth_nothing_and_no_warning():
    with warnings.catch_warnings():
        warnings.simplefilter("error")
        worth, years = discounted(
            np.full(3, 1e6), [np.full(3, 1e5)], np.full(3, 1e9), Rates(1e6, 1.5, 0.08)
        )
    assert worth == 0.0
    assert years == pytest.approx(2e5)


def test_a_wrong_key_hides_no_other(tmp_path):
    """What is wrong in study.toml by itself, and what the table says of its other keys, are told at
    once."""
    text = STUDY
    for was, now in (
        ("dilution = 0.05", "dilution = 5"),
        ('["OXI", "SUL"]', '["OXI", "SULF"]'),
        ("mining = 2.0", 'mining = "2.0 + ZZC"'),
        ("recovery = 0.60", "recovery = 60"),
        ("WEST = 44", "WESST = 44"),
        ("discount = 0.08", "discount = 8"),
    ):
        text = text.replace(was, now, 1)
    found = check(written_study(tmp_path / "s", cell("CU", 7, "N/S")(table(9, 8, 5, 5)), text))
    assert {error.key for error in found.errors} == {
        ("economics", "dilution"),
        ("economics", "mill"),
        ("economics", "mining"),
        ("economics", "metals", "copper", "grade"),
        ("economics", "metals", "gold", "recovery"),
        ("slopes", "regions", "WESST"),
        ("shells", "discount"),
    }


def keys_told(tmp_path, changes, frame=None):
    """The keys of all errors of the study with some changes, sorted."""
    text = STUDY
    for was, now in changes:
        assert was in text, was
        text = text.replace(was, now, 1)
    base = table(9, 8, 5, 5)
    found = check(written_study(tmp_path / "s", base if frame is None else frame(base), text))
    return sorted((error.key for error in found.errors), key=str), [*map(str, found.errors)]


# What is wrong where one thing hides another: the changes of study.toml and of the table, and the keys of all errors.
HIDDEN = {
    "a wrong flag of slopes hides no region": (
        [("WEST = 44", "WESST = 44"), ("regions =", "safe = 1\nregions =")],
        None,
        [("slopes", "regions", "WESST"), ("slopes", "safe")],
    ),
    "a wrong flag of slopes hides no angle": (
        [("WEST = 44", "WEST = 96, EAST = 3"), ("regions =", "safe = 1\nregions =")],
        None,
        [("slopes", "regions", "EAST"), ("slopes", "regions", "WEST"), ("slopes", "safe")],
    ),
    "regions that are misspelt hide no column": (
        [("regions = {", "regoins = {"), ('"SECTOR"', '"SECTR"')],
        None,
        [("slopes", "by"), ("slopes", "regoins")],
    ),
    "a column that is no word hides no angle": (
        [('by = "SECTOR"', "by = 7"), ("WEST = 44", "WEST = 96")],
        None,
        [("slopes", "by"), ("slopes", "regions", "WEST")],
    ),
    "a wrong discount hides no factor": (
        [("discount = 0.08", "discount = 8"), ("from = 0.4", "from = 40")],
        None,
        [("shells", "discount"), ("shells", "factors")],
    ),
    "a wrong key of a metal hides none of its others": (
        [
            ("payable = 0.965", "payable = 96.5"),
            ('"CU"', '"CUU"'),
            ("recovery = 0.85", "recovery = 85"),
        ],
        None,
        [("economics", "metals", "copper", key) for key in ("grade", "payable", "recovery")],
    ),
    "a metal without a grade has its recovery read": (
        [('grade = "CU", ', ""), ("recovery = 0.85", 'recovery = "0.8 * XX"')],
        None,
        [("economics", "metals", "copper", key) for key in ("grade", "recovery")],
    ),
    "a metal without a name has its grade read": (
        [('name = "gold", grade = "AU"', 'grade = "AUU"')],
        None,
        [("economics", "metals", 1, "name"), ("economics", "metals", 1, "grade")],
    ),
    "metals that aren't there hide no formula": (
        [("metals = [", "mettals = ["), ("mining = 2.0", 'mining = "2.0 + ZZC"')],
        None,
        [("economics", "metals"), ("economics", "mettals"), ("economics", "mining")],
    ),
    "a wrong cost hides no rounding": (
        [("mining = 2.0", "mining = true\nrounding = 0.00000001")],
        None,
        [("economics", "mining"), ("economics", "rounding")],
    ),
    "a wrong formula of forbid hides no other": (
        [("mining = 2.0", 'mining = 2.0\nforbid = ["XX > 1", "YC > 5", "YY > 1"]')],
        None,
        [("economics", "forbid"), ("economics", "forbid")],
    ),
    "a size that is wrong hides no rock, formula, region": (
        [
            ("[20, 20, 15]", "[20, 20, 10]"),
            ('"SUL"]', '"SULF"]'),
            ("mining = 2.0", 'mining = "2.0 + 0.1 * ZZC"'),
            ("WEST = 44", "WESST = 44"),
            ("SUL = 9.0", "SULF = 9.0"),
        ],
        None,
        [
            ("economics", "mill"),
            ("economics", "mining"),
            ("economics", "processing"),
            ("model", "size"),
            ("slopes", "regions", "WESST"),
        ],
    ),
    "a size that is wrong hides no region by a formula of columns": (
        [
            ("[20, 20, 15]", "[20, 20, 10]"),
            ('"SECTOR"', "\"where(CU > 0.4, 'RICH', SECTOR)\""),
            ("{ WEST", "{ RICH = 40, WESST"),
        ],
        None,
        [("model", "size"), ("slopes", "regions", "WESST")],
    ),
    "a cell without a place hides no rock, formula, weight": (
        [('"SUL"]', '"SULF"]'), ("mining = 2.0", 'mining = "2.0 + 0.1 * (ZC > ZZC)"')],
        lambda frame: cell("TONNES", 9, -5.0)(cell("ZC", 7, "?")(frame)),
        [
            ("economics", "mill"),
            ("economics", "mining"),
            ("model", "columns", "tonnes"),
            ("model", "columns", "z"),
        ][:2]
        + [("model", "columns"), ("model", "columns", "z")],
    ),
    "columns that aren't there hide no other and no rock": (
        [("size =", 'columns = { x = "XCC", id = "IJ" }\nsize ='), ('"SUL"]', '"SULF"]')],
        None,
        [("economics", "mill"), ("model", "columns", "id"), ("model", "columns", "x")],
    ),
    "a wrong key of the model hides no rock and no grade": (
        [("rotation = 0", 'rotation = "north"'), ('"SUL"]', '"SULF"]')],
        cell("CU", 7, "0.4.5"),
        [
            ("economics", "metals", "copper", "grade"),
            ("economics", "mill"),
            ("model", "rotation"),
        ],
    ),
    "rocks by rock are told all at once": (
        [("{ OXI = 7.5, SUL = 9.0 }", "{ OXID = 7.5, SULF = 9.0, other = 8 }")],
        None,
        [("economics", "processing"), ("economics", "processing")],
    ),
}


@pytest.mark.parametrize("changes, frame, keys", HIDDEN.values(), ids=HIDDEN)
def test_nothing_hides_what_doesnt_hang_on_it(tmp_path, changes, frame, keys):
    found, words = keys_told(tmp_path, changes, frame)
    assert found == sorted(keys, key=str), words


BY_DEPTH = [
    ('"SECTOR"', "\"where(below_ground < 20, 'SOFT', SECTOR)\""),
    ("{ WEST", "{ SOFT = 36, WEST"),
]
# What hangs on another mistake waits: nothing is told that goes away with it.
HANGS = {
    "grades, on a key that says which cells are none": (
        [('absent = ["-99"]', 'absnt = ["-99"]')],
        cell("CU", 7, -99),
        [("model", "absnt")],
    ),
    "grades, on a mark that is no list": (
        [('absent = ["-99"]', 'absent = "-99"'), ("rotation = 0", "rotation = true")],
        cell("CU", 7, -99),
        [("model", "absent"), ("model", "rotation")],
    ),
    "the column of regions, on regions that are misspelt": (
        [("regions = {", "regoins = {")],
        None,
        [("slopes", "regoins")],
    ),
    "the same, on a word that is like no key": (
        [("regions = {", "zqx = {")],
        None,
        [("slopes", "zqx")],
    ),
    "a grade above that of rock, on its unit": (
        [('grade = "CU"', 'grade = "CU", grade_unit = "kg"')],
        lambda frame: frame.assign(CU=frame["CU"] * 1000),
        [("economics", "metals", "copper", "grade_unit")],
    ),
    "a formula of a place, on a cell of it that is wrong": (
        [("mining = 2.0", 'mining = "sqrt(ZC - 90)"')],
        cell("ZC", 7, "?"),
        [("model", "columns", "z")],
    ),
    "a rock that fills gaps, on a size": (
        [
            ("[20, 20, 15]", "[20, 20, 10]"),
            ("size =", 'missing = "rock"\nfill = { tonnes = 1, rock = "FILL" }\nsize ='),
            ("SUL = 9.0", "SUL = 9.0, FILL = 8, other = 7"),
        ],
        None,
        [("model", "size")],
    ),
    "a rock that fills gaps and weighs no number, on a size": (
        [
            ("[20, 20, 15]", "[20, 20, 10]"),
            ("size =", 'missing = "rock"\nfill = { TONNES = {}, rock = "OXI" }\nsize ='),
        ],
        None,
        [("model", "size")],
    ),
    "regions by depth, on a size": (
        [("[20, 20, 15]", "[20, 20, 10]"), *BY_DEPTH],
        None,
        [("model", "size")],
    ),
    "regions by depth, on a weight": (
        [("rotation = 0", 'rotation = 0\ntonnes = "SGG * 6000"'), *BY_DEPTH],
        None,
        [("model", "tonnes")],
    ),
    "regions by elevation, on a unit": (
        [
            ("rotation = 0", 'rotation = 0\nunits = { length = "feet" }'),
            ('"SECTOR"', "\"where(elevation > 120, 'UP', SECTOR)\""),
            ("{ WEST", "{ UP = 40, WEST"),
        ],
        None,
        [("model", "units")],
    ),
    "regions by depth, on a cell": (
        BY_DEPTH,
        cell("TONNES", 7, "<0.1"),
        [("model", "columns", "tonnes")],
    ),
    "cells with decimal commas, on the key that says so": (
        [("rotation = 0", "decimal = 44")],
        lambda frame: frame.assign(CU=frame["CU"].astype(str).str.replace(".", ",", regex=False)),
        [("model", "decimal")],
    ),
}


@pytest.mark.filterwarnings("error::FutureWarning")
@pytest.mark.parametrize("changes, frame, keys", HANGS.values(), ids=HANGS)
def test_what_hangs_on_a_mistake_waits(tmp_path, changes, frame, keys):
    found, words = keys_told(tmp_path, changes, frame)
    assert found == sorted(keys, key=str), words


def test_a_formula_that_gives_no_number_is_told_by_the_row_of_the_table(tmp_path):
    _, words = keys_told(tmp_path, [("mining = 2.0", 'mining = "sqrt(ZC - 101)"')])
    assert len(words) == 1, words
    assert re.match(r"t\.csv, row \d+: \[economics\] mining", words[0]), words


def test_a_table_that_isn_t_there_is_told_beside_wrong_keys(tmp_path):
    text = STUDY.replace('"t.csv"', '"tt.csv"').replace("absent =", "absnt =")
    found = check(written_study(tmp_path / "s", table(9, 8, 5, 5), text))
    assert [error.key for error in found.errors] == [("model", "absnt"), ("model", "table")]
    assert found.errors[1].try_this.endswith("/t.csv")


def test_metals_that_cant_be_read_are_no_mistake_of_processes(tmp_path):
    """Which name their recoveries; and a process's own mistake is told beside."""
    text = two_ways.TEXT.replace("price = 60,", "price = 1,900,").replace("rate = 120e3", "rat = 1")
    errors = check(two_ways.written(tmp_path / "s", text=text)).errors
    assert [error.key for error in errors] == [
        ("economics", "metals"),
        ("economics", "processes", "leach", "rat"),
    ]


def test_a_wrong_angle_of_a_region_hides_no_region(tmp_path):
    found, words = keys_told(tmp_path, [("WEST = 44", "WEST = 96, NORRTH = 44")])
    assert found == [("slopes", "regions", "NORRTH"), ("slopes", "regions", "WEST")], words


def test_a_unit_by_another_name_is_told_by_ours(tmp_path):
    _, words = keys_told(tmp_path, [('price_unit = "oz"', 'price_unit = "ounces"')])
    assert len(words) == 1
    assert 'try: price_unit = "oz"' in words[0]


def test_where_no_size_is_told_that_of_the_table_is_offered(tmp_path):
    _, words = keys_told(tmp_path, [("size = [20, 20, 15]\n", "")])
    assert [word.split("\n")[1] for word in words] == ["  try: size = [20, 20, 15] in [model]"]


def test_a_place_that_is_very_far_away_is_told_by_its_row(tmp_path):
    frame = table(6, 5, 4, 3).astype({"YC": float})
    frame.loc[30, "YC"] = 1e17
    file = [str(error) for error in check(written_study(tmp_path / "s", frame)).errors]
    assert "row 32, column YC: the centre is more than 1,000,000,000 blocks of 20 away" in file[0]


def test_classes_are_looked_up_where_places_are_wrong(tmp_path):
    """A column of classes has words: they are looked up in a table whose places are wrong, too."""
    frame = table(6, 5, 4, 3).assign(CLASS=lambda f: [("MEA", "INF")[at % 2] for at in f.index])
    frame["XC"] = frame["XC"].astype(object)
    frame.loc[3, "XC"] = "x"
    toml = (
        '[model]\ntable = "t.csv"\nsize = [20, 20, 15]\n[economics]\nmining = 2.0\nprocessing = 9\n'
        'waste_classes = ["INF", "IND"]\nmetals = [ { name = "copper", grade = "CU", price = 8500 } ]\n[slopes]\nangles = 45\n'
    )
    file = [str(error) for error in check(written_study(tmp_path / "s", frame, toml)).errors]
    assert len(file) == 2
    assert "row 5, column XC" in file[0]
    assert "waste_classes: no block is of class 'IND'" in file[1]
