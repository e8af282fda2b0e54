"""What looks wrong of a study: of each slip a word, and of mines that are right none."""
import re
import sys

import numpy as np
import pytest

from mines import below, table, written_study
from pitplan.model.economics import Economics, Metal
from pitplan.study.check import check
from pitplan.study.strange_inputs import _of_dollars, _of_two_rates
from processes import TOP
from slips import STUDY, cell, slipped


def density(factor=1.0):
    """A frame with a density in place of tonnes."""

    def change(frame):
        return frame.assign(SG=(frame["TONNES"] / 6000 * factor).round(3)).drop(columns="TONNES")

    return change


def unweighed(frame):
    frame = density()(frame)
    return frame.assign(SG=frame["SG"].where(frame["ZC"] < frame["ZC"].max(), -99))


def upside_down(frame):
    return frame.assign(ZC=1000 - frame["ZC"])


LOOKS = [
    (
        "a price a pound told as a tonne",
        ("price = 8500", "price = 3.86"),
        None,
        "copper costs 3.86 $ a t; about 8,500 is usual\n  try: price = 8509.8 of copper",
        ("economics", "metals", "copper", "price"),
    ),
    (
        "a price a tonne told as a pound",
        ("price = 8500", 'price = 8500, price_unit = "lb"'),
        None,
        'copper costs 8,500 $ a lb; about 3.86 is usual\n  try: price_unit = "t" of copper',
        ("economics", "metals", "copper", "price"),
    ),
    (
        "gold a gram told as an ounce",
        ("price = 1900", "price = 61"),
        None,
        'gold costs 61 $ a oz; about 1,900 is usual\n  try: price = 1897.3 of gold, or price_unit = "g"',
        ("economics", "metals", "gold", "price"),
    ),
    (
        "a price in dollars told as one in pesos",
        ("[economics]", '[economics]\ncurrency = "CLP"'),
        None,
        "copper costs 8,500 CLP a t; about 8,100,000 is usual, and in dollars 8,500\n"
        '  try: price of copper in CLP, or currency = "$" in [economics]',
        ("economics", "metals", "copper", "price"),
    ),
    (
        "a metal's price in dollars told as one in soles",
        (
            'metals = [\n    { name = "copper",',
            'exchange = { PEN = 0.27 }\nmetals = [\n    { name = "copper", currency = "PEN",',
        ),
        None,
        "copper costs 8,500 PEN a t; about 31,000 is usual, and in dollars 8,500\n"
        '  try: price of copper in PEN, or currency = "$" in metal copper',
        ("economics", "metals", "copper", "price"),
    ),
    (
        "percent told as ppm",
        ('grade = "CU"', 'grade = "CU", grade_unit = "ppm"'),
        None,
        "copper brings 0.",
        ("economics", "metals", "copper"),
    ),
    (
        "g/t told as percent",
        ('grade_unit = "g/t"', 'grade_unit = "%"'),
        None,
        "the ore brings",
        ("economics", "metals"),
    ),
    (
        "density in kg/m3",
        None,
        density(1000),
        "for each cubic unit; rock has 1.5 to 5",
        ("model", "size"),
    ),
    (
        "kilotonnes",
        None,
        lambda frame: frame.assign(TONNES=frame["TONNES"] / 1000),
        "for each cubic unit; rock has 1.5 to 5",
        ("model", "size"),
    ),
    (
        "costs in cents",
        ("OXI = 7.5, SUL = 9.0", "OXI = 750, SUL = 900"),
        None,
        "no block pays for its treatment",
        ("economics", "metals"),
    ),
    (
        "forbid that holds nowhere",
        ("mining = 2.0", 'mining = 2.0\nforbid = ["XC > 60000"]'),
        None,
        "holds for no block",
        ("economics", "forbid"),
    ),
    (
        "forbid that holds everywhere",
        ("mining = 2.0", 'mining = 2.0\nforbid = ["XC > 500"]'),
        None,
        "forbid keeps .* blocks of rock from being dug; it keeps a corridor",
        ("economics", "forbid"),
    ),
    (
        "z counted downward",
        None,
        upside_down,
        'ground is uneven above, not below\n  try: z = "depth" in [model]',
        ("model", "z"),
    ),
    (
        "a depth as an elevation",
        ("size =", 'columns = { z = "DEPTH" }\nsize ='),
        lambda frame: frame.rename(columns={"ZC": "DEPTH"}),
        "z is read from DEPTH as an elevation",
        ("model", "z"),
    ),
    (
        "a density that isn't known counts as 0",
        None,
        unweighed,
        "rows have no SG, as absent says, and weigh nothing",
        ("model", "absent"),
    ),
    (
        "x and y swapped in a model that isn't turned",
        ("rotation = 0", 'columns = { x = "YC", y = "XC" }'),
        None,
        'YC is a usual name of y.*\n  try: columns = { x = "XC", y = "YC", .*z = "ZC", .* } in',
        ("model", "columns", "x"),
    ),
    (
        "digging for nothing",
        ("mining = 2.0", "mining = 0"),
        None,
        "digging costs nothing for 296 of 296 blocks",
        ("economics", "mining"),
    ),
    (
        "one cell a thousand times too large",
        None,
        cell("AU", 7, 1610.0),
        "row 9 has 1,610 g/t in AU; the next largest cell is 0.",
        ("economics", "metals", "gold", "grade"),
    ),
    (
        "a block that weighs too much",
        None,
        cell("TONNES", 7, 1.5e6),
        "row 9 weighs 1,500,000 tonnes; half of all blocks weigh 1",
        ("model", "columns"),
    ),
    (
        "a formula by which a rock of the mill weighs nothing",
        ("rotation = 0", "rotation = 0\ntonnes = \"where(ROCK == 'OXI', 2.35, 0) * 6000\""),
        None,
        "SUL weighs nothing in any of its 154 blocks by the formula of tonnes, and is in mill",
        ("model", "tonnes"),
    ),
    (
        "a density ten times too large",
        None,
        lambda frame: cell("SG", 7, 26.7)(density()(frame)),
        "row 9 has a density of 26.7 by SG; half of all blocks have 2.49",
        ("model", "columns"),
    ),
    (
        "a density many times that of light rock",
        None,
        lambda frame: cell("SG", 7, 6.5)(density(0.4)(frame)),
        "row 9 has a density of 6.5 by SG; half of all blocks have 0.997",
        ("model", "columns"),
    ),
    (
        "selling a pound told as a tonne",
        ("selling = 420", "selling = 0.19"),
        None,
        "selling a t of copper costs 0.19, and its price is 8,500",
        ("economics", "metals", "copper", "selling"),
    ),
    (
        "selling a tonne told as a pound",
        ("price = 8500, recovery", 'price = 3.86, price_unit = "lb", recovery'),
        None,
        "selling a lb of copper costs 420",
        ("economics", "metals", "copper", "selling"),
    ),
    (
        "rates the other way round",
        ("mining_rate = 1e6\nmill_rate = 5e5", "mining_rate = 5e5\nmill_rate = 1e6"),
        None,
        "no more is treated than is dug",
        ("shells", "mill_rate"),
    ),
    (
        "rates of a plan the other way round",
        ("mill_rate = 5e5", "mill_rate = 5e5\n[schedule]\nmill_rate = [0, 1.2e6]"),
        None,
        "the mill takes 1,200,000 tonnes a year, and 1,000,000 are dug",
        ("schedule", "mill_rate"),
    ),
    (
        "a grade in another unit than its column says",
        ('grade = "CU"', 'grade = "CU_PPM"'),
        lambda frame: frame.rename(columns={"CU": "CU_PPM"}),
        "the column CU_PPM is in ppm by its name, and copper in %",
        ("economics", "metals", "copper", "grade_unit"),
    ),
    (
        "a discount of a place too little",
        ("discount = 0.08", "discount = 0.008"),
        None,
        "discount = 0.008 is 0.8 % a year",
        ("shells", "discount"),
    ),
    (
        "a rate in million tonnes",
        ("mill_rate = 5e5", "mill_rate = 0.5"),
        None,
        "at 0.5 tonnes a year the ore of the whole model takes",
        ("shells", "mill_rate"),
    ),
    (
        "a rate by year in million tonnes",
        ("mill_rate = 5e5", "mill_rate = 5e5\n[schedule]\nmill_rate = [0.3, 0.4]"),
        None,
        "at 0.4 tonnes a year the ore of the whole model takes",
        ("schedule", "mill_rate"),
    ),
    (
        "a rate by year of digging, a thousand times too large",
        ("mill_rate = 5e5", "mill_rate = 5e5\n[schedule]\nmining_rate = 1e9"),
        None,
        "at 1,000,000,000 tonnes a year the rock of the whole model takes",
        ("schedule", "mining_rate"),
    ),
    (
        "a decimal comma in a rate by year",
        ("mill_rate = 5e5", "mill_rate = 5e5\n[schedule]\nmill_rate = [0, 1,5e5]"),
        None,
        "year 2 of mill_rate in [schedule] has 1 tonnes, and another 500,000",
        ("schedule", "mill_rate"),
    ),
    (
        "a last rate of 0",
        ("mill_rate = 5e5", "mill_rate = 5e5\n[schedule]\nmill_rate = [0, 5e5, 0]"),
        None,
        "mill_rate in [schedule] ends in 0, which is the rate of year 3 and of all years after it",
        ("schedule", "mill_rate"),
    ),
    (
        "other rates of the plan by years than of the pits",
        (
            "discount = 0.08",
            "discount = 0.08\n[schedule]\nmining_rate = [5e5, 1e6]\nmill_rate = [0, 4e5]\ndiscount = 0.1",
        ),
        None,
        "mill_rate is 0, 400,000 in [schedule], and 500,000 for the pits; discount is 0.1 in [schedule],"
        " and 0.08 for the pits; the best",
        ("schedule",),
    ),
    (
        "a discount of a point moved",
        ("discount = 0.08", "discount = 0.85"),
        None,
        "discount = 0.85 is 85 % a year",
        ("shells", "discount"),
    ),
    (
        "a rate a day",
        ("mining_rate = 1e6\nmill_rate = 5e5", "mining_rate = 2740\nmill_rate = 1370"),
        None,
        "at 2,740 tonnes a year the rock of the whole model takes",
        ("shells", "mining_rate"),
    ),
    (
        "bearings against the clock",
        ("[[0, 38], [90, 45], [180, 50], [270, 42]]", "[[270, 38], [180, 45], [90, 50], [0, 42]]"),
        None,
        "a bearing counts clockwise from north",
        ("slopes", "angles"),
    ),
    (
        "a region on the wrong side",
        ("rotation = 0", "rotation = 0"),
        lambda frame: frame.assign(SECTOR=np.where(frame["SECTOR"] == "WEST", "EAST", "WEST")),
        "the region WEST lies on the other side",
        ("slopes", "regions", "WEST"),
    ),
    (
        "a column of percent that nothing reads",
        None,
        lambda frame: frame.assign(**{"TOPO%": np.linspace(3, 100, len(frame)).round(1)}),
        "nothing reads the column TOPO%, which is from 3 to 100",
        ("model", "columns"),
    ),
]


@pytest.mark.parametrize(
    "text, frame, said, key", [row[1:] for row in LOOKS], ids=[row[0] for row in LOOKS]
)
def test_a_slip_looks_wrong(tmp_path, text, frame, said, key):
    found = check(slipped(tmp_path / "s", text, frame))
    assert not found.errors, list(map(str, found.errors))
    hits = [
        look
        for look in found.looks
        if re.search(
            said.replace("[", r"\[")
            .replace("(", r"\(")
            .replace("$", r"\$")
            .replace("+", r"\+")
            .replace("%", "%"),
            str(look),
        )
    ]
    assert len(hits) == 1, [(str(look), look.key) for look in found.looks]
    assert hits[0].key == key, [(str(look), look.key) for look in found.looks]
    assert hits[0].try_this, [(str(look), look.key) for look in found.looks]


@pytest.mark.parametrize(
    "currency, prices",
    [
        ("PEN", (16_500, 4000)),  # copper at 4,460 dollars a tonne, gold at 1,080 an ounce
        ("MXN", (85_000, 20_000)),  # of ten pesos a dollar
        ("CLP", (4_300_000, 900_000)),  # of five hundred
        ("Kc", (8500, 1900)),  # of which nothing is known
    ],
)
def test_low_prices_in_another_currency_are_none_in_dollars(currency, prices):
    copper, gold = (
        Metal(name, "G", price=price, recovery=0.85, price_unit=unit)
        for name, price, unit in zip(("copper", "gold"), prices, ("t", "oz"))
    )
    economics = Economics(metals=(copper, gold), mining=2.0, processing=9.0, currency=currency)
    assert list(_of_dollars(economics)) == []


@pytest.mark.parametrize(
    "terms, rates, said",
    [
        ({"mill_rate": [0, 5e5], "mining_rate": 1e6}, {"mill_rate": 5e5, "mining_rate": 1e6}, None),
        ({}, {"mill_rate": 5e5}, None),
        ({"discount": 0.1}, {}, None),  # which is that of pits, too, where nothing is said
        ({"mining_rate": 1e6}, {}, "mining_rate is 1,000,000 in [schedule], and none for the pits"),
        (
            {"process_rates": {"leach": 2e5}},
            {"process_rates": {"mill": 5e5, "leach": 1e5}},
            "the rate of leach is 200,000 in [schedule], and 100,000 for the pits",
        ),
    ],
)
def test_rates_of_plan_and_pits_are_held_beside_each_other(terms, rates, said):
    found = [str(look) for look in _of_two_rates(terms, rates)]
    assert [look.partition(";")[0] for look in found] == ([said] if said else [])


CAUSES = [  # a slip, what is said of it, and of what comes of it
    (
        "a price a tonne told as a pound",
        (
            "price = 8500, recovery = 0.85, payable = 0.965, selling = 420",
            'price = 8500, price_unit = "lb", recovery = 0.85',
        ),
        None,
        ['or price_unit = "t"', "the ore brings", "gold brings"],
    ),
    (
        "a price in thousands",
        ("price = 1900", "price = 1.9"),
        None,
        ["gold costs 1.9 $ a oz", "gold brings"],
    ),
    (
        "a grade in another unit than its column says",
        ('grade = "CU", price = 8500', 'grade = "CU_PCT", grade_unit = "ppm", price = 8500'),
        lambda frame: frame.rename(columns={"CU": "CU_PCT"}),
        ['try: grade_unit = "%"', "copper brings"],
    ),
    (
        "costs in cents",
        ("OXI = 7.5, SUL = 9.0", "OXI = 750, SUL = 900"),
        None,
        ["try: processing = { OXI = 7.5, SUL = 9 }", "no block pays for its treatment"],
    ),
    (
        "one block that weighs more than all",
        None,
        cell("TONNES", 7, 1.5e9),
        ["row 9 weighs 1,500,000,000 tonnes", "on average"],
    ),
    (
        "forbid that holds everywhere, and costs in tenths of a cent",
        (
            "mining = 2.0\nprocessing = { OXI = 7.5, SUL = 9.0 }",
            'mining = 2.0\nforbid = ["XC > 500"]\nprocessing = { OXI = 7500, SUL = 9000 }',
        ),
        None,
        ["try: processing = ", "forbid keeps", "no block pays"],
    ),
]


@pytest.mark.parametrize(
    "text, frame, said", [row[1:] for row in CAUSES], ids=[row[0] for row in CAUSES]
)
def test_a_cause_is_told_before_what_comes_of_it(tmp_path, text, frame, said):
    found = check(slipped(tmp_path / "s", text, frame))
    assert not found.errors, list(map(str, found.errors))
    texts = list(map(str, found.looks))
    assert said[0] in texts[0], texts
    at = [next(i for i, text in enumerate(texts) if part in text) for part in said]
    assert at == sorted(at), texts


def test_beside_a_rate_that_is_far_off_another_is_not_too_large(tmp_path):
    """20 million tonnes were meant; to swap the rates would make it worse."""
    change = "mining_rate = 1e6\nmill_rate = 5e5", "mining_rate = 20\nmill_rate = 8e6"
    found = check(slipped(tmp_path / "s", change, None))
    texts = list(map(str, found.looks))
    assert "at 20 tonnes a year the rock of the whole model takes" in texts[0]
    assert not any("other way round" in text for text in texts), texts


def test_a_rock_with_grades_that_weighs_nothing_looks_wrong(tmp_path):
    """Its blocks and those with a grade are counted in the table; air, a rock without any grade, and
    one that weighs something in a block are right."""
    base = table(9, 8, 5, 5)
    kinds = np.array(["OXI", "SUL", "DYKE", "VOID", "air", "PART"])
    frame = base.assign(ROCK=kinds[np.arange(len(base)) % 6])
    frame.loc[frame.ROCK.isin(["VOID", "air"]), ["CU", "AU"]] = 0.0
    weights = "where(ROCK == 'OXI' or ROCK == 'SUL' or ROCK == 'PART' and ZC > 120, 2.4, 0) * 6000"
    text = STUDY.replace("rotation = 0", f'rotation = 0\ntonnes = "{weights}"')
    text = text.replace("SUL = 9.0", "SUL = 9.0, other = 0")
    found = check(written_study(tmp_path / "s", frame, text))
    assert not found.errors, list(map(str, found.errors))
    dyke = frame[frame.ROCK == "DYKE"]
    graded = ((dyke.CU > 0) | (dyke.AU > 0)).sum()
    (hit,) = [str(look) for look in found.looks if "weighs nothing" in str(look)]
    assert f"DYKE weighs nothing in any of its {len(dyke)} blocks" in hit
    assert f"and has grades in {graded}" in hit
    assert "tonnes in [model]" in hit


def test_nothing_looks_wrong_in_a_mine_that_is_right(tmp_path):
    found = check(slipped(tmp_path / "s", None, None))
    assert not found.errors, (found.errors, list(map(str, found.looks)))
    assert not found.looks, (found.errors, list(map(str, found.looks)))


HILL = (
    re.search(
        r"\$ cat hill/study.toml\n(.*?)\n\nWhat", (TOP / "docs" / "PLANNING.md").read_text(), re.S
    )[1]
    .replace("\n    ", "\n")
    .strip()
    .replace("../examples", str(TOP / "examples"))
)
PLAIN = """[model]
table = "t.csv"
size = [20, 20, 10]
[economics]
mining = 2.1
processing = 9.5
metals = [ { name = "copper", grade = "grade", price = 6500, recovery = 0.88 } ]
[slopes]
angles = 45
"""
WALLS = PLAIN.replace("[20, 20, 10]", "[10, 10, 10]").replace('"grade"', '"CU"')


def of_the_day(path):
    sys.path.insert(0, str(TOP / "tests"))
    from program import day_mine

    with open(path, "w", newline="") as file:
        day_mine.write_table(day_mine.blocks(), file)


def of_examples(path):
    path.write_bytes((TOP / "examples" / "small_model.csv").read_bytes())


def of_a_cliff(path):
    below(3).to_csv(path, index=False)


@pytest.mark.parametrize(
    "text, write",
    [(HILL, None), (PLAIN, of_the_day), (PLAIN, of_examples), (WALLS, of_a_cliff)],
    ids=["the hill", "tests/day", "small_model.csv", "beside a cliff"],
)
def test_nothing_looks_wrong_in_the_mines_of_the_repository(tmp_path, text, write):
    (tmp_path / "study.toml").write_text(text)
    if write:
        write(tmp_path / "t.csv")
    found = check(tmp_path)
    assert not found.errors, ([*map(str, found.errors)], [*map(str, found.looks)])
    assert not found.looks, ([*map(str, found.errors)], [*map(str, found.looks)])
    assert found.priced is not None, ([*map(str, found.errors)], [*map(str, found.looks)])


@pytest.mark.parametrize("seed", range(4))
def test_nothing_looks_wrong_in_mines_of_the_tests(tmp_path, seed):
    found = check(
        written_study(
            tmp_path / "s",
            table(9, 8, 5, seed, rotation=30 * seed),
            STUDY.replace("rotation = 0", f"rotation = {30 * seed}"),
        )
    )
    assert not found.errors, ([*map(str, found.errors)], [*map(str, found.looks)])
    assert not found.looks, ([*map(str, found.errors)], [*map(str, found.looks)])
