"""What blocks bring and cost, against sums made here."""
import tomllib

import numpy as np
import pandas as pd
import pytest

import pitplan as pp
from mines import COPPER, costs, model_of, refusal, table
from pitplan.base.units import metal_in_a_tonne


@pytest.fixture(scope="module")
def frame():
    return table(5, 4, 4, 6)


@pytest.fixture(scope="module")
def model(frame):
    return model_of(frame)


def test_two_metals_with_everything(frame, model):
    metals = (
        pp.Metal(
            "copper",
            "CU",
            price=4.0,
            grade_unit="%",
            price_unit="lb",
            recovery={"OXI": 0.6, "SUL": 0.9},
            payable=0.965,
            selling=0.35,
        ),
        pp.Metal(
            "gold",
            "AU",
            price=1900,
            grade_unit="g/t",
            price_unit="oz",
            recovery="0.5 + 0.1 * (AU > 0.1)",
            payable=0.98,
            selling=6,
        ),
    )
    economics = costs(
        metals=metals,
        mining="2.2 + 0.01 * (145 - ZC) / 15",
        processing={"OXI": 7.5, "other": 9.0},
        dilution=0.05,
        mining_recovery=0.95,
    )
    priced = economics.priced(model)
    for b, row in enumerate(frame.itertuples()):
        kept = row.TONNES * 0.95
        pounds = kept * row.CU / 100 * {"OXI": 0.6, "SUL": 0.9}[row.ROCK] / 0.00045359237
        ounces = kept * row.AU / 31.1034768 * (0.6 if row.AU > 0.1 else 0.5)
        assert priced.ways[0].metal["copper"][b] == pytest.approx(pounds)
        assert priced.ways[0].metal["gold"][b] == pytest.approx(ounces)
        assert (
            abs(priced.ways[0].revenue[b] - (pounds * 4.0 * 0.965 + ounces * 1900 * 0.98)) <= 0.501
        )
        assert (
            abs(
                priced.ways[0].processing[b]
                - (kept * 1.05 * {"OXI": 7.5, "SUL": 9.0}[row.ROCK] + pounds * 0.35 + ounces * 6)
            )
            <= 0.501
        )
        assert abs(priced.mining[b] - row.TONNES * (2.2 + 0.01 * (145 - row.ZC) / 15)) <= 0.501


# Figures of the trade: 1 % of a tonne is 22.0462 lb; 1 g/t is 0.0321507 oz.
@pytest.mark.parametrize(
    "grade, price, much",
    [
        ("%", "lb", 22.0462262),
        ("%", "t", 0.01),
        ("g/t", "oz", 0.0321507466),
        ("ppm", "kg", 0.001),
        ("ppb", "g", 0.001),
        ("kg/t", "kg", 1),
        ("%", "dmtu", 1),
        ("mg/kg", "g", 1),
        ("ppm", "lb", 0.00220462262),
    ],
)
def test_units(grade, price, much):
    assert metal_in_a_tonne("m", grade, price) == pytest.approx(much, rel=1e-8)


def test_unknown_units_are_refused():
    assert "is 'g/t' meant?" in refusal(
        pp.Metal, "gold", "AU", price=1, grade_unit="g/ton", price_unit="oz"
    )
    assert "price_unit is 'ounce', and has to be" in refusal(
        pp.Metal, "gold", "AU", price=1, grade_unit="g/t", price_unit="ounce"
    )


@pytest.mark.parametrize(
    "keys, said",
    [
        (dict(metals=(pp.Metal("m", "CUU", price=1),)), "no column 'CUU'; is 'CU' meant?"),
        (dict(processing={"OXI": 7.5}), "nothing is said of rock SUL"),
        (dict(processing={"OXI": 7.5, "SULF": 9}), "is 'SUL' meant?"),
        (dict(mill=["SULF"]), "no block is of rock 'SULF'; is 'SUL' meant?"),
        (dict(mining="2 - (ZC > 100)* 3"), "less than nothing"),
        (dict(mining="2 + ZZ"), "there is no column 'ZZ'"),
        (dict(metals=(pp.Metal("m", "CU", price=1, recovery=86),)), "a share is from 0 to 1"),
        (dict(metals=(pp.Metal("m", "ZC", price=1),)), "more than the whole rock"),
        (dict(metals=(pp.Metal("m", "CU", price=1e12),)), "is a unit wrong?"),
        (dict(forbid=["ZC + 1"]), "neither yes nor no"),
        (dict(forbid=["SECTOR == 'West'"]), "no block has SECTOR = 'West'; is 'WEST' meant?"),
        (dict(forbid=["SECTOR != 'NORTH'"]), "no block has SECTOR = 'NORTH'; there are EAST, WEST"),
        (dict(forbid=["SECTOR == 1"]), "SECTOR and 1 are a word and a number"),
        (dict(forbid=["ZC == '100'"]), "ZC and '100' are a word and a number"),
        (
            dict(processing="where(ROCK == 'OXID', 7.5, 9.0)"),
            "no block has ROCK = 'OXID'; is 'OXI' meant?",
        ),
    ],
)
def test_what_the_economics_may_not_say(model, keys, said):
    assert said in refusal(costs(**keys).priced, model)


@pytest.mark.parametrize(
    "keys, said",
    [
        (dict(dilution=-0.1), "dilution"),
        (dict(dilution=5), "from 0 to 1"),
        (dict(mining_recovery=1.2), "mining_recovery"),
        (dict(mining_recovery=0), "above 0"),
        (dict(rounding=0), "rounding"),
        (dict(rounding=1e-9), "six decimals"),
        (dict(rounding=1e30), "at most 1,000,000,000,000"),
        (dict(metals=()), "no metals"),
        (dict(metals=(COPPER, COPPER)), "two metals"),
        (dict(forbid="ZC > 1"), "a list"),
    ],
)
def test_numbers_out_of_range(keys, said):
    assert said in refusal(costs, **keys)


def test_the_row_of_a_wrong_cost_is_told(frame, model):
    row = int(np.argmax(frame.ZC.to_numpy() > 100))
    assert f"row {row + 2}" in refusal(costs(mining="2 - (ZC > 100) * 3").priced, model)


def test_the_mill_takes_some_rocks(frame, model):
    priced = costs(mill=["SUL"]).priced(model)
    assert (priced.ways[0].revenue[frame.ROCK == "OXI"] == 0).all()
    assert (priced.ways[0].processing[frame.ROCK == "OXI"] == 0).all()
    assert priced.ways[0].revenue[frame.ROCK == "SUL"].sum() > 0


def test_forbid_keeps_no_air(frame):
    """Nothing is dug of a row without tonnes: what leads through the air above a corridor may be
    dug."""
    light = frame.assign(TONNES=frame.TONNES.where(frame.ZC < 140, 0.0))
    priced = costs(forbid=["XC > 5030"]).priced(model_of(light))
    assert (priced.forbidden == (frame.XC > 5030) & (frame.ZC < 140)).all()
    assert priced.forbidden.any()
    assert (priced.mining[frame.ZC >= 140] == 0).all()


def test_what_may_not_be_dug_is_what_forbid_says_and_no_price(frame, model):
    first = frame.IJK.iloc[0]
    dear = costs(mining=f"where(IJK == '{first}', 1e6, 2)").priced(model)
    assert dear.mining[0] > 2 * dear.ways[0].revenue.sum() > 0
    assert not dear.forbidden.any()
    poor = costs(metals=(pp.Metal("copper", "CU", price=0),), forbid=["ZC < 110"]).priced(model)
    assert poor.ways[0].revenue.sum() == 0
    assert (poor.forbidden == (frame.ZC < 110)).all()


@pytest.mark.parametrize(
    "cell, said",
    [
        (
            "",
            "row 5, column DIST: [economics] forbid = 'DIST < 50': there is no number to compare here",
        ),
        ("-", "row 5, column DIST: the cell is no number: it is '-'"),
    ],
)
@pytest.mark.parametrize("is_known", [False, True])
def test_a_cell_without_a_number_is_not_passed_over_by_forbid(frame, cell, said, is_known):
    frame = frame.copy()
    frame["DIST"] = (frame.XC - 5000).astype(object)
    frame.loc[3, "DIST"] = cell
    found, economics = model_of(frame, absent=[cell] if is_known else []), costs(
        forbid=["DIST < 50"]
    )
    if is_known:
        assert economics.priced(found).forbidden[3]
    else:
        assert said in refusal(economics.priced, found)


def test_a_rock_without_a_name_is_told_with_its_row(frame):
    frame = frame.copy()
    frame.loc[4, "ROCK"] = ""
    said = refusal(costs(processing={"OXI": 7.5, "SUL": 9.0}).priced, model_of(frame))
    assert "t.csv, row 6: [economics] processing: nothing is said of rock without a name" in said
    assert '{ "" = .. }' in said


@pytest.mark.parametrize("rock", ["HARD ROCK", "Óxido", 'a "b"', "OX-2"])
def test_the_hint_for_a_rock_is_toml(frame, rock):
    frame = frame.copy()
    frame.loc[4, "ROCK"] = rock
    said = refusal(costs(processing={"OXI": 7.5, "SUL": 9.0}).priced, model_of(frame))
    assert tomllib.loads(
        "processing = " + said.rsplit("try: ", 1)[1].split(", or ")[0].replace("..", "1")
    ) == {"processing": {rock: 1}}


# By hand, blocks of 10,000 tonnes: a kilogram of arsenic in the concentrate costs 2.50; or a tonne of concentrate, of 28 % copper, costs
# 2.50 for each 0.1 % of arsenic in it above 0.2 %. The second block's concentrate has 0.9 * 0.01 / (0.88 * 2.8 / 28) = 0.102 %.
PENALTIES = pd.DataFrame(
    {
        "XC": [0.0, 20.0, 40.0],
        "YC": 0.0,
        "ZC": 0.0,
        "TONNES": 10000.0,
        "CU": [1.0, 2.8, 0.0],
        "AS": [2000.0, 100.0, 100.0],
        "ROCK": "SUL",
    }
)
ARSENIC = pp.Metal(
    "arsenic", "AS", price=0, grade_unit="ppm", price_unit="kg", recovery=0.9, selling=2.5
)
BY_CONCENTRATE = "9.0 + 2.5 / 0.1 * max(0, 0.9 * AS / 10000 - 0.2 * 0.88 * CU / 28)"


def test_a_penalty_element(frame):
    dirty = model_of(PENALTIES)
    by_kilogram, by_concentrate = costs(metals=(COPPER, ARSENIC)).priced(dirty), costs(
        processing=BY_CONCENTRATE
    ).priced(dirty)
    assert by_kilogram.ways[0].metal["arsenic"].tolist() == pytest.approx([18000, 900, 900])
    assert by_kilogram.ways[0].processing.tolist() == [135000, 92250, 92250]
    assert by_concentrate.ways[0].processing.tolist() == [133429, 90000, 92250]
    for priced in (by_kilogram, by_concentrate):
        assert priced.ways[0].revenue.tolist() == [722500, 2023000, 0]
        assert priced.treated(1000).tolist() == [True, True, False]
        assert (priced.thousandths(500) + priced.mining * 1000).tolist() == [
            361250000 - priced.ways[0].processing[0] * 1000,
            1011500000 - priced.ways[0].processing[1] * 1000,
            0,
        ]  # the factor is of the price alone
    assert "try: price = 0, selling = 2.5, if it is a penalty" in refusal(
        pp.Metal, "arsenic", "AS", -2.5, grade_unit="ppm", price_unit="kg"
    )
    diluted = costs(processing=f"9.0 + ({BY_CONCENTRATE} - 9.0) / 1.25", dilution=0.25).priced(
        dirty
    )  # the feed is leaner, and there is more of it
    assert (diluted.ways[0].processing - by_concentrate.ways[0].processing).tolist() == [
        22500,
        22500,
        22500,
    ]


def test_a_rock_that_no_block_has_is_told(tmp_path):
    from pitplan.model.economics import amount
    from pitplan.base.errors import PlanError

    with pytest.raises(PlanError, match="no block is of rock 'OXY'; is 'OXI' meant"):
        amount("processing", {"OXY": 7.5, "other": 9.0}, _model(tmp_path))


def _model(tmp_path):
    table(4, 4, 3, 1).to_csv(tmp_path / "t.csv", index=False)
    import pitplan

    return pitplan.read_table(tmp_path / "t.csv", size=(20, 20, 15))
