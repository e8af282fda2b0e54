"""Costs of a tonne that are far from those of other open pits are told, and usual ones aren't."""
import pytest

import pitplan as pp
from mines import COPPER, GOLD, model_of, table, written_study
from pitplan.study.check import check
from pitplan.study.strange_costs import of_costs
from slips import slipped

MINING, PROCESSING = ("economics", "mining"), ("economics", "processing")
LEACH = ("economics", "processes", "leach", "cost")


def told(frame, **keys):
    """What is said of the costs of a model, and of which key."""
    usual = {"metals": (COPPER, GOLD), "mining": 2.0, "processing": 9.0}
    economics, model = pp.Economics(**{**usual, **keys}), model_of(frame)
    found = of_costs(model, economics.priced(model), economics)
    return [(str(look), look.key) for look in found]


def way(cost):
    """A mill and a leach, of which the leach costs something."""
    leach = pp.Process("leach", cost, rocks=["OXI"], recovery={"copper": 0.6})
    return {"processing": None, "processes": (pp.Process("mill", 9.0), leach)}


@pytest.fixture(scope="module")
def frame():
    return table(5, 4, 4, 6)


@pytest.mark.parametrize(
    "keys, said, key",
    [
        (
            {"mining": 24},
            "digging a tonne costs 24 $; 1 to 10 is usual\n"
            "  try: mining = 2.4 in [economics], if that is what is meant",
            MINING,
        ),
        (
            {"mining": 0.24},
            "digging a tonne costs 0.24 $; 1 to 10 is usual\n"
            "  try: mining = 2.4 in [economics], if that is what is meant",
            MINING,
        ),
        (
            {"mining": 350},
            "digging a tonne costs 350 $; 1 to 10 is usual\n"
            "  try: mining = 3.5 in [economics], if that is what is meant",
            MINING,
        ),
        (  # no power of ten makes a usual cost of it
            {"mining": 1e7},
            "digging a tonne costs 10,000,000 $; 1 to 10 is usual\n"
            "  try: mining in [economics], which is for a tonne",
            MINING,
        ),
        (  # the lowest blocks lie at 100 and the highest at 145, so each costs 20 to 38
            {"mining": "20 + 0.4 * (145 - ZC)"},
            "$ or more in half of the blocks; 1 to 10 is usual\n"
            "  try: mining in [economics], which is for a tonne",
            MINING,
        ),
        (
            {"mining": {"OXI": 2.1, "SUL": 21}},
            "digging a tonne costs 21 $ of SUL; 1 to 10 is usual\n"
            "  try: mining = { OXI = 2.1, SUL = 2.1 } in [economics], if that is what is meant",
            MINING,
        ),
        (
            {"processing": 900},
            "treating a tonne costs 900 $; 2 to 60 is usual\n"
            "  try: processing = 9 in [economics], if that is what is meant",
            PROCESSING,
        ),
        (
            {"processing": {"OXI": 750, "SUL": 900}},
            "treating a tonne costs 750 $ of OXI, 900 $ of SUL; 2 to 60 is usual\n"
            "  try: processing = { OXI = 7.5, SUL = 9 } in [economics], if that is what is meant",
            PROCESSING,
        ),
        (
            way(0.4),
            "treating a tonne by leach costs 0.4 $; 2 to 60 is usual\n"
            "  try: cost = 4 in process leach, if that is what is meant",
            LEACH,
        ),
        ({"mining": 24, "currency": "A$"}, "digging a tonne costs 24 A$; 1 to 10", MINING),
        (
            {"processing": 9000, "currency": "CLP"},
            "digging a tonne costs 2 CLP; 950 to 9,500 is usual, and in dollars 1 to 10\n"
            '  try: mining in [economics] in CLP, or currency = "$"',
            MINING,
        ),
        (
            {"mining": 40.0, "processing": 8.0, "currency": "MXN"},
            "treating a tonne costs 8 MXN; 36 to 1,100 is usual, and in dollars 2 to 60",
            PROCESSING,
        ),
        ({"mining": 0}, "digging costs nothing", MINING),
        ({"processing": 0}, "treating the ore costs nothing", PROCESSING),
    ],
)
def test_a_cost_that_is_far_off_is_told(frame, keys, said, key):
    ((words, place),) = told(frame, **keys)
    assert said in words
    assert place == key


@pytest.mark.parametrize(
    "keys",
    [
        {},
        {"mining": 1.0},
        {"mining": 10},
        {"mining": "2.0 + 0.03 * (145 - ZC) / 10"},
        {"mining": {"OXI": 0, "SUL": 2.0}},
        {"processing": 2},
        {"processing": 60.0},
        {"processing": {"OXI": 7.5, "other": 9.0}},
        way(4.0),
        {"mining": 2400, "processing": 9000, "currency": "CLP"},
        {"mining": 20, "processing": 60, "currency": "MXN"},  # 1.1 and 3.3 dollars
        {"mining": 3.5, "processing": 12, "currency": "PEN"},
        {"mining": 2.0, "processing": 9.0, "currency": "Kc"},
        {"rounding": 1000},
    ],
)
def test_a_usual_cost_is_none(frame, keys):
    assert told(frame, **keys) == []


def test_what_selling_costs_isnt_that_of_treating(frame):
    """The ore has 1 % of copper or more, so selling a tonne of it costs 85 $ or more a tonne of ore:
    0.01 * 0.85 * 10,000. A formula is looked at by what blocks cost."""
    dear = pp.Metal("copper", "CU", price=40_000, recovery=0.85, selling=10_000)
    rich = frame.assign(CU=frame.CU + 1)
    assert told(rich, metals=(dear,), processing="8 + CU / 10") == []


@pytest.mark.parametrize(
    "text, said",
    [
        (("mining = 2.0", "mining = 20"), "mining = 2 in [economics]"),
        (("mining = 2.0", 'mining = "20 + 0.2 * ZC / 100"'), "mining in [economics], which"),
    ],
)
def test_check_tells_it(tmp_path, text, said):
    (look,) = check(slipped(tmp_path / "s", text, None)).looks
    assert look.key == MINING
    assert look.try_this.startswith(said)


def test_of_tables_in_short_tons_it_is_told_for_these(tmp_path):
    text = """[model]
table = "t.csv"
size = [20, 20, 15]
units = { length = "ft", weight = "st" }
tonnes = "800"
[economics]
mining = 25
processing = 9
metals = [ { name = "copper", grade = "CU", price = 8500, recovery = 0.85 } ]
[slopes]
angles = 45
"""
    found = check(written_study(tmp_path / "s", table(5, 4, 4, 6), text))
    assert "digging a short ton costs 25 $" in str([str(look) for look in found.looks])
