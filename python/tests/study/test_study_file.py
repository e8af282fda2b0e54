"""study.toml: what it may say, and what is said where it says something else."""
import math

import pytest

import pitplan as pp
from mines import STUDY_TOML, written_study
from pitplan.base.errors import PlanError
from pitplan.study.shells import factors, series_of, thousandths
from pitplan.study.study_file import read_study_file

WRONG = [
    ("size = [20, 20, 15]", "size = [20, 20]", "three numbers above 0"),
    ("size = [20, 20, 15]", "sise = [20, 20, 15]", "[model] has no key 'sise'; is 'size' meant?"),
    ("mining = 2.0", "minning = 2.0", "[economics] has no mining"),
    (
        "mining = 2.0",
        "mining = 2.0\ndilutoin = 0.1",
        "[economics] has no key 'dilutoin'; is 'dilution' meant?",
    ),
    (
        "recovery = 0.85",
        "recovry = 0.85",
        "[economics] metal copper has no key 'recovry'; is 'recovery' meant?",
    ),
    ('grade = "CU", ', "", "metal copper has no grade"),
    ("[slopes]", "[slope]", "the file has no section 'slope'; is 'slopes' meant?"),
    ("[slopes]", "[pictures]\nwidth = 8\n[slopes]", "the file has no section 'pictures'"),
    ("angles = 45", "angle = 45", "[slopes] has no key 'angle'; is 'angles' meant?"),
    ("discount = 0.08", "discount = 8", "discount is 8"),
    ("mill_rate = 5e5", "mill_rate = 0", "mill_rate is 0"),
    (
        "[0.6, 1.0, 1.2]",
        "[0.30, 1.20, 0.05]",
        "factors = { from = 0.3, to = 1.2, step = 0.05 } in [shells], for a series",
    ),
    ("[0.6, 1.0, 1.2]", "{ from = 0.3, to = 1.2 }", "has to be a series as { from = 0.30"),
    (
        "[0.6, 1.0, 1.2]",
        "[600, 1000]",
        "from 0 to 10\n  try: factors = [0.6, 1] in [shells], if these are in thousandths",
    ),
    ("[0.6, 1.0, 1.2]", "[0.6, 0.60001]", "whole thousandths"),
    ("[0.6, 1.0, 1.2]", "[0.6, 1e308]", "a factor is 1e+308"),
    ("[0.6, 1.0, 1.2]", "{ from = -1e308, to = 1e308, step = 0.1 }", "a factor is -1e+308"),
    ("[0.6, 1.0, 1.2]", '"all"', "[shells] factors is 'all'"),
    ('table = "t.csv"', "", "[model] has no table"),
    ("mining = 2.0", "mining = ", "isn't TOML"),
    ("size = [20, 20, 15]", 'size = [20, 20, 15]\nregularise = "yes"', "has to be true or false"),
    ("size = [20, 20, 15]", 'size = [20, 20, 15]\nrotation = "north"', "has to be a number"),
    (
        "size = [20, 20, 15]",
        'size = [20, 20, 15]\ndecimal = "comma"',
        'decimal is \'comma\', and has to be "." or ","',
    ),
    (
        "size = [20, 20, 15]",
        "size = [20, 20, 15]\nskip = -1",
        "skip is -1, and has to be a whole number from 0 to 1,000",
    ),
    (
        "size = [20, 20, 15]",
        "size = [20, 20, 15]\nskip = 9223372036854775807",
        "skip is 9223372036854775807, and has to be a whole number from 0 to 1,000",
    ),
]


@pytest.mark.parametrize("was, now, said", WRONG, ids=[now or was for was, now, _ in WRONG])
def test_what_a_study_may_not_say(tmp_path, was, now, said):
    assert was in STUDY_TOML
    folder = written_study(tmp_path / "s", text=STUDY_TOML.replace(was, now, 1))
    with pytest.raises(pp.PlanError) as error:
        read_study_file(folder)
    assert said in str(error.value)
    assert "study.toml" in str(error.value)


def test_what_a_study_says(tmp_path):
    plan = read_study_file(written_study(tmp_path / "s"))
    assert plan.factors == [600, 1000, 1200]
    assert plan.rates == {"mining_rate": 1e6, "mill_rate": 5e5, "discount": 0.08}
    assert plan.economics.metals[0].price == 8500
    assert plan.keys.size == [20, 20, 15]
    assert plan.table == tmp_path / "s" / "t.csv"
    again = read_study_file(
        written_study(
            tmp_path / "s",
            text=STUDY_TOML.replace(
                "factors = [0.6, 1.0, 1.2]", "factors = { from = 0.3, to = 1.2, step = 0.3 }"
            ),
        )
    )
    assert again.factors == [300, 600, 900, 1200]
    assert again.digest == plan.digest  # the factors are no part of a built model
    assert (
        read_study_file(
            written_study(tmp_path / "s", text=STUDY_TOML.replace("mining = 2.0", "mining = 2.1"))
        ).digest
        != plan.digest
    )


@pytest.mark.parametrize(
    "low, high, step, what",
    [
        (0.3, 1.2, 1e-320, "at least 0.001"),
        (0.3, 1.2, 1e-9, "at least 0.001"),
        (0.3, 1.2, 0.0, "there are none"),
        (0.3, 1.2, math.nan, "there are none"),
        (math.nan, 1.2, 0.05, "there are none"),
        (0.3, math.nan, 0.05, "there are none"),
        (-math.inf, 1.2, 0.05, "there are none"),
        (0.3, math.inf, 0.05, "from 0 to 10"),
        (0.3, 1e308, 0.001, "from 0 to 10"),
        (0.3, 1.2, math.inf, "there are none"),
        (0.3, 1.2, 0.001, None),
    ],
)
def test_a_series_of_factors_ends_or_is_refused(low, high, step, what):
    if what is None:
        assert factors(low, high, step)[0] == 300
    else:
        with pytest.raises(PlanError, match=what):
            factors(low, high, step)


def test_factors():
    assert factors(0.3, 1.2, 0.3) == [300, 600, 900, 1200]
    assert factors(0.9, 1.0, 0.02) == [900, 920, 940, 960, 980, 1000]
    assert len(factors(0.3, 1.2, 0.01)) == 91
    assert series_of([0.001, 10]) == [1, 10000]
    assert thousandths(0.85) == 850
    for wrong in (
        lambda: factors(1, 0.5, 0.1),
        lambda: factors(0.5, 1, 0),
        lambda: thousandths(10.1),
        lambda: thousandths(-0.1),
        lambda: thousandths("1"),
    ):
        with pytest.raises(pp.PlanError):
            wrong()
