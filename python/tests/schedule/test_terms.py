"""What [schedule] says in whole numbers, by figures worked out by hand."""
from decimal import Decimal

import pytest

import mines
from pitplan import PlanError
from pitplan.schedule.terms import terms_of, wrong_terms
from pitplan.study.study_file import read_study_file
from pitplan.table.wrong_values import wrong_in

RATES = {"mining_rate": 1000.0, "mill_rate": 400.0, "discount": 0.1}


@pytest.mark.parametrize(
    "when, weights",
    [
        ("start", (1_000_000, 909_091, 826_446)),
        ("mid", (953_463, 866_784, 787_986)),
        ("end", (909_091, 826_446, 751_315)),
    ],
)
def test_what_money_of_a_year_is_worth(when, weights):
    """1.1 to the powers 0, 1, 2; 0.5, 1.5, 2.5; and 1, 2, 3, as a table of interest has them."""
    assert terms_of({"years": 3, "when": when}, RATES, 1, 1).weights == weights


def test_half_years_have_half_of_the_rates_and_count_in_their_middle():
    """At 21 % a year half a year is 10 %: 1.1 to the powers 0.5, 1.5, 2.5, 3.5."""
    terms = terms_of({"years": 2, "per_year": 2, "discount": 0.21}, RATES, 1, 1)
    assert terms.weights == (953_463, 866_784, 787_986, 716_351)
    assert terms.capacities == ((500_000,) * 4, (200_000,) * 4)  # thousandths of a tonne


def test_half_years_of_a_list_of_rates_follow_their_years():
    terms = terms_of({"years": 3, "per_year": 2, "mining_rate": [600, 1000]}, RATES, 1, 1)
    assert terms.capacities[0] == (300_000, 300_000, 500_000, 500_000, 500_000, 500_000)


def test_a_list_of_rates_goes_year_by_year_and_its_last_stays():
    terms = terms_of({"years": 4, "mill_rate": [100, 300.5]}, RATES, 1, 1)
    assert terms.capacities == ((1_000_000,) * 4, (100_000, 300_500, 300_500, 300_500))


def test_years_are_what_the_rates_need_and_one_more():
    assert terms_of({}, RATES, 4500, 1).periods == 6  # 4.5 years of digging
    assert terms_of({}, RATES, 1, 1300).periods == 5  # 3.25 of milling
    assert terms_of({"mining_rate": [500, 1000]}, RATES, 4500, 1).periods == 6  # 1 and 4 of it
    assert terms_of({"years": 2}, RATES, 4500, 1).periods == 2


def test_a_rate_of_0_leaves_a_year_without_any():
    terms = terms_of({"years": 4, "mill_rate": [0, 0, 250]}, RATES, 1, 1)
    assert terms.capacities == ((1_000_000,) * 4, (0, 0, 250_000, 250_000))


def test_years_without_a_mill_come_on_top_and_one_that_ends_asks_for_none():
    late, ended = {"mill_rate": [0, 0, 400]}, {"mill_rate": [400, 400, 0]}
    assert terms_of(late, RATES, 1, 1300).periods == 7  # 2 without, 3.25 of milling
    assert terms_of(ended, RATES, 4500, 1300).periods == 6  # 4.5 years of digging
    assert terms_of(ended, RATES, 1, 1300).periods == 4  # 2.5 of milling never come


def test_without_a_rate_nothing_limits_that():
    terms = terms_of({"mill_rate": 400, "years": 1}, {}, 1, 1)
    assert terms.capacities == ((), (400_000,))
    assert terms.weights == (
        int(round(Decimal(10**6) / Decimal("1.1").sqrt())),
    )  # 10 % by default


@pytest.mark.parametrize(
    "values, rates, words, key",
    [
        ({"years": 3}, {}, "neither mining_rate nor mill_rate", ("schedule",)),
        (
            {"years": 2, "mill_rate": [1, 2, 3]},
            RATES,
            "mill_rate has 3 years",
            ("schedule", "mill_rate"),
        ),
        ({"years": 100, "per_year": 12}, RATES, "more than 200 periods", ("schedule",)),
        (
            {},
            {"mining_rate": 0.001},
            "mining_rate = 0.001 .* at most 200 periods",
            ("shells", "mining_rate"),
        ),
        ({"mill_rate": 1e-320}, RATES, "at most 200 periods", ("schedule", "mill_rate")),
        (
            {"mill_rate": [1, 2]},
            RATES,
            r"^\[schedule\] mill_rate = \[1, 2\] tonnes a year: the 1,300 tonnes of feed"
            " of the pit take 651 years",
            ("schedule", "mill_rate"),
        ),
        (
            {"years": 1, "mining_rate": 1e13},
            RATES,
            "more than 1,000,000,000 tonnes",
            ("schedule", "mining_rate"),
        ),
    ],
)
def test_terms_that_are_refused(values, rates, words, key):
    with pytest.raises(PlanError, match=words) as refused:
        terms_of(values, rates, 4500, 1300)
    assert refused.value.key == key
    assert refused.value.try_this


def test_a_lead_of_no_pushbacks_is_refused():
    with pytest.raises(PlanError, match="there are none") as refused:
        terms_of({"lead": 2}, RATES, 4500, 1300)
    assert refused.value.key == ("schedule", "lead")


def test_rates_beyond_the_years_that_a_pit_needs_are_not_asked_for():
    """Where study.toml says no years, 4.5 of digging and one more are six, and the list has nine."""
    terms = terms_of({"mining_rate": [1000.0] * 8 + [5.0]}, {}, 4500, 1300)
    assert terms.capacities == ((1_000_000,) * 6, ())


WRONG = """
[schedule]
years = 2
mining_rate = [1e6, 2e6, 3e6]
mill_rate = 1e13
per_year = 12
lead = 2
fixed_cost = 1e14
"""
KEYS = {
    ("schedule", "mining_rate"),
    ("schedule", "mill_rate"),
    ("schedule", "lead"),
    ("schedule", "fixed_cost"),
}


def test_all_that_schedule_refuses_is_told_at_once(tmp_path):
    """By `check` and by `schedule`, each with its key and what puts it right."""
    plan = read_study_file(mines.written_study(tmp_path, text=mines.STUDY_TOML + WRONG))
    told = wrong_terms(plan, "pitplan shells s")
    assert {error.key for error in told} == KEYS
    assert all(error.try_this for error in told)
    with pytest.raises(PlanError) as refused:
        terms_of(plan.values["schedule"], plan.rates, 1.0, 1.0)
    assert {error.key for error in refused.value.each()} == KEYS


@pytest.mark.parametrize(
    "change, key",
    [
        (("mining = 2.0", "mining = 2.0\nrounding = 0.5"), ("economics", "rounding")),
        (("1.0", "1.1"), ("shells", "factors")),
        (("years = 2", "years = 101"), ("schedule", "years")),
        (("years = 2", "years = 20\nper_year = 12"), ("schedule",)),
        (("years = 2", "pushbacks = [0.55]"), ("schedule", "pushbacks")),
        (("years = 2", "pushbacks = [0.8, 0.6]"), ("schedule", "pushbacks")),
        (("years = 2", "process_rates = { mill = 5.0 }"), ("schedule", "process_rates")),
    ],
)
def test_check_tells_what_else_schedule_refuses(tmp_path, change, key):
    text = mines.STUDY_TOML + "\n[schedule]\nyears = 2\n"
    factors = text[text.index("[shells]") :]
    was, now = change
    text = (
        text.replace(factors, factors.replace(was, now))
        if key[0] != "economics"
        else text.replace(was, now)
    )
    path = mines.written_study(tmp_path, text=text)
    try:
        told = wrong_terms(read_study_file(path), "pitplan shells s")
    except PlanError as error:  # of one key alone, which is read before
        told = error.each()
    assert [error.key for error in told] == [key], told
    assert told[0].try_this or told[0].remedy


def test_a_study_without_rates_that_asks_for_no_schedule_is_right(tmp_path):
    text = mines.STUDY_TOML.replace("mining_rate", "#").replace("mill_rate", "#")
    assert wrong_terms(read_study_file(mines.written_study(tmp_path / "a", text=text)), "") == []
    asked = read_study_file(
        mines.written_study(tmp_path / "b", text=text + "\n[schedule]\nsink = 2\n")
    )
    (error,) = wrong_terms(asked, "")
    assert (error.key, bool(error.try_this)) == (("schedule",), True)


def test_a_discount_below_0_is_refused():
    """Money of later years would weigh more then."""
    (error,) = wrong_in("schedule", {"discount": -0.02})
    assert error.key == ("schedule", "discount")


def test_a_period_has_its_part_of_the_fixed_cost():
    found = {"years": 1, "per_year": 4, "fixed_cost": 1_000_001}
    assert terms_of(found, RATES, 1, 1).fixed_cost == 250_000
    with pytest.raises(PlanError, match="fixed_cost") as refused:
        terms_of({"years": 1, "fixed_cost": 1e14}, RATES, 1, 1)
    assert refused.value.key == ("schedule", "fixed_cost")
