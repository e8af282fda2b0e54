"""`fixed_cost`: taken from each period in which rock is dug, by the planner's own table; and the
bound that stays one."""
import re
from decimal import Decimal

import pandas as pd
import pytest
from planned import WEIGHTS, built, of_table, run, scheduled

SMALL = """
[schedule]
years = 6
mining_rate = 500e3
mill_rate = 400e3
"""
COST = 3_000_000


@pytest.fixture(scope="module")
def mine(tmp_path_factory):
    folder = tmp_path_factory.mktemp("mine") / "s"
    built(folder, SMALL + f"fixed_cost = {COST}\n")
    return folder, run("schedule", folder, "--minutes", "10")


def test_each_year_in_which_rock_is_dug_pays_once(mine):
    folder, said = mine
    dug = of_table(folder).dropna(subset=["year"])
    flows = dug.groupby("year").worth.sum() - COST
    years = pd.read_csv(folder / "out" / "schedule.csv").set_index("year")
    assert years.cash_flow.to_numpy() == pytest.approx(flows.to_numpy(), rel=1e-12)
    assert (years.fixed_cost == COST).all()
    by_hand = sum(Decimal(str(WEIGHTS[int(y)])) * int(flow) for y, flow in flows.items())
    assert years.npv.iloc[-1] == pytest.approx(float(by_hand), rel=1e-12)
    gross, net = (
        int(re.search(words, said)[1].replace(",", ""))
        for words in (r"net present value \$ ([\d,]+)", r"rock is dug: \$ ([\d,]+)")
    )
    assert net == by_hand // 1
    paid = sum(Decimal(str(WEIGHTS[int(y)])) for y in flows.index) * COST
    assert gross == (by_hand + paid) // 1


def test_the_bound_has_the_fixed_cost_and_stays_above(mine, tmp_path):
    """It is lower than the bound without the cost by less than all years cost, and a schedule that
    was found without the cost isn't worth more than it either, once its years have paid."""
    free = scheduled(built(tmp_path / "s", SMALL))
    found = scheduled(mine[0])
    years = sorted(set(free.years[free.years > 0].tolist()))
    all_pay = sum(Decimal(str(WEIGHTS[year])) for year in range(1, 7)) * COST
    assert found.npv <= found.bound
    assert free.bound - all_pay <= found.bound < free.bound
    assert free.npv - sum(Decimal(str(WEIGHTS[year])) for year in years) * COST <= found.bound


def test_years_that_do_not_pay_it_are_left_out(mine, tmp_path):
    terms = SMALL + "fixed_cost = 30e6\nper_year = 2\n"
    dear = scheduled(built(tmp_path / "s", terms))
    assert dear.production.terms.fixed_cost == 15_000_000
    assert 0 < dear.periods.max() < 12
    rows = dear.shells.study.priced.thousandths(1000) // 1000
    last = int(rows[dear.period == dear.period.max()].sum())
    assert last > 15_000_000
