"""The table of pits by rates and a discount, against sums by hand."""
import warnings
from decimal import Decimal

import numpy as np
import pandas as pd
import pytest

import pitplan as pp
from pitplan.study import pit_by_pit


def test_the_pit_by_pit_table(two_metals):
    shells, folder = two_metals
    f = pd.read_csv(folder / "t.csv")
    found = shells.table(mining_rate=1e5, mill_rate=5e4, discount=0.1)
    revenue = np.rint(f.TONNES * 0.9 * f.CU * 0.01 * 0.85 * 8500 + f.TONNES * 0.9 * f.AU * 0.7 * 60)
    processing = np.rint(f.TONNES * 0.9 * 1.1 * f.ROCK.map({"OXI": 7.5, "SUL": 9.0}))
    mining = np.rint(f.TONNES * 2)
    ore = revenue > processing
    worth = np.maximum(revenue - processing, 0) - mining
    for i, row in enumerate(found.itertuples()):
        held = shells.holds(i)
        assert row.blocks == held.sum()
        assert row.factor == shells.factors[i] / 1000
        assert row.rock_t == pytest.approx(f.TONNES[held].sum())
        assert row.ore_t == pytest.approx(f.TONNES[held & ore].sum())
        assert row.waste_t == pytest.approx(row.rock_t - row.ore_t)
        assert row.strip == pytest.approx(row.waste_t / row.ore_t)
        assert row.feed_t == pytest.approx(row.ore_t * 0.99)
        assert row.worth_at_base == worth[held].sum()
        assert row.grade_copper == pytest.approx((f.CU * f.TONNES)[held & ore].sum() / row.ore_t)
        assert row.metal_copper == pytest.approx(
            (f.TONNES * 0.9 * f.CU * 0.01 * 0.85)[held & ore].sum()
        )
        assert row.metal_gold == pytest.approx((f.TONNES * 0.9 * f.AU * 0.7)[held & ore].sum())
    at_base = found[found.factor == 1.0].iloc[0]
    assert Decimal(at_base.worth_at_factor) == Decimal(at_base.worth_at_base)
    assert at_base.worth_at_base == found.worth_at_base.max()


def test_discounting_by_hand(two_metals):
    shells, folder = two_metals
    f = pd.read_csv(folder / "t.csv").assign(
        shell=shells.shell,
        level=shells.study.model.blocks.iz,
        worth=shells.study.priced.worth(1000),
        ore=shells.study.priced.treated(1000),
    )
    found = shells.table(mining_rate=1e5, mill_rate=5e4, discount=0.1).iloc[2]
    for order, said in ((["shell", "level"], found.npv_best), ("level", found.npv_worst)):
        years, total = 0.0, 0.0
        inside = f[f["shell"] <= 2].assign(level=-f.level)
        for _, piece in inside.groupby(order):
            takes = max(piece.TONNES.sum() / 1e5, piece.TONNES[piece.ore].sum() * 0.99 / 5e4)
            total += piece.worth.sum() / 1.1 ** (years + takes / 2)
            years += takes
        assert said == pytest.approx(total)
    assert found.npv_best >= found.npv_worst
    assert found.years == pytest.approx(
        sum(
            max(p.TONNES.sum() / 1e5, p.TONNES[p.ore].sum() * 0.99 / 5e4)
            for _, p in f[f["shell"] <= 2].groupby(["shell", "level"])
        )
    )


def test_a_rate_in_another_unit_is_refused_and_warns_of_nothing(two_metals):
    """Thousands or millions of tonnes a year for tonnes; the years are the tonnes of the largest
    pit by the rate."""
    shells, _ = two_metals
    rock = shells.table().rock_t.iloc[-1]
    with warnings.catch_warnings():
        warnings.simplefilter("error")
        for name, rate in (("mill_rate", 1.5), ("mining_rate", 1e-300)):
            with pytest.raises(
                pp.PlanError,
                match=rf"{name} = {rate:g}: the largest pit's .* tonnes would take [\d,]+ years",
            ):
                shells.table(**{name: rate})
        found = shells.table(mining_rate=rock / 999, discount=0.99)
        assert round(found.years.iloc[-1]) == 999
        assert np.isfinite(found.npv_best).all()


def test_rates_that_are_not_told_take_the_largest_pit_in_15_years(two_metals):
    shells, folder = two_metals
    f = pd.read_csv(folder / "t.csv")[shells.holds(3)]
    revenue = np.rint(f.TONNES * 0.9 * f.CU * 0.01 * 0.85 * 8500 + f.TONNES * 0.9 * f.AU * 0.7 * 60)
    ore = f.TONNES[
        revenue > np.rint(f.TONNES * 0.9 * 1.1 * f.ROCK.map({"OXI": 7.5, "SUL": 9.0}))
    ].sum()
    rates = {"mining_rate": f.TONNES.sum() / 15, "mill_rate": ore * 0.9 * 1.1 / 15}
    for own in ((), ("mining_rate",), ("mill_rate",), tuple(rates)):
        found, wanted = (
            shells.table(discount=0.1, **shown)
            for shown in ({name: rates[name] for name in own}, rates)
        )
        for column in ("npv_best", "npv_worst", "years"):
            assert np.allclose(found[column], wanted[column], rtol=1e-9), (own, column)


def test_wrong_rates():
    for words in ((0, None, 0.1), (None, -1, 0.1), (None, None, 8)):
        with pytest.raises(pp.PlanError):
            pit_by_pit.Rates(*words)
