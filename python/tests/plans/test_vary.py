"""What-ifs: each is the study that a planner would write by hand with that one thing changed."""
import dataclasses
import re

import numpy as np
import pytest

import pitplan as pp
from mines import COPPER, costs, study_of, table
from pitplan.model.economics import Process
from pitplan.study import pit_by_pit
from pitplan.plans import vary
from pitplan.tasks.tasks import Tasks
from pitplan.plans.vary import Change, changes_of

FRAME = table(8, 7, 5, 5)


def ran(tmp_path, words, economics=None, slopes=None):
    study = study_of(tmp_path, FRAME, slopes=slopes, economics=economics)
    vary.prepare(study, economics or costs(), slopes or pp.Slopes(45), changes_of(words))
    tasks = Tasks(study.folder)
    for task in vary.vary_tasks(study):
        tasks.do(task)
    return study, vary.table(study).set_index(["what", "by"])


def metal(**more):
    return costs(metals=(dataclasses.replace(COPPER, **more),))


@pytest.mark.parametrize(
    "word, economics, slopes",
    [
        ("recovery=-10", metal(recovery=0.765), 45),
        ("mining=25", costs(mining=2.5), 45),
        ("slope=-7", costs(), 38),
        ("slope=8", costs(), 53),
        ("processing=-20", costs(processing={"OXI": 6.0, "SUL": 7.2}), 45),
    ],
)
def test_a_what_if_is_the_study_written_by_hand(tmp_path, word, economics, slopes):
    (tmp_path / "own").mkdir()
    study, found = ran(tmp_path, [word])
    own = study_of(tmp_path / "own", FRAME, slopes=pp.Slopes(slopes), economics=economics).pit(1.0)
    what, by = word.split("=")
    row = found.loc[(what, float(by))]
    assert (row.blocks, row.worth) == (own.count, float(own.worth))
    assert row.difference == row.worth - found.loc[("base", 0.0)].worth
    assert found.loc[("base", 0.0)].worth == float(study.pit(1.0).worth)


GOLD = pp.Metal("gold", "AU", 1500, "g/t", "oz", 0.6, selling=40)


def two(copper=COPPER, gold=GOLD):
    return costs(metals=(copper, gold))


@pytest.mark.parametrize(
    "word, economics",
    [
        ("price:gold=20", two(gold=dataclasses.replace(GOLD, price=1800))),
        ("recovery:copper=-10", two(copper=dataclasses.replace(COPPER, recovery=0.765))),
    ],
)
def test_one_metal_is_changed_and_the_other_stays(tmp_path, word, economics):
    (tmp_path / "own").mkdir()
    study, found = ran(tmp_path, [word], two())
    own = study_of(tmp_path / "own", FRAME, economics=economics).pit(1.0)
    what, by = word.split("=")
    row = found.loc[(what, float(by))]
    assert (row.blocks, row.worth) == (own.count, float(own.worth))
    assert row.difference != 0


def by_hand(study, mask, price, rates):
    """The npv of a pit bench after bench, by the keys of `costs` in loops; and its rock and feed."""
    mining_rate, mill_rate, discount = rates
    benches = {}
    for row, there in zip(study.model.blocks.to_dict("records"), mask):
        if there:
            t = row["TONNES"]
            brings = round(t * row["CU"] / 100 * 0.85 * price)
            treating = round(t * (7.5 if row["ROCK"] == "OXI" else 9.0))
            rock, feed, worth = benches.get(row["iz"], (0.0, 0.0, 0.0))
            is_ore = brings > treating
            benches[row["iz"]] = (
                rock + t,
                feed + t * is_ore,
                worth + max(0, brings - treating) - round(2.0 * t),
            )
    year = npv = 0.0
    rock, feed = (sum(bench[i] for bench in benches.values()) for i in (0, 1))
    mining_rate, mill_rate = mining_rate or rock / 15, mill_rate or feed / 15
    for _, (rock, feed, worth) in sorted(benches.items(), reverse=True):
        takes = max(rock / mining_rate, feed / mill_rate)
        npv += worth / (1 + discount) ** (year + takes / 2)
        year += takes
    return npv


def test_npv_is_what_loops_over_the_table_give(tmp_path):
    """Rates and the discount leave the pit as it is; a price changes pit and npv."""
    words = ["discount=-3,2", "mining_rate=-50,10", "mill_rate=-20,30", "price=20"]
    rates = pit_by_pit.Rates(4e5, 3e5, 0.08)
    study = study_of(tmp_path, FRAME)
    vary.prepare(study, costs(), pp.Slopes(45), changes_of(words), rates=rates)
    assert [str(task) for task in vary.vary_tasks(study)] == ["run base 1000", "run base 1200"]
    for task in vary.vary_tasks(study):
        Tasks(study.folder).do(task)
    found = vary.table(study, rates).set_index(["what", "by"])
    here, rich = study.mask(1000), study.mask(1200)
    for what, by, mask, price, others in (
        ("base", 0, here, 8500, (4e5, 3e5, 0.08)),
        ("discount", -3, here, 8500, (4e5, 3e5, 0.05)),
        ("discount", 2, here, 8500, (4e5, 3e5, 0.10)),
        ("mining_rate", -50, here, 8500, (2e5, 3e5, 0.08)),
        ("mining_rate", 10, here, 8500, (4.4e5, 3e5, 0.08)),
        ("mill_rate", -20, here, 8500, (4e5, 2.4e5, 0.08)),
        ("mill_rate", 30, here, 8500, (4e5, 3.9e5, 0.08)),
        ("price", 20, rich, 8500 * 1.2, (4e5, 3e5, 0.08)),
    ):
        row = found.loc[(what, float(by))]
        own = by_hand(study, mask, price, others)
        assert row.npv == pytest.approx(own, rel=1e-4 if price > 8500 else 1e-9), (what, by)
        assert row.npv_difference == pytest.approx(row.npv - found.npv.iloc[0])
        assert row.blocks == mask.sum()
        assert what == "price" or row.difference == 0
    for free in (pit_by_pit.Rates(None, 3e5, 0.08), pit_by_pit.Rates(None, None, 0.1)):
        own = by_hand(study, here, 8500, (None, free.mill, free.discount))
        assert vary.table(study, free).npv.iloc[0] == pytest.approx(own)
    tonnes = study.model.blocks.TONNES  # rates that aren't told are by the study's own pit
    untold = [tonnes[mask].sum() / 15 for mask in (here, here & study.priced.treated(1000))]
    row = vary.table(study, free).set_index(["what", "by"]).loc[("price", 20.0)]
    assert row.npv == pytest.approx(by_hand(study, rich, 8500 * 1.2, (*untold, 0.1)), rel=1e-4)
    one, two_ = vary.tornado(found.reset_index()).axes
    assert [label.get_text() for label in one.get_yticklabels()] == ["price"]
    assert {label.get_text() for label in two_.get_yticklabels()} == {
        "price",
        "discount",
        "mining rate",
        "mill rate",
    }
    base = found.npv.iloc[0]
    ends = sorted(bar.get_x() + bar.get_width() for bar in two_.patches)
    assert np.allclose(
        ends, np.sort(found.npv.iloc[1:]) / (base / two_.lines[0].get_xdata()[0]), rtol=1e-9
    )


@pytest.mark.parametrize(
    "word, words",
    [
        ("price:god=5", "price of god .5%: no metal is called 'god'; is 'gold' meant"),
        ("discount=-9", r"discount -9 points: .*discount is -0.01"),
        ("recovery:copper=20", "recovery of copper .20%: .*is 1.02, and a share is from 0 to 1"),
    ],
)
def test_a_change_that_cannot_be_made_is_named(tmp_path, word, words):
    study = study_of(tmp_path, FRAME, economics=two())
    rates = pit_by_pit.Rates(None, None, 0.08)
    with pytest.raises(pp.PlanError, match=words):
        vary.prepare(study, two(), pp.Slopes(45), changes_of([word]), rates=rates)
    assert vary.asked_of(study) is None


def test_folders_of_metals_are_words():
    """A metal's name may have any letters; no two changes get one folder."""
    names = ["gold", "Au/g", "../x", "a b", "a_b", "a-b", ""]
    found = {Change(f"price:{name}" if name else "price", 5).name for name in names}
    assert len(found) == len(names)
    assert all(re.fullmatch(r"[\w+-]+", name) for name in found)
    assert changes_of(["price:Au/g=-5"]) == [Change("price:Au/g", -5.0)]
    assert vary.is_change(["price:gold", 5])
    assert not vary.is_change(["mining:gold", 5])
    assert not vary.is_change(["pricey:gold", 5])
    assert not vary.is_change([5, 5])


def test_a_price_is_a_factor(tmp_path):
    study, found = ran(tmp_path, ["price=-20..20"])
    for by, share in ((-20.0, 0.8), (20.0, 1.2)):
        row = found.loc[("price", by)]
        assert (row.blocks, row.worth, row.factor) == (
            study.pit(share).count,
            float(study.pit(share).worth),
            share,
        )
    (tmp_path / "own").mkdir()
    own = study_of(tmp_path / "own", FRAME, economics=metal(price=8500 * 1.2)).pit(1.0)
    assert (
        abs(float(own.worth) - found.loc[("price", 20.0)].worth) <= own.count
    )  # each block's revenue is rounded to a dollar
    assert not list((study.folder / "vary").glob("price*"))


def test_a_price_between_two_factors_is_refused():
    """It would be rounded to a price that nobody asked for."""
    assert vary.price_factor(1000, Change("price", 0.1)) == 1001
    assert vary.price_factor(850, Change("price", -10)) == 765
    with pytest.raises(
        pp.PlanError,
        match=r"price \+0.04% of factor 1 is factor 1.0004, and factors are whole thousandths",
    ):
        vary.price_factor(1000, Change("price", 0.04))
    with pytest.raises(pp.PlanError) as error:
        vary.price_factor(850, Change("price", 5))  # 892.5
    (near,) = changes_of([str(error.value.try_this)])
    assert vary.price_factor(850, near) == 892
    for by, wanted in ((0.04, 1001), (-0.04, 999)):
        with pytest.raises(pp.PlanError) as error:
            vary.price_factor(1000, Change("price", by))
        (near,) = changes_of([str(error.value.try_this)])  # the nearest factor is that of no change
        assert vary.price_factor(1000, near) == wanted


def test_more_slope_never_costs(tmp_path):
    found = ran(tmp_path, ["slope=-10,10", "price=-5"])[1]
    assert (
        found.loc[("slope", -10.0)].worth
        <= found.loc[("base", 0.0)].worth
        <= found.loc[("slope", 10.0)].worth
    )
    assert found.loc[("price", -5.0)].difference < 0


def test_one_metals_recovery_changes_in_each_process_and_the_others_stays():
    """By hand: a tenth less of 0.8, 0.5 and 0.4 of the copper; the gold's 0.6 and 0.2 stay."""
    leach = Process("leach", 4.0, recovery={"copper": 0.5, "gold": 0.2})
    heap = Process("heap", 3.0, recovery={"copper": 0.4})
    metals = (dataclasses.replace(COPPER, recovery=0.8), GOLD)
    planned = pp.Economics(metals=metals, mining=2.0, processes=(leach, heap))
    found, _ = vary.changed(planned, pp.Slopes(45), Change("recovery:copper", -10), None)
    assert [metal.recovery for metal in found.metals] == [pytest.approx(0.72), 0.6]
    assert found.processes[0].recovery == {"copper": pytest.approx(0.45), "gold": 0.2}
    assert found.processes[1].recovery == {"copper": pytest.approx(0.36)}


def test_changes_of_all_kinds_of_amounts(tmp_path):
    slopes = pp.Slopes([(0, 40), (180, 50)], by="SECTOR", regions={"WEST": 42})
    model = study_of(tmp_path, FRAME).model
    e, s = vary.changed(costs(), slopes, Change("slope", 2), model)
    assert s.angles == [(0, 42), (180, 52)]
    assert s.regions == {"WEST": 44}
    assert e == costs()
    for mining in ("2 + 0.01 * (200 - ZC)", "SG", {"OXI": 2.0, "SUL": 3.0}, 2.0):
        frame = FRAME.assign(SG=2.5)
        (tmp_path / "m").mkdir(exist_ok=True)
        base = study_of(tmp_path / "m", frame, economics=costs(mining=mining))
        e, _ = vary.changed(costs(mining=mining), slopes, Change("mining", 50), base.model)
        ours, theirs = e.priced(base.model).mining, base.priced.mining
        assert abs(ours - 1.5 * theirs).max() <= 1.25  # both are rounded


def test_words_that_are_no_changes():
    assert [c.name for c in changes_of(["price=-20..20", "slope=2,-1.5"])] == [
        "price-20",
        "price+20",
        "slope+2",
        "slope-1.5",
    ]
    for word, words in (
        ("prise=5", "is 'price' meant"),
        ("price", "is no change"),
        ("price=0", r"a change of 0% is what study.toml has.*\n.*price=-5..5"),
        ("price=-100", "-100% leaves nothing of the price: it has to be above -100"),
        (
            "price:gold=-100..0",
            r"-100% leaves nothing of the price of gold: it has to be above -100\n.*price:gold=-5..5",
        ),
        ("discount=-100", "-100 points leaves no discount"),
        ("price=5,5", "twice"),
        ("price=1.2.3", "no number"),
        ("mining:gold=5", "mining isn't a metal's"),
        ("prise:gold=5", "is 'price' meant"),
    ):
        with pytest.raises(pp.PlanError, match=words):
            changes_of([word])


def test_a_recovery_above_one_is_told(tmp_path):
    with pytest.raises(
        pp.PlanError, match="recovery of copper is 1.02, and a share is from 0 to 1"
    ):
        ran(tmp_path, ["recovery=20"])


def test_a_study_built_anew_has_no_what_ifs(tmp_path):
    study, _ = ran(tmp_path, ["mining=10"])
    other = study_of(tmp_path, FRAME, economics=costs(mining=2.5))
    assert vary.vary_tasks(other) == []
    assert len(vary.vary_tasks(study)) == 2
    with pytest.raises(pp.PlanError, match="there is no scenario"):
        vary.scenario(other, "mining+10")
