"""`cutoff = "by year"`: a block that pays at the mill may go to waste; added up again from the
planner's own table, whose columns `year` and `sent` say what was done."""
import re
from decimal import Decimal

import numpy as np
import pandas as pd
import pytest
from scipy.optimize import linprog

import mines
from pitplan import PlanError, Study
from pitplan.schedule import Schedule
from pitplan.schedule.realisations import prepare
from pitplan.schedule.tables import Tables
from pitplan.study.study_file import read_study_file
from pitplan.views.schedule_view import schedule
from planned import RICH, WEIGHTS, built, of_table, run, scheduled

TIGHT = """
[schedule]
years = 5
mining_rate = 600e3
mill_rate = 150e3
"""
BY_YEAR = 'cutoff = "by year"\n'


@pytest.fixture(scope="module")
def mine(tmp_path_factory):
    folder = tmp_path_factory.mktemp("mine") / "s"
    frame = mines.table(9, 8, 5, 5)
    frame["CLASS"] = np.where(frame.AU > 0.1, "measured", "inferred")
    text = RICH.replace("size = ", 'columns = { class = "CLASS" }\nsize = ')
    built(folder, TIGHT + BY_YEAR, text, frame)
    return folder, run("schedule", folder, "--minutes", "10")


def dug_rows(folder):
    """The rows that are dug, each with what it brings by the way that it went."""
    rows = of_table(folder).dropna(subset=["year"])
    assert set(rows.sent) == {"mill", "waste"}
    is_sent = rows.sent == "mill"
    digging = (rows.TONNES * 2.0).round()
    return rows.assign(
        pays=rows.milled,
        feed=rows.TONNES * is_sent,
        worth=(rows.worth + digging) * is_sent - digging,
    )


def test_what_is_shown_is_what_the_ways_of_the_table_come_to(mine):
    folder, said = mine
    dug = dug_rows(folder)
    by_hand = sum(Decimal(str(WEIGHTS[int(y)])) * int(v) for y, v in zip(dug.year, dug.worth))
    count, npv = re.search(
        r"feasible, ([\d,]+) blocks, net present value \$ ([\d,]+)", said
    ).groups()
    assert int(count.replace(",", "")) == len(dug)
    assert int(npv.replace(",", "")) == by_hand // 1
    assert f"{(dug.sent == 'mill').sum()} of the blocks go to the mill" in said
    years = pd.read_csv(folder / "out" / "schedule.csv").set_index("year")
    sums = dug.groupby("year")[["feed", "worth", "TONNES"]].sum()
    for column, wanted in (
        ("feed_t", sums.feed),
        ("ore_t", sums.feed),
        ("waste_t", sums.TONNES - sums.feed),
        ("cash_flow", sums.worth),
        ("mill_used", sums.feed / 150e3),
    ):
        assert years[column].to_numpy() == pytest.approx(wanted.to_numpy(), rel=1e-9), column
    metal = (dug.feed * dug.CU / 100 * 0.85).groupby(dug.year).sum()
    assert years.metal_copper.to_numpy() == pytest.approx(metal.to_numpy(), rel=1e-9)
    assert (sums.feed <= 150e3).all()
    assert (sums.TONNES <= 600e3).all()


def test_blocks_that_would_pay_go_to_waste_and_poor_ones_never_to_the_mill(mine):
    dug = dug_rows(mine[0])
    assert (dug.pays & (dug.sent == "waste")).any()
    assert not (~dug.pays & (dug.sent == "mill")).any()


def test_the_page_says_why_it_has_no_table_of_classes(mine):
    """Such a table has what would pay at the mill, and some of that goes to waste."""
    plan, study = read_study_file(mine[0]), Study(mine[0])
    assert study.classes.names == ["measured", "inferred"]
    found = Schedule.last(study.shells(plan.factors), plan.values["schedule"], plan.rates)
    view = schedule(found, Tables(found).years())
    assert not view.more
    assert any(line.startswith("There is no table of ore by class:") for line in view.lines)


def test_it_brings_more_than_with_a_fixed_cutoff(mine):
    """And its bound is higher: neither is read for the other's."""
    folder, text = mine[0], (mine[0] / "study.toml").read_text()
    chosen = scheduled(folder)
    (folder / "study.toml").write_text(text.replace(BY_YEAR, ""))
    fixed = scheduled(folder)
    (folder / "study.toml").write_text(text)
    assert chosen.npv > fixed.npv
    assert chosen.bound > fixed.bound * Decimal("1.05")
    assert chosen.npv <= chosen.bound
    assert fixed.npv <= fixed.bound


def test_the_bound_is_next_to_one_linear_program_over_parts_of_blocks(mine):
    """So much of each block by each way in each year, worked out from the production's own pairs by
    another route."""
    found = scheduled(mine[0], (0.0, 900))
    made = found.production
    ways = [(u, v, (r, 0)) for u, (v, r) in enumerate(zip(made.values, made.uses[0]))]
    gains = dict(zip(made.millable.unit.tolist(), zip(made.millable.gains, made.millable.feeds)))
    ways += [(u, made.values[u] + g, (made.uses[0][u], f)) for u, (g, f) in gains.items()]
    count, periods = len(ways), made.periods
    of_unit = np.array([u for u, _, _ in ways])
    gain = np.array([v * w for _, v, _ in ways for w in made.weights.tolist()]) / 1e12
    each, rows, limits = np.eye(count * periods).reshape(count, periods, -1), [], []
    for unit in range(made.units):
        rows.append(each[of_unit == unit].sum(axis=(0, 1)))
        limits.append(1)
    for low, up in zip(made.above.blocks.tolist(), made.above.other.tolist()):
        for t in range(periods):
            rows.append(
                each[of_unit == low, : t + 1].sum(axis=(0, 1))
                - each[of_unit == up, : t + 1].sum(axis=(0, 1))
            )
            limits.append(0)
    for r in range(2):
        uses = np.array([use[r] for _, _, use in ways]) / 1e9
        for t in range(periods):
            rows.append((uses[:, None] * each[:, t]).sum(axis=0))
            limits.append(made.capacities[r, t] / 1e9)
    best = linprog(-gain, A_ub=np.array(rows), b_ub=limits, bounds=(0, None), method="highs")
    relaxed = -best.fun * 1e6
    assert relaxed * (1 - 1e-7) <= float(found.bound) <= relaxed * (1 + 1e-3)


def test_realisations_refuse_the_choice(mine):
    found = scheduled(mine[0])
    with pytest.raises(PlanError, match="by year") as refused:
        prepare(found.shells.study, found, {}, {}, 0.1, 1.0)
    assert refused.value.key == ("schedule", "cutoff")
    assert refused.value.try_this


def test_a_cutoff_of_another_name_is_refused(tmp_path):
    text = RICH + '[schedule]\ncutoff = "yearly"\n'
    folder = mines.written_study(tmp_path / "s", text=text)
    with pytest.raises(PlanError, match='"fixed" or "by year"') as refused:
        scheduled(folder)
    assert refused.value.key == ("schedule", "cutoff")
