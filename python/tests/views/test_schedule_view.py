"""What a page shows of a schedule is what its blocks and its tables have."""
import copy
import math
from dataclasses import replace

import numpy as np
import pandas as pd
import pytest
from pitplan import PlanError
from pitplan.schedule.tables import Tables
from pitplan.views import page, schedule_view
from pitplan.views.page_views import ViewTable, beside, so_far


def of_rows(found):
    """The planner's own rows, with their ore and what each is worth where it is dug: whole dollars."""
    blocks = found.shells.study.model.blocks
    brings = (blocks.TONNES * blocks.CU / 100 * 0.85 * 24000).round()
    treating = (blocks.TONNES * blocks.ROCK.map({"OXI": 7.5, "SUL": 9.0})).round()
    worth = (brings - treating).clip(lower=0) - (blocks.TONNES * 2).round()
    return blocks.assign(worth=worth, ore=blocks.TONNES.where(brings > treating, 0))


def test_the_page_has_the_mine_at_the_end_of_each_year(found, tmp_path):
    """Heights are added up block by block from the schedule, and facts are the figures of the table."""
    years = Tables(found).years()
    view = schedule_view.schedule(found, years)
    model = found.shells.study.model
    wanted = np.zeros((len(years), *model.grid.shape[:2]), int)
    b = model.blocks
    for i, j, t in zip(b.ix, b.iy, found.period):
        if t >= 0:
            wanted[t, i, j] += 1
    assert len(view.levels) == len(years) + 1
    assert np.array_equal(view.levels[:-1].astype(int) - view.levels[1:].astype(int), wanted)
    facts = dict(view.table.columns)
    assert [int(text.replace(",", "")) for text in facts["Blocks"]] == years.blocks.tolist()
    flows = next(texts for name, texts in facts.items() if name.startswith("Cash flow"))
    assert [float(text.replace(",", "")) for text in flows] == pytest.approx(
        (years.cash_flow / 1e6).tolist(), abs=0.006
    )
    assert facts["Rate that binds"] == [text or "-" for text in years.binds]
    assert view.table.names == [str(t) for t in years.year]
    assert view.slider == "After year"
    assert f"{int(found.npv):,}" in view.lines[0]
    assert found.gap_text in view.lines[0]
    path = page.write_views(tmp_path / "s.html", found.shells.study, [view], "schedule")
    assert "Schedule by years" in path.read_text()


def test_amounts_of_the_page_are_those_of_the_rows_of_each_year(found):
    """Money of a year counts as at its middle, at 8 % a year; a cell is rounded to a hundredth of its
    unit."""
    view = schedule_view.schedule(found, Tables(found).years())
    rows = of_rows(found).assign(year=found.period + 1).query("year > 0")
    sums = rows.groupby("year")[["TONNES", "ore", "worth"]].sum()
    discounted = sums.worth / 1.08 ** (sums.index - 0.5)
    unit = {"million": 1e6, "thousand": 1e3, "Mt": 1e6, "kt": 1e3}
    for name, wanted in (
        ("Ore", sums.ore),
        ("Waste", sums.TONNES - sums.ore),
        ("Cash flow", sums.worth),
        ("Discounted", discounted),
        ("Net present value so far", discounted.cumsum()),
    ):
        (one,) = (each for each in view.table.columns if each[0].startswith(f"{name} ("))
        divisor = unit[one[0].partition("(")[2].rstrip(")").split()[0]]
        shown = [float(text.replace(",", "")) for text in one[1]]
        assert shown == pytest.approx((wanted / divisor).tolist(), abs=0.006), name


def test_what_all_years_so_far_come_to():
    """By hand. In the second of three years no ore is dug, in the third nothing."""
    years = pd.DataFrame(
        {
            "blocks": [3, 2, 0],
            "rock_t": [150.0, 50.0, 0.0],
            "ore_t": [100.0, 0.0, 0.0],
            "waste_t": [50.0, 50.0, 0.0],
            "feed_t": [90.0, 0.0, 0.0],
            "strip": [0.5, np.nan, np.nan],
            "grade_gold": [2.0, np.nan, np.nan],
            "metal_gold": [180.0, 0.0, 0.0],
            "cash_flow": [70.0, -20.0, 0.0],
            "bottom": [30.0, 40.0, np.nan],
            "npv": [60.0, 45.0, 45.0],
        }
    )
    last = so_far(years, ["gold"]).iloc[-1].to_dict()
    assert last == {
        "blocks": 5,
        "rock_t": 200.0,
        "ore_t": 100.0,
        "waste_t": 100.0,
        "feed_t": 90.0,
        "strip": 1.0,
        "grade_gold": 2.0,
        "metal_gold": 180.0,
        "cash_flow": 50.0,
        "bottom": 30.0,
        "npv": 45.0,
    }


def test_grades_so_far_are_by_tonnes_of_ore_of_each_process():
    """By hand: 100 t of 2 and 300 t of 1 are 400 t of 1.25; of the leach 50 t of 0.4, then none."""
    years = pd.DataFrame(
        {
            "ore_t": [150.0, 300.0],
            "waste_t": [0.0, 900.0],
            "feed_t": [150.0, 300.0],
            "grade_gold": [22 / 15, 1.0],
            "metal_gold": [0.0, 0.0],
            "bottom": [1.0, 1.0],
            "process_mill_ore_t": [100.0, 300.0],
            "process_mill_feed_t": [100.0, 300.0],
            "process_mill_grade_gold": [2.0, 1.0],
            "process_mill_metal_gold": [150.0, 200.0],
            "process_leach_ore_t": [50.0, 0.0],
            "process_leach_feed_t": [50.0, 0.0],
            "process_leach_grade_gold": [0.4, np.nan],
            "process_leach_metal_gold": [10.0, 0.0],
        }
    )
    last = so_far(years, ["gold"], ["mill", "leach"]).iloc[-1]
    assert last["process_mill_grade_gold"] == pytest.approx(1.25)
    assert last["process_leach_grade_gold"] == pytest.approx(0.4)
    assert last["process_mill_metal_gold"] == 350.0
    assert last["grade_gold"] == pytest.approx(520 / 450)
    assert last["strip"] == pytest.approx(2.0)


def test_sums_stand_beside_what_a_year_has_alone():
    columns = [("Blocks", ["3", "2"]), ("So far", ["1", "4"]), ("Binds", ["mill", "-"])]
    sides = beside(columns, [("Blocks", ["3", "5"])], columns[1:2])
    assert sides == [
        (["3", "2"], ["3", "5"]),
        (["", ""], ["1", "4"]),
        (["mill", "-"], ["", ""]),
    ]


SHOWN = """show(arguments[0]); return [...document.getElementById("facts").rows].map(
    row => [...row.cells].map(cell => cell.textContent))"""


def test_the_page_says_what_a_year_has_alone_and_what_all_up_to_it_have(found, tmp_path):
    """Blocks are counted in the schedule; what all years are worth is what `pit schedule` says."""
    browsers = pytest.importorskip("browsers", reason="selenium isn't there")
    view = schedule_view.schedule(found, Tables(found).years())
    path = page.write_views(tmp_path / "s.html", found.shells.study, [view], "schedule")
    period, last = found.period[found.shells.study.model.is_rock], len(view.labels)
    still = f"year\N{NO-BREAK SPACE}{last}"  # as it stands there without JavaScript
    assert f">{still} alone</th>" in path.read_text()
    assert f">up to {still}</th>" in path.read_text()
    browser = browsers.chromium()
    try:
        browsers.opened(browser, path)
        for year in range(1, last + 1):
            heads, *rows = browser.execute_script(SHOWN, year)
            word = f"year\N{NO-BREAK SPACE}{year}"
            assert heads == ["", f"{word} alone", f"up to {word}"]
            told = {name: [alone, upto] for name, alone, upto in rows}
            dug = [(period == year - 1).sum(), ((period >= 0) & (period < year)).sum()]
            assert told["Blocks"] == [f"{count:,}" for count in dug]
            assert told["Rate that binds"][1] == ""
        worth = next(sides for name, sides in told.items() if name.startswith("Net present"))
        assert worth == ["", f"{float(found.npv) / 1e6:,.2f}"]
        _, *rows = browser.execute_script(SHOWN, 0)
        assert {cell for _, *cells in rows for cell in cells} == {"-"}
        ground = browser.find_element("id", "controls").text.split("\n")[0]
        assert ground == "The ground as it is"  # and not after a year
        assert not browser.find_element("css selector", "#facts thead").is_displayed()
        size = {"width": 1024, "height": 560, "deviceScaleFactor": 1, "mobile": False}
        browser.execute_cdp_cmd("Emulation.setDeviceMetricsOverride", size)
        foot = "return document.getElementById('view').getBoundingClientRect().bottom"
        assert browser.execute_script(foot) <= 560  # however much is told beside it
    finally:
        browser.quit()


def test_each_word_is_that_of_the_period(found):
    """Of half years the words are periods, and their rows are as many."""
    terms = replace(found.production.terms, per_year=2)
    made = copy.copy(found)
    object.__setattr__(made, "production", replace(found.production, terms=terms))
    years = Tables(found).years()
    for one, word in ((found, "year"), (made, "period")):
        view = schedule_view.schedule(one, years)
        assert view.name == f"Schedule by {word}s"
        assert view.slider == f"After {word}"
        assert (view.table.caption, view.table.first) == (f"By {word}", word.capitalize())
        assert f"after each {word} the mine" in view.note
        assert view.paint == f"{word.capitalize()} in which the block is dug"
        assert view.start == len(view.labels) == len(years)


def test_what_stays_in_the_ground_is_said(found):
    """The blocks of the last year, as of a plan that doesn't dig them."""
    years, made = Tables(found).years(), copy.copy(found)
    assert not any("in the ground" in each for each in schedule_view.schedule(found, years).lines)
    last = found.period == found.period.max()
    object.__setattr__(made, "period", np.where(last, -1, found.period))
    view = schedule_view.schedule(made, Tables(made).years())
    study = found.shells.study
    stays = last & study.model.is_rock
    tonnes = study.model.blocks.tonnes.to_numpy()[stays].sum()
    assert f" worth $ {of_rows(found).worth[stays].sum():,.0f} undiscounted" in view.lines[1]
    assert view.lines[1].startswith(f"{stays.sum():,} blocks of the pit stay in the ground, ")
    assert (
        f" {tonnes / 1e6:,.2f} Mt worth " in view.lines[1]
        or f"{tonnes / 1e3:,.2f} kt" in view.lines[1]
    )


def test_fixed_costs_are_not_in_what_stays(found):
    """Years that would dig it pay them too; and whose rates these are is said."""
    terms, made = replace(found.production.terms, fixed_cost=5), copy.copy(found)
    object.__setattr__(made, "production", replace(found.production, terms=terms))
    last = found.period == found.period.max()
    object.__setattr__(made, "period", np.where(last, -1, found.period))
    view = schedule_view.schedule(made, Tables(found).years())
    assert view.lines[1].endswith(" undiscounted, before fixed costs")
    assert "those of [schedule], and of [shells] where it has none." in view.note


def test_no_amount_is_said_that_is_more_than_is_known(found):
    """The worth is rounded down, and the bound up."""
    (said, *_) = schedule_view.schedule(found, Tables(found).years()).lines
    numbers = [
        int(word.strip(",").replace(",", ""))
        for word in said.split()
        if word[0].isdigit() and "," in word
    ]
    assert numbers == [math.floor(found.npv), math.ceil(found.bound)]
    assert numbers[0] <= found.npv <= found.bound <= numbers[1]


def test_a_year_that_leaves_rock_hanging_is_no_surface(found):
    """A block that is dug a year before the one above it."""
    model = found.shells.study.model
    period = found.period.copy()
    b = model.blocks
    low, top = (
        int(b.index[(b.ix == 4) & (b.iy == 4)][f(b.iz[(b.ix == 4) & (b.iy == 4)])])
        for f in (np.argmin, np.argmax)
    )
    period[top], period[low] = 1, 0
    made = copy.copy(found)
    object.__setattr__(made, "period", period)
    with pytest.raises(
        PlanError, match="the mine after year 1 has block .* without all that is above it"
    ):
        schedule_view.schedule(made, Tables(found).years())


def test_what_binds_may_have_several_lines():
    """Words that would make a column wide, and neither numbers nor short words."""
    texts = ["mill", "mill; leach; sink: bench 1,115"]
    table = ViewTable("t", "Year", ["1", "2"], [("Binds", texts), ("x", ["1,234,567,890.12", "2"])])
    found = page.table_html(table)
    assert found.count('class="words"') == 1
    assert '<td class="words">mill; leach; sink: bench 1,115</td>' in found
