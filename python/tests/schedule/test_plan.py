"""A schedule of a small mine: added up again from the planner's own table, by pandas alone."""
import json
import re
import signal
import subprocess
import sys
from decimal import Decimal

import pandas as pd
import pytest

import mines
from pitplan import Disagreement, PlanError, Study
from pitplan.schedule.kept_search import Kept
from pitplan.schedule.plan import Schedule, production_for
from pitplan.schedule.tables import Tables
from pitplan.study.study_file import read_study_file
from planned import PITPLAN, RICH, TERMS, WEIGHTS, built, of_table, run, scheduled


@pytest.fixture(scope="module")
def mine(tmp_path_factory):
    folder = built(tmp_path_factory.mktemp("mine") / "s")
    said = run("schedule", folder, "--gap", "0.05", "--mining-width", "40")
    return folder, said


def test_the_npv_is_that_of_the_planners_own_table(mine):
    folder, said = mine
    dug = of_table(folder).dropna(subset=["year"])
    assert len(dug) > 150
    assert dug.year.nunique() >= 4
    by_hand = sum(Decimal(str(WEIGHTS[int(y)])) * int(v) for y, v in zip(dug.year, dug.worth))
    count, npv = re.search(
        r"feasible, ([\d,]+) blocks, net present value \$ ([\d,]+)", said
    ).groups()
    assert int(count.replace(",", "")) == len(dug)
    assert int(npv.replace(",", "")) == by_hand // 1
    last = pd.read_csv(folder / "out" / "schedule.csv").npv.iloc[-1]
    assert last == pytest.approx(float(by_hand), rel=1e-12)


def test_each_row_of_the_table_is_what_the_planners_rows_come_to(mine):
    folder, _ = mine
    dug, years = of_table(folder), pd.read_csv(folder / "out" / "schedule.csv").set_index("year")
    assert list(years.index) == list(range(1, int(dug.year.max()) + 1))
    sums = dug.groupby("year")[["TONNES", "ore", "worth", "metal"]].sum()
    for column, by_hand in (
        ("rock_t", sums.TONNES),
        ("ore_t", sums.ore),
        ("feed_t", sums.ore),
        ("waste_t", sums.TONNES - sums.ore),
        ("strip", (sums.TONNES - sums.ore) / sums.ore),
        ("cash_flow", sums.worth),
        ("metal_copper", sums.metal),
        ("grade_copper", sums.metal / 0.85 / sums.ore * 100),
        ("discounted", sums.worth * [WEIGHTS[y] for y in sums.index]),
        ("npv", (sums.worth * [WEIGHTS[y] for y in sums.index]).cumsum()),
        ("mining_used", sums.TONNES / [600e3, *[500e3] * (len(sums) - 1)]),
        ("mill_used", sums.ore / 400e3),
    ):
        assert years[column].to_numpy() == pytest.approx(by_hand.to_numpy(), rel=1e-9), column
    assert (years.mining_used <= 1).all()
    assert (years.mill_used <= 1).all()
    plan = read_study_file(folder)
    shells, terms = Study(folder).shells(plan.factors), plan.values["schedule"]
    full = Tables(Schedule.last(shells, terms, plan.rates)).full_rates
    binds = [
        "; ".join(
            name
            for r, name in enumerate(("mining", "mill"))
            if row[f"{name}_used"] >= 0.995 or full[r, t]
        )
        for t, row in enumerate(years.to_dict("records"))
    ]
    assert years.binds.astype(object).fillna("").tolist() == binds
    bottom = dug.groupby("year").ZC.min() - 7.5
    assert years.bottom.to_numpy() == pytest.approx(bottom.to_numpy())


def test_why_the_search_ended_is_said_everywhere(mine):
    """The same sentence on the screen, in the JSON file and on the page; and the amounts are those
    of the table."""
    folder, said = mine
    facts = json.loads((folder / "out" / "schedule.json").read_text())
    assert facts["ended_in_words"] in " ".join(said.split())
    page = (folder / "out" / "schedule.html").read_text()
    assert facts["ended_in_words"][1:] in page
    assert "<title>s: " in page
    years = pd.read_csv(folder / "out" / "schedule.csv")
    assert float(facts["npv"]) == pytest.approx(years.npv.iloc[-1], rel=1e-12)
    assert facts["blocks"] == len(of_table(folder).dropna(subset=["year"]))
    gap = 100 * (1 - float(facts["npv"]) / float(facts["bound"]))
    assert facts["gap_percent"] == pytest.approx(gap, rel=1e-6)
    assert (facts["asked_gap_percent"], facts["is_judged"]) == (0.05, True)


def test_benches_add_up_to_the_years(mine):
    folder, _ = mine
    benches = pd.read_csv(folder / "out" / "schedule_benches.csv")
    years = pd.read_csv(folder / "out" / "schedule.csv").set_index("year")
    for column in ("blocks", "rock_t", "ore_t", "cash_flow", "metal_copper"):
        assert benches.groupby("year")[column].sum().to_numpy() == pytest.approx(
            years[column].to_numpy()
        )
    dug = of_table(folder).dropna(subset=["year"])
    assert (
        benches.groupby(["year", "bench"]).blocks.sum().tolist()
        == dug.groupby(["year", "ZC"]).size().tolist()
    )


def test_slopes_are_kept_year_by_year(mine):
    """At 45 degrees of blocks of 20 by 20 by 15 each block asks at least for the one above it, and
    pit has said that none is broken; here by the table alone."""
    folder, _ = mine
    rows = of_table(folder)
    year = {(x, y, z): t for x, y, z, t in zip(rows.XC, rows.YC, rows.ZC, rows.year.fillna(99))}
    for (x, y, z), t in year.items():
        if t < 99 and (x, y, z + 15) in year:
            assert year[x, y, z + 15] <= t


def test_what_is_narrow_lies_in_no_square(mine):
    """Of blocks of 20 by 20 what is 40 wide lies in a square of two by two that the year digs, or
    finds dug before and still standing below."""
    folder, _ = mine
    rows = of_table(folder)
    year = {(x, y, z): t for x, y, z, t in zip(rows.XC, rows.YC, rows.ZC, rows.year.fillna(99))}
    narrow, total = {}, {}

    def is_room(x, y, z, t):
        own, below = year.get((x, y, z), 99), year.get((x, y, z - 15), 99)
        return own == t or own < t <= below

    for x, y, z, t, tonnes in zip(rows.XC, rows.YC, rows.ZC, rows.year, rows.TONNES):
        if t == t:
            corners = [(x - i, y - j) for i in (0, 20) for j in (0, 20)]
            wide = any(
                all(is_room(a + i, b + j, z, t) for i in (0, 20) for j in (0, 20))
                for a, b in corners
            )
            total[t] = total.get(t, 0) + tonnes
            narrow[t] = narrow.get(t, 0) + (0 if wide else tonnes)
    share = pd.read_csv(folder / "out" / "schedule.csv").narrow_share
    assert share.to_numpy() == pytest.approx([narrow[t] / total[t] for t in sorted(total)])
    assert share.max() > 0


def test_the_bound_is_above_and_near(mine):
    folder, said = mine
    found = scheduled(folder)
    assert found.npv <= found.bound
    assert 0 <= float(found.gap) < 1
    bound = re.search(r"brings more than \$ ([\d,]+),", said)[1].replace(",", "")
    assert int(bound) == pytest.approx(float(found.bound), rel=1e-3)
    assert "at most" in said
    assert "optimal" not in said


def test_a_sink_rate_is_kept_and_its_bound_is_lower(mine, tmp_path):
    """By the table alone: straight above a block of rock, two benches up, is one that is dug in an
    earlier year."""
    free, folder = mine[0], built(tmp_path / "s", TERMS + "sink = 2\n")
    said = run("schedule", folder)
    assert "which pit bound has accepted" in said
    assert "checked by pitplan" not in said
    rows = of_table(folder)
    year = {(x, y, z): t for x, y, z, t in zip(rows.XC, rows.YC, rows.ZC, rows.year.fillna(99))}
    checked = 0
    for (x, y, z), t in year.items():
        if t < 99 and (x, y, z + 30) in year:
            assert year[x, y, z + 30] < t
            checked += 1
    assert checked > 20
    slow, quick = scheduled(folder), scheduled(free)
    assert slow.bound < quick.bound
    benches = rows.dropna(subset=["year"]).groupby(["XC", "YC", "year"]).ZC.nunique()
    assert benches.max() == 2


def test_half_years_and_panels(tmp_path):
    folder = built(tmp_path / "s", TERMS + "per_year = 2\npanel = 2\n")
    said = run("schedule", folder)
    rows = of_table(folder).dropna(subset=["period"])
    table = pd.read_csv(folder / "out" / "schedule.csv")
    rock = rows.groupby("period").TONNES.sum()
    assert rock.index.tolist() == table.period.tolist()
    assert rock.to_numpy() == pytest.approx(table.rock_t.to_numpy())
    assert (table.rock_t <= [*[300e3] * 2, *[250e3] * (len(table) - 2)]).all()
    assert (table.ore_t <= 200e3).all()
    assert table.year.tolist() == [t // 2 + 1 for t in range(len(table))]
    flows = dict(zip(table.period, table.cash_flow))
    by_hand = sum(round(1.08 ** -((t - 0.5) / 2), 6) * flow for t, flow in flows.items())
    assert table.npv.iloc[-1] == pytest.approx(by_hand, rel=1e-12)
    square = [(rows.XC - 5000) // 40, (rows.YC - 9000) // 40, rows.ZC]
    assert rows.groupby(square).period.nunique().max() == 1
    each = rows.groupby(square).ngroups / rows.period.nunique()
    assert f"a period digs {each:.1f} panels on the mean" in said


def test_after_prices_change_nothing_older_is_shown(mine, tmp_path):
    """The bound and the schedule are those of a study that never had another price. The older bound
    is lower than the schedule is now, and the older schedule has other blocks."""
    folder = built(tmp_path / "s", text=RICH.replace("24000", "18000"))
    older = scheduled(folder, (0.01, 600))
    text = (folder / "study.toml").read_text().replace("18000", "24000")
    (folder / "study.toml").write_text(text)
    run("build", folder)
    run("shells", folder)
    later, fresh = scheduled(folder), scheduled(mine[0])
    assert older.bound < later.npv
    assert later.bound == pytest.approx(fresh.bound, rel=Decimal("1e-4"))
    assert float(later.npv) == pytest.approx(float(fresh.npv), rel=1e-2)


@pytest.mark.parametrize(
    "older, newer",
    [("mill_rate = 200e3", "mill_rate = 400e3"), ('when = "end"', 'when = "start"')],
)
def test_after_terms_change_nothing_older_is_shown(tmp_path, older, newer):
    """Each change brings more than was bounded before."""
    folder = built(tmp_path / "s", TERMS.replace("mill_rate = 400e3", older) + "\n")
    before = scheduled(folder, (0.01, 600))
    text = (folder / "study.toml").read_text().replace(older, newer)
    (folder / "study.toml").write_text(text)
    after = scheduled(folder, (0.01, 600))
    assert after.npv > before.bound


def test_a_search_that_was_ended_goes_on(tmp_path):
    folder = built(tmp_path / "s")
    first = scheduled(folder, (0.0, 0.0))
    second = scheduled(folder, (0.0005, 600))
    assert second.closures > first.closures >= 1
    assert second.bound <= first.bound
    assert second.npv >= first.npv
    plan = read_study_file(folder)
    made = production_for(Study(folder).shells(plan.factors), plan.values["schedule"], plan.rates)
    kept = Kept(folder, made)
    assert made.npv(kept.schedule()) == int(second.npv * 10**6)
    plan = kept.schedule()
    plan.period[made.level == made.level.max()] = made.periods - 1  # what is above comes last
    kept.keep_schedule(plan)
    assert kept.schedule() is None


def test_after_ctrl_c_the_same_command_goes_on(tmp_path):
    folder = built(tmp_path / "s")
    words = [sys.executable, PITPLAN, "schedule", folder, "--gap", "0"]
    begun = subprocess.Popen(words, stdout=subprocess.PIPE, stderr=subprocess.PIPE, text=True)
    for line in begun.stderr:
        if line.startswith("schedules in the order of that plan"):
            break
    begun.send_signal(signal.SIGINT)
    text = begun.communicate()[1]
    assert begun.returncode == 130
    assert "the search was ended by ctrl-C; the same command goes on: " in " ".join(text.split())
    facts = json.loads((folder / "out" / "schedule.json").read_text())
    assert (facts["ended"], facts["is_judged"]) == ("ctrl-C", False)
    assert 0 < float(facts["npv"]) <= float(facts["bound"])
    ran = subprocess.run([*words, "--minutes", "0"], capture_output=True, text=True)
    assert ran.returncode == 0
    assert "at most" in ran.stdout
    assert "its 0 minutes were over" in ran.stdout
    facts = json.loads((folder / "out" / "schedule.json").read_text())
    assert (facts["ended"], facts["is_judged"]) == ("minutes over", True)
    first = ran.stderr.splitlines()[0]
    assert "no bound yet" not in first
    assert "no schedule yet" not in first
    assert not list((folder / "runs" / "schedule").glob(".closures*"))


def test_what_pit_contradicts_is_not_shown(mine, monkeypatch):
    from pitplan.schedule.production import Production

    monkeypatch.setattr(Production, "worth", lambda self, plan: 1)
    with pytest.raises(Disagreement, match="pit schedule says"):
        scheduled(mine[0], (1.0, 600))


def test_what_is_refused_names_the_key(mine, tmp_path):
    folder = mine[0]
    plan = read_study_file(folder)
    found, rates = plan.values["schedule"], plan.rates
    with pytest.raises(PlanError, match="factors has no 1.0") as refused:
        production_for(Study(folder).shells([600]), found, rates)
    assert refused.value.key == ("shells", "factors")
    cents = built(
        tmp_path / "s", text=RICH.replace("mining = 2.0", "rounding = 0.01\nmining = 2.0")
    )
    with pytest.raises(PlanError, match="rounding = 0.01") as refused:
        scheduled(cents)
    assert refused.value.key == ("economics", "rounding")
    text = (folder / "study.toml").read_text()
    slow = mines.written_study(tmp_path / "slow", mines.table(9, 8, 5, 5), text)
    (slow / "study.toml").write_text(text.replace("mill_rate = 400e3", "mill_rate = 1"))
    run("build", slow)
    run("shells", slow)
    with pytest.raises(PlanError, match="nothing is dug that pays") as refused:
        scheduled(slow)
    assert refused.value.key == ("schedule",)
    poor = built(tmp_path / "poor", text=RICH.replace("24000", "1"))
    with pytest.raises(PlanError, match="pit at the full price is empty"):
        scheduled(poor)
    wrong = subprocess.run(
        [
            sys.executable,
            PITPLAN,
            "schedule",
            mines.written_study(tmp_path / "w", text=RICH + "[schedule]\nyear = 3\n"),
        ],
        capture_output=True,
        text=True,
    )
    assert wrong.returncode == 3
    assert "has no key 'year'" in wrong.stderr
    assert "years" in wrong.stderr
