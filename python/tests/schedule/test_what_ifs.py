"""Schedules with one thing changed: each is that of the study that a planner would write by hand,
added up again from the planner's own table."""
import re
import subprocess
import sys
from decimal import Decimal
from pathlib import Path

import mines
import pandas as pd
import pytest
from pitplan import PlanError, Study
from pitplan.plans.vary import changes_of
from pitplan.schedule import Schedule, what_ifs
from pitplan.study.study_file import read_study_file
from pitplan.tasks import status
from pitplan.tasks.tasks import Tasks, wanted

PITPLAN = Path(__file__).resolve().parents[3] / "bin" / "pitplan"
RICH = mines.STUDY_TOML.replace("price = 8500", "price = 24000")
TERMS = "\n[schedule]\nyears = 6\nmining_rate = [600e3, 500e3]\nmill_rate = 400e3\nsink = 3\n"
WORDS = ["price:copper=10", "price=-10", "recovery=-10", "discount=2", "mill_rate=-20"]
WORDS += ["mining_rate=10", "sink=-1", "slope=-20"]


def run(*words, status=0):
    ran = subprocess.run(
        [sys.executable, PITPLAN, *map(str, words)], capture_output=True, text=True
    )
    assert ran.returncode == status, ran.stderr + ran.stdout
    return ran.stdout + ran.stderr


def built(folder, text=RICH + TERMS):
    mines.written_study(folder, mines.table(8, 7, 5, 5), text)
    plan = read_study_file(folder)
    Study.create(folder, plan.read_model(), plan.economics, plan.slopes, None, plan.digest)
    return folder


@pytest.fixture(scope="module")
def varied(tmp_path_factory):
    folder = built(tmp_path_factory.mktemp("varied") / "s")
    run("shells", folder)
    run("schedule", folder, "--gap", "0.2")
    before = (folder / "runs" / "schedule" / "schedule.npz").read_bytes()
    said = run("vary", folder, *WORDS, "--schedule", "--gap", "0.2", "--minutes", "10")
    assert (folder / "runs" / "schedule" / "schedule.npz").read_bytes() == before
    return folder, said, pd.read_csv(folder / "out" / "vary_schedule.csv")


def by_hand(study, years, price, recovery, discount):
    """The npv of a schedule, by whole dollars of each block worked out of grades, prices and costs."""
    total = Decimal(0)
    for row, year in zip(study.model.blocks.to_dict("records"), years):
        if year:
            brings = round(row["TONNES"] * row["CU"] / 100 * recovery * price)
            treating = round(row["TONNES"] * (7.5 if row["ROCK"] == "OXI" else 9.0))
            worth = max(brings - treating, 0) - round(2.0 * row["TONNES"])
            total += Decimal(str(round((1 + discount) ** -(int(year) - 0.5), 6))) * worth
    return float(total)


@pytest.mark.parametrize(
    "what, by, amounts, rates, sink",
    [
        ("base", 0, (24000, 0.85, 0.08), (500e3, 400e3), 3),
        ("price:copper", 10, (26400, 0.85, 0.08), (500e3, 400e3), 3),
        ("price", -10, (21600, 0.85, 0.08), (500e3, 400e3), 3),
        ("recovery", -10, (24000, 0.765, 0.08), (500e3, 400e3), 3),
        ("discount", 2, (24000, 0.85, 0.10), (500e3, 400e3), 3),
        ("mill_rate", -20, (24000, 0.85, 0.08), (500e3, 320e3), 3),
        ("mining_rate", 10, (24000, 0.85, 0.08), (550e3, 400e3), 3),
        ("sink", -1, (24000, 0.85, 0.08), (500e3, 400e3), 2),
    ],
)
def test_a_row_is_what_loops_over_the_table_give(varied, what, by, amounts, rates, sink):
    folder, _, table = varied
    row = table[(table.what == what) & (table.by == by)].iloc[0]
    base = Study(folder)
    name = "base" if what == "base" else changes_of([f"{what}={by}"], what_ifs.KNOWN)[0].name
    found = what_ifs.found_last(base, what_ifs.asked_of(base), name)
    assert row.npv == pytest.approx(by_hand(base, found.years, *amounts), rel=1e-12)
    assert row.npv <= row.bound
    assert row.gap == pytest.approx(100 * (1 - row.npv / row.bound))
    assert (row.blocks, row.years) == ((found.years > 0).sum(), found.years.max())
    blocks = base.model.blocks.assign(year=found.years).query("year > 0")
    assert row.rock_t == pytest.approx(blocks.TONNES.sum())
    rock = blocks.groupby("year").TONNES.sum()
    first = 600e3 * rates[0] / 500e3
    assert (rock <= [first, *[rates[0]] * (len(rock) - 1)]).all()
    assert rock.max() > 0.9 * rates[0]
    brings = (blocks.TONNES * blocks.CU / 100 * amounts[1] * amounts[0]).round()
    treating = (blocks.TONNES * blocks.ROCK.map({"OXI": 7.5, "SUL": 9.0})).round()
    assert blocks[brings > treating].groupby("year").TONNES.sum().max() <= rates[1]
    assert blocks.groupby(["ix", "iy", "year"]).iz.nunique().max() == sink
    for name in ("npv", "bound"):
        assert row[f"{name}_difference"] == pytest.approx(row[name] - table[name].iloc[0])


@pytest.mark.parametrize(
    "what, by, old, new",
    [
        ("price:copper", 10, "24000", "26400"),
        ("recovery", -10, "recovery = 0.85", "recovery = 0.765"),
        ("slope", -20, "angles = 45", "angles = 25"),
        ("discount", 2, "discount = 0.08", "discount = 0.10"),
        ("mill_rate", -20, "mill_rate = 400e3", "mill_rate = 320e3"),
        ("sink", -1, "sink = 3", "sink = 2"),
    ],
)
def test_a_what_if_is_the_study_written_by_hand(varied, tmp_path, what, by, old, new):
    """Of each the best lies between its npv and its bound, so that the two ranges have to meet; and
    the searches come near each other."""
    table = varied[2]
    row = table[(table.what == what) & (table.by == by)].iloc[0]
    text = RICH + TERMS
    assert text.count(old) == 1
    folder = built(tmp_path / "s", text.replace(old, new))
    plan, study = read_study_file(folder), Study(folder)
    shells = study.shells(plan.factors)
    own = Schedule.of(shells, plan.values["schedule"], plan.rates, (0.002, 600))
    assert row.npv <= own.bound
    assert own.npv <= row.bound
    assert row.bound == pytest.approx(float(own.bound), rel=2e-3)
    if what != "mill_rate":  # which binds in few years
        assert abs(row.bound_difference) > 3e-3 * row.bound


def test_the_screen_and_the_chart_have_the_table(varied):
    folder, said, table = varied
    assert "optimal" not in said
    for row in table.itertuples():
        assert f"{row.npv / 1e6:,.2f}" in said
        assert f"{row.bound / 1e6:,.2f}" in said
    lines = [line for line in said.splitlines() if re.match(r" +(price|sink|discount)", line)]
    assert len(lines) == 4, said
    assert any("-1 bench " in line for line in lines)
    axes = what_ifs.tornado(table).axes[0]
    base = table.npv.iloc[0] / 1e6
    ends = sorted(bar.get_x() + bar.get_width() for bar in axes.patches)
    assert ends == pytest.approx(sorted(table.npv.iloc[1:] / 1e6))
    assert {round(bar.get_x(), 6) for bar in axes.patches} == {round(base, 6)}
    bounds = sorted(line.get_xdata()[1] for line in axes.lines if line.get_color() == "#a3341f")
    assert bounds == pytest.approx(sorted(table.bound.iloc[1:] / 1e6))
    assert (folder / "out" / "tornado-schedule.png").is_file()


def test_what_is_smaller_than_both_gaps_cannot_be_told_apart():
    """Each row's best lies between its npv and its bound: of the second the least is above the
    plan's most."""
    rows = [(100, 101), (103, 103.5), (101, 102), (98.5, 99), (98, 99)]
    found = what_ifs.with_gaps(pd.DataFrame(rows, columns=["npv", "bound"]))
    assert found.gaps.tolist() == [2, 1.5, 2, 1.5, 2]
    assert found.is_apart.tolist() == [False, True, False, False, False]


def test_it_is_said_beside_each_difference(varied):
    _, said, table = varied
    rows = table.iloc[1:]
    by_hand = rows.bound - rows.npv + table.bound[0] - table.npv[0]
    assert rows.gaps.to_numpy() == pytest.approx(by_hand.to_numpy())
    assert rows.is_apart.tolist() == ((rows.npv - table.npv[0]).abs() > by_hand).tolist()
    ends = re.findall(r" (larger|within the gaps) *$", said, re.M)
    assert ends == ["larger" if is_apart else "within the gaps" for is_apart in rows.is_apart]
    assert ("can't be told apart" in said) == (not rows.is_apart.all())


def test_one_of_a_unit_is_one():
    assert str(changes_of(["sink=-1"], what_ifs.KNOWN)[0]) == "sink -1 bench"
    assert str(changes_of(["discount=1"])[0]) == "discount +1 point"
    assert str(changes_of(["slope=-1"])[0]) == "slope -1 degree"
    assert str(changes_of(["slope=-1.5"])[0]) == "slope -1.5 degrees"


def test_tasks_are_done_once_and_again_where_something_changed(varied, tmp_path):
    folder = varied[0]
    base = Study(folder)
    names = ["schedule base 1000", "schedule price_copper+10 1000", "schedule price-10 1000"]
    each = what_ifs.what_if_tasks(base)
    assert [str(task) for task in each][:3] == names
    assert len(each) == 9
    assert set(each) <= set(wanted(base, [1000]))
    tasks = Tasks(folder)
    assert not tasks.left(each)
    assert tasks.do(each[4]) == 0
    assert "schedule discount+2 1000: done before" in run(
        "task", folder, "schedule", "discount+2", "1000"
    )
    path = folder / "vary" / "discount+2" / "runs" / "schedule" / "ended"
    kept = path.read_text()
    path.unlink()
    assert [str(task) for task in tasks.left(each)] == ["schedule discount+2 1000"]
    assert "schedule found" in run("task", folder, "schedule", "discount+2", "1000")
    assert path.read_text() == kept
    asked = (folder / "vary" / "schedule.json").read_text()
    (folder / "vary" / "schedule.json").write_text(asked.replace('"minutes": 10.0', '"minutes": 2'))
    assert len(tasks.left(each)) == 9
    (folder / "vary" / "schedule.json").write_text(asked)
    with pytest.raises(PlanError, match="no schedule of 'price-11'"):
        what_ifs.study_named(base, "price-11")


def test_what_cannot_be_varied_names_the_change(varied, tmp_path):
    folder = built(tmp_path / "s", RICH + TERMS.replace("sink = 3\n", ""))
    run("shells", folder)
    for words, why in (
        (["sink=1", "--schedule"], "sink +1 bench: .*no sink rate"),
        (["discount=-9", "--schedule"], "discount -9 points: a discount of -0.01"),
        (["sink=1"], "'sink' isn't among what can be varied"),
        (["price=5", "--schedule", "--factor", "0.9"], "goes without --factor"),
        (["--schedule"], "no schedules of what-ifs were asked for"),
    ):
        said = run("vary", folder, *words, status=3)
        assert re.search(why.replace("+", r"\+"), said), said
    said = run("vary", varied[0], "sink=0.5", "--schedule", status=3)
    assert "whole benches" in said
    ran = run("vary", folder, "discount=2", "--schedule", "--later")
    assert "2 schedules; then" in ran
    assert "vary" in ran
    assert "--schedule" in ran
    text = (folder / "study.toml").read_text()
    (folder / "study.toml").write_text(text.replace("mill_rate = 400e3", "mill_rate = 390e3"))
    assert "aren't those that these schedules" in run("vary", folder, "--schedule", status=3)


def test_a_schedule_that_is_searched_for_is_running_and_one_that_was_left_has_failed(
    tmp_path, monkeypatch
):
    folder = built(tmp_path / "s")
    plan, study, seen = read_study_file(folder), Study(folder), []
    found = plan.values["schedule"]
    asked = what_ifs.Asked(study.key, [("discount", 2.0)], found, plan.rates, 0.5, 1.0)
    what_ifs.prepare(study, plan.economics, plan.slopes, asked.each(), asked)
    todo = what_ifs.what_if_tasks(study)

    def look(base, name):
        seen.append([each.state for each in status.states(base, todo, {})])

    monkeypatch.setattr(what_ifs, "find", look)
    Tasks(folder).do(todo[1])
    look(study, "")
    assert seen == [[status.TO_DO, status.RUNNING], [status.TO_DO, status.TO_DO]]
    gone = subprocess.Popen([sys.executable, "-c", ""])
    gone.wait()  # a process that is no more
    left = f".f01000.{status.host()}.{gone.pid}.xyz"
    (folder / "vary" / "discount+2" / "runs" / "schedule" / left).mkdir()
    look(study, "")
    assert seen[-1] == [status.TO_DO, status.FAILED]
