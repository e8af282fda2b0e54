"""A plan by years over several processes: each has its own rate, and tables tell what each gets;
added up again by two_ways.py alone."""
import re
import shutil
import subprocess
import sys
from decimal import Decimal

import pandas as pd
import pytest

import two_ways
from pitplan import PlanError, Study
from pitplan.audit.bundle import write_bundle
from pitplan.plans import vary
from pitplan.schedule import Schedule
from pitplan.schedule.plan import production_for
from pitplan.schedule.tables import Tables, binds_text
from pitplan.schedule.terms import terms_of
from pitplan.schedule.what_ifs import _changed_terms
from pitplan.schedule.year_ends import YearEnds
from pitplan.study.study_file import read_study_file
from pitplan.views.export.csv import table_of
from pitplan.views.schedule_view import schedule
from planned import WEIGHTS
from two_ways import COLUMNS, NAMES, added_up, rows_at

TERMS = "\n[schedule]\nyears = 6\nmining_rate = [600e3, 500e3]\n"
ROOM = {"mill": 250e3, "leach": 120e3}


def planned(folder, more="", text=two_ways.TEXT, ends=(0.1, 120)):
    """A schedule of the mine of two ways, and its bundle."""
    plan = read_study_file(two_ways.written(folder, TERMS + more, text))
    Study.create(folder, plan.read_model(), plan.economics, plan.slopes, None, plan.digest)
    shells, shown = Study(folder).shells(plan.factors), plan.values["schedule"]
    made = Schedule.of(shells, shown, plan.rates, ends)
    dialect = plan.keys.dialect(plan.table)
    write_bundle(shells, folder / "bundle", plan.path, dialect, plan.rates, shown)
    return made


@pytest.fixture(scope="module")
def found(tmp_path_factory):
    return planned(tmp_path_factory.mktemp("two") / "s", ends=(0.02, 300))


@pytest.fixture(scope="module")
def rows(found):
    """The planner's rows with the year of each, from 1; 0 where it stays."""
    year = dict(zip(found.shells.study.model.blocks.id, found.years.tolist()))
    made = rows_at(two_ways.frame())
    for row in made:
        row["year"] = year[row["IJK"]]
    return made


def test_each_year_is_what_the_planners_rows_come_to(found, rows):
    tables = Tables(found)
    years, full = tables.years().set_index("year"), tables.full_rates
    assert list(years.index) == list(range(1, max(row["year"] for row in rows) + 1))
    npv = Decimal(0)
    for year, line in years.iterrows():
        wanted = added_up([row for row in rows if row["year"] == year])
        for column in COLUMNS:
            for before in ("", *(f"process_{name}_" for name in NAMES)):
                by_hand = pytest.approx(wanted[f"{before}{column}"], rel=1e-9, nan_ok=True)
                assert line[f"{before}{column}"] == by_hand, (year, before, column)
        assert line.cash_flow == pytest.approx(wanted["worth"], rel=1e-12)
        assert line.mining_used == pytest.approx(
            wanted["rock_t"] / (600e3 if year == 1 else 500e3), rel=1e-9
        )
        tight = ["mining"] if line.mining_used >= 0.995 or full[0, year - 1] else []
        for r, name in enumerate(NAMES, 1):
            share = wanted[f"process_{name}_feed_t"] / ROOM[name]
            assert line[f"process_{name}_used"] == pytest.approx(share, rel=1e-9)
            assert share <= 1
            tight += [name] if share >= 0.995 or full[r, year - 1] else []
        assert binds_text(line) == "; ".join(tight)
        npv += sum(
            Decimal(str(WEIGHTS[year])) * int(row["worth"]) for row in rows if row["year"] == year
        )
    assert found.npv == npv
    assert (years.process_leach_feed_t > 0).all()


def test_where_blocks_go_is_told_by_name(found, rows):
    """In the planner's own table and in exported files."""
    at = {name: b for b, name in enumerate(found.shells.study.model.blocks.id)}
    for row in rows:
        assert found.ways[at[row["IJK"]]] == (row["to"] if row["year"] else "")
    exported = table_of(YearEnds(found)).set_index("id")
    assert set(exported["to"]) == {"mill", "leach", "waste"}
    for row in rows:
        if row["year"]:
            assert exported["to"][row["IJK"]] == row["to"]
            assert exported.worth[row["IJK"]] == row["worth"]


def test_the_page_has_what_each_process_gets(found, rows):
    """Its ore, its feed and their grades, by the planner's rows; and the note names both."""
    years = Tables(found).years()
    view = schedule(found, years)
    facts = dict(view.table.columns)
    for name in NAMES:
        for heading, column, scale in (
            (f"Ore to {name} (kt)", "ore_t", 1e3),
            (f"Feed of {name} (kt)", "feed_t", 1e3),
            (f"Grade of ore to {name}, copper (%)", "grade_copper", 1.0),
            (f"Grade of ore to {name}, gold (g/t)", "grade_gold", 1.0),
        ):
            for year, text in zip(years.year, facts[heading]):
                by_hand = added_up([row for row in rows if row["year"] == year])
                wanted = by_hand[f"process_{name}_{column}"] / scale
                assert float(text.replace(",", "").replace("-", "nan")) == pytest.approx(
                    wanted, abs=0.0051, rel=1e-3, nan_ok=True
                ), (heading, year)
    assert "Ore is what goes to mill or leach at factor 1." in view.note


def checked(bundle):
    ran = subprocess.run(
        [sys.executable, "-I", bundle / "recheck_schedule.py"], capture_output=True, text=True
    )
    assert not ran.stderr
    return ran.returncode, ran.stdout


def test_the_bundles_checker_adds_it_up_again(found):
    status, said = checked(found.shells.study.folder / "bundle")
    assert status == 0, said
    (npv,) = re.findall(r"capacities, and is worth ([\d,.]+)\n", said)
    assert Decimal(npv.replace(",", "")) == found.npv


@pytest.mark.parametrize("more", ["panel = 2\n", "pushbacks = [0.6]\nlead = 2\nsink = 3\n"])
def test_the_bundles_checker_counts_the_cones_of_each_process(tmp_path, more):
    """The leach is so slow that the cones of its feed keep units out of the first years."""
    made = planned(tmp_path, more, two_ways.TEXT.replace("rate = 120e3", "rate = 20e3"))
    assert made.production.capacities[2].tolist() == [20_000_000] * 6
    status, said = checked(tmp_path / "bundle")
    assert status == 0, said
    assert str(made.npv).split(".")[0] in said.replace(",", "")


def test_a_process_that_binds_may_have_a_blank_in_its_name(tmp_path):
    """A cell of `binds` falls into whole names, also of several that bind at once; the bundle's
    checker has the same ones."""
    text = two_ways.TEXT.replace('"leach"', '"heap leach"').replace("rate = 120e3", "rate = 20e3")
    planned(tmp_path, text=text)
    years = pd.read_csv(tmp_path / "bundle" / "tables" / "schedule.csv").fillna({"binds": ""})
    cells = [cell.split("; ") for cell in years.binds]
    assert {name for cell in cells for name in cell} <= {"mining", "mill", "heap leach", ""}
    assert any(len(cell) > 1 and "heap leach" in cell for cell in cells), cells
    status, said = checked(tmp_path / "bundle")
    assert status == 0, said


def of_file(name, was, now):
    def change(bundle):
        path = bundle / name
        text = path.read_text()
        assert re.search(was, text)
        path.write_text(re.sub(was, now, text, count=1))

    return change


def of_other_uses(bundle):
    """The feeds of the two processes change places."""
    path = bundle / "schedule" / "uses.blocks"
    lines = [line.split() for line in open(path)]
    path.write_text("".join(" ".join([*row[:5], row[6], row[5]]) + "\n" for row in lines))


@pytest.mark.parametrize(
    "change, words",
    [
        (of_file("study.toml", "rate = 120e3", "rate = 121e3"), "of leach, and by study.toml"),
        (of_file("study.toml", "rate = 250e3", "rate = 120e3"), "of mill, and by study.toml"),
        (of_file("study.toml", "years = 6", "years = 6\nmill_rate = 4e5"), "a mill_rate beside"),
        (of_other_uses, "uses|flows"),
        (of_file("schedule/periods.toml", r"capacities = \[\[", "capacities = [[9, "), "resources"),
    ],
)
def test_what_is_changed_is_told(found, tmp_path, change, words):
    bundle = shutil.copytree(found.shells.study.folder / "bundle", tmp_path / "bundle")
    change(bundle)
    status, said = checked(bundle)
    assert status == 1, said
    assert re.search(words, said), said


def test_what_a_plan_cant_have_of_processes():
    rates = {"process_rates": {"mill": 1e5, "leach": None}, "discount": 0.08}
    terms = terms_of({"years": 2}, rates, 1.0, [1.0, 1.0])
    assert terms.resources == ("mining", "mill", "leach")
    assert terms.capacities == ((), (10**8, 10**8), ())
    with pytest.raises(PlanError, match="the feed of 7 processes at most, and there are 8"):
        many = {"process_rates": {f"p{i}": 1.0 for i in range(8)}}
        terms_of({}, many, 1.0, [1.0] * 8)
    with pytest.raises(PlanError, match="neither mining_rate nor a process that has a rate"):
        terms_of({}, {"process_rates": {"mill": None}}, 1.0, [1.0])


def test_schedule_may_say_rates_of_processes_by_year():
    """In place of those of the processes; the last one stays."""
    rates = {"process_rates": {"mill": 1e5, "leach": None}, "discount": 0.08}
    told = {"years": 3, "process_rates": {"leach": [10.0, 20.0]}}
    terms = terms_of(told, rates, 1.0, [1.0, 1.0])
    assert terms.capacities == ((), (10**8,) * 3, (10_000, 20_000, 20_000))
    (one,) = vary.changes_of(["rate:leach=10"])
    changed = _changed_terms(told, rates, one)["process_rates"]
    assert changed == {"mill": 1e5, "leach": pytest.approx([11.0, 22.0])}
    with pytest.raises(PlanError) as error:
        blank = {"process_rates": {"mill": 1e5, "heap leach": None}}
        terms_of({"process_rates": {"leach": 1.0}}, blank, 1.0, [1.0, 1.0])
    assert error.value.try_this == 'mill, "heap leach"'
    with pytest.raises(PlanError, match="names 'heap', and no process is called so"):
        terms_of({"process_rates": {"heap": 1.0}}, rates, 1.0, [1.0, 1.0])
    said = r"\[schedule\] process_rates of leach has 4 years, and the schedule 3"
    with pytest.raises(PlanError, match=said) as error:
        terms_of({"years": 3, "process_rates": {"leach": [1.0] * 4}}, rates, 1.0, [1.0, 1.0])
    assert error.value.key == ("schedule", "process_rates")
    said = r"\[economics\] rate of process mill = 1e\+10 is more than"
    with pytest.raises(PlanError, match=said) as error:
        terms_of({"years": 3}, {"process_rates": {"mill": 1e10}}, 1.0, [1.0])
    assert error.value.key == ("economics", "processes", "mill", "rate")


def test_the_bundles_checker_reads_rates_of_processes_by_year(tmp_path):
    told = "process_rates = { leach = [60e3, 120e3] }\n"
    plan = read_study_file(two_ways.written(tmp_path, TERMS + told))
    Study.create(tmp_path, plan.read_model(), plan.economics, plan.slopes, None, plan.digest)
    shells, shown = Study(tmp_path).shells(plan.factors), plan.values["schedule"]
    made = Schedule.of(shells, shown, plan.rates, (0.05, 120))
    assert made.production.terms.capacities[2] == (60_000_000, *(120_000_000,) * 5)
    dialect = plan.keys.dialect(plan.table)
    write_bundle(shells, tmp_path / "bundle", plan.path, dialect, plan.rates, shown)
    status, said = checked(tmp_path / "bundle")
    assert status == 0, said
    study = tmp_path / "bundle" / "study.toml"
    study.write_text(study.read_text().replace("[60e3, 120e3]", "[60e3, 121e3]"))
    status, said = checked(tmp_path / "bundle")
    assert (status, "period 2 has 120000000 of leach" in said) == (1, True), said


def test_years_are_as_many_as_the_slowest_process_needs():
    rates = {"process_rates": {"mill": 400.0, "leach": 100.0}, "mining_rate": 1000.0}
    assert terms_of({}, rates, 1000, [800, 350]).periods == 1 + 4  # 3.5 years of leaching
    assert terms_of({}, rates, 1000, [2200, 350]).periods == 1 + 6  # 5.5 of milling


def test_rates_go_by_name_and_not_by_order(found):
    """A plan's capacities are those of its own processes, however they are told."""
    values = {"years": 6, "mining_rate": [600e3, 500e3]}
    for shown in ({"leach": 120e3, "mill": 250e3}, {"mill": 250e3, "leach": 120e3}):
        made = production_for(found.shells, values, {"process_rates": shown, "discount": 0.08})
        assert (made.capacities == found.production.capacities).all()
        assert made.key == found.production.key
    made = production_for(found.shells, values, {"discount": 0.08})
    assert (made.capacities[1:] == made.uses[1:].sum(axis=1)[:, None]).all()  # nothing limits these
    with pytest.raises(PlanError, match="no process is called so"):
        production_for(found.shells, values, {"process_rates": {"heap": 1.0}})


def test_what_ifs_of_the_rate_of_a_process():
    rates = {"process_rates": {"mill": 1e5, "leach": 5e4}}
    (one,), (both,) = vary.changes_of(["rate:leach=10"]), vary.changes_of(["rate=-50"])
    assert _changed_terms({}, rates, one)["process_rates"] == {
        "mill": 1e5,
        "leach": pytest.approx(5.5e4),
    }
    assert _changed_terms({}, rates, both)["process_rates"] == {"mill": 5e4, "leach": 2.5e4}
    none = {"process_rates": {"mill": 1e5, "leach": None}}
    with pytest.raises(PlanError, match="leach has no rate"):
        _changed_terms({}, none, one)
    with pytest.raises(PlanError, match="there are no processes, and the mill has mill_rate"):
        _changed_terms({}, {"mill_rate": 1e5}, one)
